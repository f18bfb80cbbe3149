//! The thermostat's calls but for its status byte: take a message, offer a reply, and the panel.

use super::{Answer, Message, Number, Reply, Split, Unit, STORE};

impl Unit {
    /// Take a message. "Take: 1, 2, 16, 3."
    pub fn take(&mut self, buffer: &mut [u8]) -> Answer {
        if !self.configured {
            return Answer::refused(Number::Unconfigured);
        }
        let Message::Ready(bytes) = &self.message else {
            return Answer::refused(Number::NotNow);
        };
        if buffer.len() < bytes.len() {
            return Answer::refused(Number::WrongSize);
        }
        let answer = Answer::written(buffer, bytes);
        self.message = Message::None;
        answer
    }

    /// Offer a reply. "Offer: 1, 2, 3, 16."
    pub fn offer(&mut self, reply: &[u8]) -> Answer {
        if !self.configured {
            return Answer::refused(Number::Unconfigured);
        }
        if reply.is_empty() || reply.len() > STORE {
            return Answer::refused(Number::WrongSize);
        }
        if self.reply.is_some() || self.split == Split::Clear {
            return Answer::refused(Number::NotNow);
        }
        self.reply = Some(Reply { bytes: reply.to_vec(), sent: 0 });
        Answer::done()
    }

    /// Front-panel return to local. "Panel and set status: 1, 2."
    pub fn return_to_local(&mut self) -> Answer {
        if !self.configured {
            return Answer::refused(Number::Unconfigured);
        }
        self.by_panel();
        Answer::done()
    }
}
