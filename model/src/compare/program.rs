//! Another program that speaks the line protocol on its standard input and output.

use std::io::{Read, Write};
use std::process::{Child, Command, Stdio};
use std::sync::mpsc::{channel, Receiver, RecvTimeoutError, Sender};
use std::time::Duration;

pub struct Program {
    child: Child,
    /// To the thread that writes; dropped to close the program's input.
    blocks: Option<Sender<Vec<u8>>>,
    /// From the thread that reads; it ends with the program's output.
    chunks: Receiver<Vec<u8>>,
    unread: Vec<u8>,
    start: usize,
}

/// The next line of the program, without its newline, or why there is none.
#[derive(Clone, Debug, PartialEq, Eq)]
pub enum Heard {
    Line(Vec<u8>),
    Ended,
    Silent,
}

impl Program {
    /// Starts the program. With `hushed` what it writes on its standard error is not shown.
    pub fn start(command: &[String], hushed: bool) -> Result<Program, String> {
        let mut child = Command::new(&command[0])
            .args(&command[1..])
            .stdin(Stdio::piped())
            .stdout(Stdio::piped())
            .stderr(if hushed { Stdio::null() } else { Stdio::inherit() })
            .spawn()
            .map_err(|error| {
                format!("the program `{}` cannot be started: {error}. Build it first, and give its path.", command[0])
            })?;
        let mut input = child.stdin.take().expect("the input is a pipe");
        let mut output = child.stdout.take().expect("the output is a pipe");
        let (blocks, to_write) = channel::<Vec<u8>>();
        let (to_read, chunks) = channel::<Vec<u8>>();
        // Each way has a thread, so that neither side waits for the other with both pipes full.
        std::thread::spawn(move || {
            for block in to_write {
                if input.write_all(&block).is_err() {
                    return;
                }
            }
        });
        std::thread::spawn(move || {
            let mut chunk = vec![0; 1 << 16];
            while let Ok(length @ 1..) = output.read(&mut chunk) {
                if to_read.send(chunk[..length].to_vec()).is_err() {
                    return;
                }
            }
        });
        Ok(Program { child, blocks: Some(blocks), chunks, unread: Vec::new(), start: 0 })
    }

    pub fn send(&mut self, block: Vec<u8>) {
        if let Some(blocks) = &self.blocks {
            // A program that has ended is noticed when its answers are missing.
            let _ = blocks.send(block);
        }
    }

    pub fn close_input(&mut self) {
        self.blocks = None;
    }

    /// The next line that the program writes, waited for as long as `patience`.
    pub fn hear(&mut self, patience: Duration) -> Heard {
        let mut searched = self.start;
        loop {
            if let Some(length) = self.unread[searched..].iter().position(|&byte| byte == b'\n') {
                let end = searched + length;
                let line = self.unread[self.start..end].to_vec();
                self.start = end + 1;
                return Heard::Line(line);
            }
            self.unread.drain(..self.start);
            self.start = 0;
            searched = self.unread.len();
            match self.chunks.recv_timeout(patience) {
                Ok(chunk) => self.unread.extend_from_slice(&chunk),
                Err(RecvTimeoutError::Timeout) => return Heard::Silent,
                Err(RecvTimeoutError::Disconnected) if self.unread.is_empty() => return Heard::Ended,
                Err(RecvTimeoutError::Disconnected) => {
                    let mut line = std::mem::take(&mut self.unread);
                    line.extend_from_slice(b" (and no newline)");
                    return Heard::Line(line);
                }
            }
        }
    }
}

impl Drop for Program {
    fn drop(&mut self) {
        self.blocks = None;
        let _ = self.child.kill();
        let _ = self.child.wait();
    }
}
