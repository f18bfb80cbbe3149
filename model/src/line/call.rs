//! A line to a call, and a call to its plainest line.

use super::{LARGEST_BUFFER, LARGEST_P, LONGEST_LINE};
use crate::unit::{CONTROL_BUFFER, NOTIFY, STORE};

/// A line that could be read. A buffer that was left out has its default, but for `in`, whose default is P.
#[derive(Clone, Debug, PartialEq, Eq)]
pub enum Call {
    Power(usize),
    Setup(Vec<u8>, usize),
    Out(Vec<u8>),
    In(Option<usize>),
    In3(usize),
    Take(usize),
    Offer(Vec<u8>),
    Status(u8),
    Local,
    Reset,
    Suspend,
    State,
    More,
}

const CALLS: &str = "power, setup, out, in, in3, take, offer, status, local, reset, suspend, state or more";

impl Call {
    /// Reads a line without its newline. None is a blank line or a comment, which has no answer.
    pub fn read(line: &[u8]) -> Result<Option<Call>, String> {
        if line.len() > LONGEST_LINE {
            return Err(format!("the line has over {LONGEST_LINE} bytes and was skipped: send shorter lines"));
        }
        let line = line.strip_suffix(b"\r").unwrap_or(line);
        let line = line.split(|&byte| byte == b'#').next().unwrap_or(line);
        let mut words = line.split(|&byte| byte == b' ' || byte == b'\t').filter(|word| !word.is_empty());
        let Some(name) = words.next() else { return Ok(None) };
        let first = words.next();
        let second = words.next();
        let third = words.next();
        // Each call takes from `least` to `most` words after its name.
        let takes = |least: usize, most: usize| {
            let given = [first, second, third].iter().flatten().count();
            if given < least {
                Err(format!("{} needs a word more", shown(name)))
            } else if given > most {
                Err(format!("{} is a word too many for {}", shown([first, second, third][most].unwrap()), shown(name)))
            } else {
                Ok(())
            }
        };
        let call = match name {
            b"power" => {
                takes(1, 1)?;
                Call::Power(decimal("the packet size", first.unwrap(), LARGEST_P)?)
            }
            b"setup" => {
                takes(1, 2)?;
                Call::Setup(hex(first.unwrap())?, buffer(second)?.unwrap_or(CONTROL_BUFFER))
            }
            b"out" => {
                takes(1, 1)?;
                Call::Out(hex(first.unwrap())?)
            }
            b"in" => {
                takes(0, 1)?;
                Call::In(buffer(first)?)
            }
            b"in3" => {
                takes(0, 1)?;
                Call::In3(buffer(first)?.unwrap_or(NOTIFY))
            }
            b"take" => {
                takes(0, 1)?;
                Call::Take(buffer(first)?.unwrap_or(STORE))
            }
            b"offer" => {
                takes(1, 1)?;
                Call::Offer(hex(first.unwrap())?)
            }
            b"status" => {
                takes(1, 1)?;
                match hex(first.unwrap())?[..] {
                    [status] => Call::Status(status),
                    _ => return Err(format!("{} is no status byte: give two hex digits", shown(first.unwrap()))),
                }
            }
            b"local" | b"reset" | b"suspend" | b"state" | b"more" => {
                takes(0, 0)?;
                match name {
                    b"local" => Call::Local,
                    b"reset" => Call::Reset,
                    b"suspend" => Call::Suspend,
                    b"state" => Call::State,
                    _ => Call::More,
                }
            }
            _ => return Err(format!("{} is no call: use {CALLS}", shown(name))),
        };
        Ok(Some(call))
    }

    /// The plainest line for this call.
    pub fn line(&self) -> String {
        match self {
            Call::Power(size) => format!("power {size}"),
            Call::Setup(packet, CONTROL_BUFFER) => format!("setup {}", hex_or_dash(packet)),
            Call::Setup(packet, buffer) => format!("setup {} {buffer}", hex_or_dash(packet)),
            Call::Out(packet) => format!("out {}", hex_or_dash(packet)),
            Call::In(None) => "in".to_string(),
            Call::In(Some(buffer)) => format!("in {buffer}"),
            Call::In3(NOTIFY) => "in3".to_string(),
            Call::In3(buffer) => format!("in3 {buffer}"),
            Call::Take(STORE) => "take".to_string(),
            Call::Take(buffer) => format!("take {buffer}"),
            Call::Offer(reply) => format!("offer {}", hex_or_dash(reply)),
            Call::Status(status) => format!("status {status:02x}"),
            Call::Local => "local".to_string(),
            Call::Reset => "reset".to_string(),
            Call::Suspend => "suspend".to_string(),
            Call::State => "state".to_string(),
            Call::More => "more".to_string(),
        }
    }
}

fn shown(word: &[u8]) -> String {
    let text = word[..word.len().min(24)].escape_ascii().to_string();
    if word.len() > 24 {
        format!("`{text}..`")
    } else {
        format!("`{text}`")
    }
}

fn decimal(what: &str, word: &[u8], most: u64) -> Result<usize, String> {
    if !word.iter().all(u8::is_ascii_digit) {
        return Err(format!("{} is no number: {what} is decimal digits", shown(word)));
    }
    let number =
        word.iter().fold(0u64, |number, digit| number.saturating_mul(10).saturating_add(u64::from(digit - b'0')));
    if number > most {
        return Err(format!("{} is too large: {what} is at most {most}", shown(word)));
    }
    Ok(number as usize)
}

fn buffer(word: Option<&[u8]>) -> Result<Option<usize>, String> {
    word.map(|word| decimal("a buffer", word, LARGEST_BUFFER)).transpose()
}

fn hex(word: &[u8]) -> Result<Vec<u8>, String> {
    if word == b"-" {
        return Ok(Vec::new());
    }
    let digit = |byte: u8| (byte as char).to_digit(16).map(|digit| digit as u8);
    if let Some(&wrong) = word.iter().find(|&&byte| digit(byte).is_none()) {
        return Err(format!("{} is no hex digit: give pairs of hex digits, or - for no bytes", shown(&[wrong])));
    }
    if word.len() % 2 != 0 {
        return Err(format!("{} has an odd number of hex digits: give two for each byte", shown(word)));
    }
    Ok(word.chunks(2).map(|pair| digit(pair[0]).unwrap() << 4 | digit(pair[1]).unwrap()).collect())
}

pub fn hex_or_dash(bytes: &[u8]) -> String {
    if bytes.is_empty() {
        return "-".to_string();
    }
    const DIGITS: &[u8; 16] = b"0123456789abcdef";
    let mut text = String::with_capacity(bytes.len() * 2);
    for byte in bytes {
        text.push(DIGITS[usize::from(byte >> 4)] as char);
        text.push(DIGITS[usize::from(byte & 15)] as char);
    }
    text
}

#[cfg(test)]
mod tests {
    use super::*;

    #[test]
    fn a_call_and_its_line_agree() {
        for line in [
            "power 64",
            "setup 0009010000000000",
            "setup - 23",
            "out -",
            "out 0102",
            "in",
            "in 64",
            "in3",
            "in3 0",
            "take",
            "take 3",
            "offer 41",
            "status 0f",
            "local",
            "reset",
            "suspend",
            "state",
            "more",
        ] {
            assert_eq!(Call::read(line.as_bytes()).unwrap().unwrap().line(), line);
        }
    }
}
