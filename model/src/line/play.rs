//! Lines from an input, answered on an output.

use super::{Player, Unsound, LONGEST_LINE};
use crate::unit::Fault;
use std::io::{BufRead, Write};

/// Answers every line of `input` on `output`. What is answered is written out before more input is waited for. It ends
/// early where a line leaves the unit unsound: that line's number, from 1, and what is wrong.
pub fn play(
    input: &mut impl BufRead,
    output: &mut impl Write,
    fault: Option<Fault>,
) -> std::io::Result<Option<(u64, Unsound)>> {
    let mut player = Player::new(fault);
    let mut line = Vec::new();
    let mut pending = String::new();
    let mut lines = 0;
    loop {
        let chunk = input.fill_buf()?;
        if chunk.is_empty() {
            break;
        }
        let length = chunk.len();
        for piece in chunk.split_inclusive(|&byte| byte == b'\n') {
            let (text, ended) = match piece.strip_suffix(b"\n") {
                Some(text) => (text, true),
                None => (piece, false),
            };
            // Of a line that is too long, one byte more than it may have is kept: enough to know it.
            let room = LONGEST_LINE + 1 - line.len();
            line.extend_from_slice(&text[..text.len().min(room)]);
            if ended {
                lines += 1;
                if let Err(unsound) = answer(&mut player, &mut line, &mut pending) {
                    output.write_all(pending.as_bytes())?;
                    output.flush()?;
                    return Ok(Some((lines, unsound)));
                }
            }
        }
        input.consume(length);
        output.write_all(pending.as_bytes())?;
        output.flush()?;
        pending.clear();
    }
    // "a last line without a newline counts"
    let unsound = answer(&mut player, &mut line, &mut pending).err();
    output.write_all(pending.as_bytes())?;
    output.flush()?;
    Ok(unsound.map(|unsound| (lines + 1, unsound)))
}

fn answer(player: &mut Player, line: &mut Vec<u8>, pending: &mut String) -> Result<(), Unsound> {
    if let Some(answer) = player.answer(line)? {
        pending.push_str(&answer);
        pending.push('\n');
    }
    line.clear();
    Ok(())
}

#[cfg(test)]
mod tests {
    use super::*;

    fn answers(input: &[u8]) -> Vec<String> {
        let mut output = Vec::new();
        assert!(play(&mut &input[..], &mut output, None).unwrap().is_none());
        String::from_utf8(output).unwrap().lines().map(str::to_string).collect()
    }

    #[test]
    fn the_answers_of_each_form() {
        let script = b"setup 0009010000000000\r\nout 8001FE000000000000000000 # trigger\n\n  # nothing\n\
                       setup\ta140000000000100  24\nin\nin 63\nin3\nin3 1\nstatus 01\n\
                       setup a180020000000300\nmore\nin3 3\nmore\ntake 0\nstate";
        let state = "0 configured=1 ren=0 remote=LOCS status=01 out=running in=running message=none reply=0 \
                     split=none owed=0 tags=01,00";
        let waiting = "0 p=64 int=8201 int-endpoint=running";
        let none = "0 p=64 int=none int-endpoint=running";
        let expected = [
            "0 -",
            "0 trigger",
            "0 pulse 01",
            "5",
            "3",
            "5",
            "3",
            "0",
            "0 010200",
            waiting,
            "0 8201",
            none,
            "16",
            state,
        ];
        assert_eq!(answers(script), expected);
    }

    #[test]
    fn a_line_may_have_4096_bytes() {
        let longest = format!("offer {}", "41".repeat(2045));
        let longer = format!("{longest} ");
        let mut script = b"setup 0009010000000000\n".to_vec();
        for line in [&longest, &longer, &"x".repeat(100_000), &"#".repeat(4097), &"#".repeat(4096)] {
            script.extend_from_slice(line.as_bytes());
            script.push(b'\n');
        }
        let answers = answers(&script);
        assert_eq!(answers[1], "3");
        assert_eq!(answers.len(), 5);
        assert!(answers[2..].iter().all(|answer| answer.starts_with("? ")));
    }

    #[test]
    fn sizes_at_the_edge_can_be_read() {
        let script = b"power 65535\npower 512\nsetup 0009010000000000 2048\nin 2048\ntake 2048\nin 0511\nin 0512\n";
        assert_eq!(answers(script), ["3", "0", "0 -", "5", "16", "3", "5"]);
    }
}
