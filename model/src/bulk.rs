//! Traffic as lines, and a program that gets each line only after its answer to the one before.

use crate::compare::program::{Heard, Program};
use crate::line::Call;
use crate::traffic::Traffic;
use std::io::{BufRead, ErrorKind, Write};
use std::time::Duration;

/// How many lines of the traffic are made at a time.
const BLOCK: usize = 1_000;
/// How long an answer is waited for.
const PATIENCE: Duration = Duration::from_secs(30);

/// Writes the first lines of the traffic that a comparison sends for the same seed. The last of them is `state` without
/// a newline, as it is there. Where the traffic ends early, since the model's unit is unsound, that is told.
pub fn write_traffic(seed: u64, lines: u64, output: &mut impl Write) -> std::io::Result<Option<String>> {
    let mut traffic = Traffic::new(seed);
    let mut left = usize::try_from(lines - 1).unwrap_or(usize::MAX);
    while left > 0 {
        let block = traffic.block(BLOCK);
        for exchange in block.iter().take(left) {
            writeln!(output, "{}", exchange.line)?;
        }
        left -= block.len().min(left);
        if traffic.unsound.is_some() {
            break;
        }
    }
    if let Some(last) = traffic.last() {
        write!(output, "{}", last.line)?;
    }
    output.flush()?;
    Ok(traffic.unsound_text(seed))
}

/// Gives the lines of `input` to a program, each after its answer to the one before, and writes all that it answers. A
/// blank line or a comment has no answer to wait for. A last line without a newline is given as it stands.
pub fn one_by_one(command: &[String], input: &mut impl BufRead, output: &mut impl Write) -> Result<bool, String> {
    let broken =
        |error: std::io::Error| format!("standard input or output broke: {error}. Run it again with both connected.");
    let mut program = Program::start(command, false)?;
    let mut line = Vec::new();
    let mut count = 0u64;
    while input.read_until(b'\n', &mut line).map_err(broken)? > 0 {
        count += 1;
        let text = line.strip_suffix(b"\n").unwrap_or(&line);
        let is_answered = !matches!(Call::read(text), Ok(None));
        let is_last = text.len() == line.len();
        program.send(line.clone());
        if is_last {
            program.close_input();
        }
        if is_answered {
            match program.hear(PATIENCE) {
                Heard::Line(answer) => write_line(output, answer).map_err(broken)?,
                Heard::Ended => return missing(output, count, "the program ended").map_err(broken),
                Heard::Silent => return missing(output, count, "the program is silent").map_err(broken),
            }
        }
        line.clear();
    }
    program.close_input();
    // What it writes beyond one answer to a line.
    loop {
        match program.hear(PATIENCE) {
            Heard::Line(more) => write_line(output, more).map_err(broken)?,
            Heard::Ended => break,
            Heard::Silent => return missing(output, count, "its input has ended and it still runs").map_err(broken),
        }
    }
    output.flush().map_err(broken)?;
    Ok(true)
}

fn write_line(output: &mut impl Write, mut line: Vec<u8>) -> std::io::Result<()> {
    line.push(b'\n');
    output.write_all(&line)
}

/// The answers so far are written, and it is said where they stop.
fn missing(output: &mut impl Write, line: u64, why: &str) -> std::io::Result<bool> {
    output.flush()?;
    eprintln!("model: no answer to line {line}: {why}.");
    Ok(false)
}

/// A reader that went away is no fault of the traffic.
pub fn unless_closed(result: std::io::Result<Option<String>>) -> Result<bool, String> {
    match result {
        Ok(Some(unsound)) => {
            eprint!("model: {unsound}");
            Ok(false)
        }
        Err(error) if error.kind() != ErrorKind::BrokenPipe => {
            Err(format!("standard output broke: {error}. Run it again with room to write."))
        }
        _ => Ok(true),
    }
}

#[cfg(test)]
mod tests {
    use super::*;

    fn traffic(seed: u64, lines: u64) -> String {
        let mut output = Vec::new();
        assert_eq!(write_traffic(seed, lines, &mut output).unwrap(), None);
        String::from_utf8(output).unwrap()
    }

    #[test]
    fn the_lines_are_those_of_a_comparison() {
        let text = traffic(3, 5_001);
        let (lines, last) = text.rsplit_once('\n').unwrap();
        assert_eq!(last, "state");
        let mut compared = Traffic::new(3);
        let sent: Vec<String> = compared.block(5_000).into_iter().map(|exchange| exchange.line).take(5_000).collect();
        assert_eq!(lines.split('\n').collect::<Vec<_>>(), sent);
    }

    #[test]
    fn there_are_as_many_lines_as_were_asked_for() {
        for lines in [1, 2, 1_000, 1_001, 2_500] {
            assert_eq!(traffic(1, lines).split('\n').count() as u64, lines);
        }
    }
}
