//! The same traffic to the model and to another program, and every answer line compared.

mod faults;
pub mod program;
mod report;
mod shrink;

pub use faults::report_faults;
pub use report::{report, thousands};

use crate::coverage::Coverage;
use crate::line::Player;
use crate::options::Compare;
use crate::traffic::{Exchange, Traffic};
use program::{Heard, Program};
use shrink::{shrink, Difference, Short};
use std::collections::VecDeque;
use std::time::{Duration, Instant};

/// Lines are sent in blocks of this many, and then so many answers are read.
const BLOCK: usize = 1_000;
/// Blocks kept to find the script that shows a difference.
const KEPT: usize = 50;
/// How long an answer is waited for, in the run and in a trial of the shrinking.
const PATIENCE: Duration = Duration::from_secs(30);
const TRIAL_PATIENCE: Duration = Duration::from_secs(3);
/// How long a script is made shorter.
const SHRINKING: Duration = Duration::from_secs(60);

/// What a comparison came to.
pub struct Compared {
    pub lines: u64,
    pub seconds: f64,
    pub coverage: Coverage,
    pub end: End,
}

pub enum End {
    Same,
    Differs(Found),
    /// The model's own unit is unsound: which line left it so, and how.
    Unsound(String),
}

pub struct Found {
    /// The line of the traffic, from 1, and the two answers to it.
    pub place: u64,
    pub difference: Difference,
    /// None where a fresh program does not show it after the lines kept.
    pub short: Option<Short>,
}

/// Lines that cannot be read are answered in free words, so two such answers count as equal.
fn equal(model: &str, program: &str) -> bool {
    model == program || (model.starts_with("? ") && program.starts_with("? "))
}

fn heard(program: &mut Program, patience: Duration) -> Result<String, String> {
    match program.hear(patience) {
        Heard::Line(line) => Ok(String::from_utf8_lossy(&line).into_owned()),
        Heard::Ended => Err("(no answer: the program ended)".to_string()),
        Heard::Silent => Err(format!("(no answer within {} seconds)", patience.as_secs())),
    }
}

/// The first answer of the program to a block that is not the model's.
fn first_difference(program: &mut Program, block: &[Exchange]) -> Option<Difference> {
    for (index, exchange) in block.iter().enumerate() {
        let Some(model) = &exchange.answer else { continue };
        let answer = heard(program, PATIENCE);
        if !answer.as_ref().is_ok_and(|answer| equal(model, answer)) {
            let program = answer.unwrap_or_else(|missing| missing);
            return Some(Difference { index, line: exchange.line.clone(), model: model.clone(), program });
        }
    }
    None
}

fn text<'lines>(lines: impl Iterator<Item = &'lines String>) -> Vec<u8> {
    let mut text = Vec::new();
    for line in lines {
        text.extend_from_slice(line.as_bytes());
        text.push(b'\n');
    }
    text
}

/// Runs the comparison. With `hushed` the program's standard error is not shown.
pub fn compare(options: &Compare, hushed: bool) -> Result<Compared, String> {
    compare_traffic(options, Traffic::new(options.seed), hushed)
}

fn compare_traffic(options: &Compare, mut traffic: Traffic, hushed: bool) -> Result<Compared, String> {
    let begun = Instant::now();
    let limit = Duration::from_secs(options.seconds);
    let mut program = Program::start(&options.program, hushed)?;
    let mut kept: VecDeque<Vec<Exchange>> = VecDeque::new();
    // A block is made and sent while the program still answers the one before.
    let mut waiting: Option<Vec<Exchange>> = None;
    let mut lines = 0;
    let end = loop {
        let more = traffic.coverage.calls < options.calls && begun.elapsed() < limit;
        let next = more.then(|| {
            let left = usize::try_from(options.calls - traffic.coverage.calls).unwrap_or(usize::MAX);
            let block = traffic.block(BLOCK.min(left));
            program.send(text(block.iter().map(|exchange| &exchange.line)));
            block
        });
        if let Some(unsound) = traffic.unsound_text(options.seed) {
            break End::Unsound(unsound);
        }
        if let Some(block) = waiting.take() {
            let difference = first_difference(&mut program, &block);
            let place = lines + difference.as_ref().map_or(0, |difference| difference.index as u64 + 1);
            lines += block.len() as u64;
            if let Some(difference) = difference {
                drop(program);
                let mut script: Vec<Exchange> = kept.into_iter().flatten().collect();
                script.extend(block.into_iter().take(difference.index + 1));
                let short = shorten(options, script);
                break End::Differs(Found { place, difference, short });
            }
            kept.push_back(block);
            if kept.len() > KEPT {
                kept.pop_front();
            }
        }
        waiting = next;
        if waiting.is_none() {
            break match last_line(&mut program, &mut traffic) {
                Some(difference) => End::Differs(Found { place: lines + 1, difference, short: None }),
                None => End::Same,
            };
        }
    };
    Ok(Compared { lines, seconds: begun.elapsed().as_secs_f64(), coverage: traffic.coverage, end })
}

/// "a last line without a newline counts": `state` comes so, and after its answer the output is to end.
fn last_line(program: &mut Program, traffic: &mut Traffic) -> Option<Difference> {
    let last = traffic.last().expect("the traffic has not ended: `state` moves nothing");
    let model = last.answer.clone().unwrap_or_default();
    program.send(last.line.clone().into_bytes());
    program.close_input();
    let differs =
        |model: String, program: String| Some(Difference { index: 0, line: last.line.clone(), model, program });
    match heard(program, PATIENCE) {
        Ok(answer) if equal(&model, &answer) => {}
        Ok(answer) | Err(answer) => return differs(model, answer),
    }
    match program.hear(PATIENCE) {
        Heard::Ended => None,
        Heard::Line(line) => differs("(no more answers)".to_string(), String::from_utf8_lossy(&line).into_owned()),
        Heard::Silent => {
            differs("(the output ends with the input)".to_string(), "(the program still runs)".to_string())
        }
    }
}

/// From the last `power` that shows the difference on, and then line by line shorter.
fn shorten(options: &Compare, script: Vec<Exchange>) -> Option<Short> {
    let lines: Vec<String> = script.into_iter().map(|exchange| exchange.line).collect();
    let deadline = Instant::now() + SHRINKING;
    let mut trial = |lines: &[String]| try_script(&options.program, lines);
    let powers = (0..lines.len()).rev().filter(|&at| lines[at].starts_with("power "));
    // The last one, and then ever more of what came before.
    let mut starts: Vec<usize> =
        powers.enumerate().filter(|(count, _)| (count + 1usize).is_power_of_two()).map(|(_, at)| at).collect();
    starts.push(0);
    starts.into_iter().find_map(|start| shrink(lines[start..].to_vec(), deadline, &mut trial))
}

/// Plays a script on a fresh model and a fresh program.
fn try_script(command: &[String], lines: &[String]) -> Option<Difference> {
    let mut player = Player::new(None);
    let mut program = Program::start(command, true).ok()?;
    program.send(text(lines.iter()));
    program.close_input();
    for (index, line) in lines.iter().enumerate() {
        let Some(model) = models_answer(&mut player, line) else { continue };
        let answer = heard(&mut program, TRIAL_PATIENCE);
        if !answer.as_ref().is_ok_and(|answer| equal(&model, answer)) {
            let program = answer.unwrap_or_else(|missing| missing);
            return Some(Difference { index, line: line.clone(), model, program });
        }
    }
    None
}

/// The model's answer to a line. A unit that it leaves unsound is told in its place, and equals no answer.
fn models_answer(player: &mut Player, line: &str) -> Option<String> {
    player.answer(line.as_bytes()).unwrap_or_else(|unsound| Some(format!("(unsound: {})", unsound.clause.says)))
}

#[cfg(test)]
mod tests {
    use super::*;
    use crate::unit::Fault;

    /// Three of the faults break a clause of soundness. With one of them in the model that makes the traffic, and that is
    /// watched, the comparison stops there, in every build; the program is not asked for answers.
    #[test]
    fn a_comparison_stops_where_the_model_is_unsound() {
        // `cat` answers nothing as a unit does, so it has to be a seed whose first block comes to all three.
        let seed = 4;
        for (fault, clause) in [
            (Fault::LengthOffByOne, "out-room"),
            (Fault::TagKeptOverClear, "clear-tags"),
            (Fault::HalfKeptAfterHalt, "out-halt"),
        ] {
            let mut traffic = Traffic::new(seed);
            traffic.player = Player::new(Some(fault));
            traffic.player.is_watched = true;
            let options =
                Compare { program: vec!["cat".to_string()], seed, calls: 1_000_000, seconds: 60, cells: false };
            let compared = compare_traffic(&options, traffic, true).unwrap();
            let End::Unsound(text) = &compared.end else { panic!("{} is not told", fault.name()) };
            let place = format!("of the traffic of seed {seed} leaves");
            for words in [&place, &format!("clause   {clause}: "), "call     "] {
                assert!(text.contains(words), "{words}: {text}");
            }
            // The line that is named is the one: up to it the same traffic leaves a sound unit.
            let place: String = text.split("line ").nth(1).unwrap().chars().take_while(char::is_ascii_digit).collect();
            let place: usize = place.parse().unwrap();
            let mut player = Player::new(Some(fault));
            player.is_watched = true;
            let mut again = Traffic::new(seed);
            again.player = Player::new(Some(fault));
            let lines: Vec<String> = again.block(place).into_iter().map(|exchange| exchange.line).take(place).collect();
            for line in &lines[..place - 1] {
                assert!(player.answer(line.as_bytes()).is_ok(), "{line}");
            }
            assert_eq!(
                player.answer(lines[place - 1].as_bytes()).err().map(|unsound| unsound.clause.name),
                Some(clause)
            );
        }
    }

    #[test]
    fn answers_in_free_words_are_equal() {
        assert!(equal("? this", "? that"));
        assert!(!equal("? this", "0"));
        assert!(!equal("0 -", "0"));
    }
}
