//! Makes a script that shows a difference short.

use crate::line::Call;
use std::time::Instant;

/// Two answers to the line at `index` of a script that are not the same.
#[derive(Clone, Debug, PartialEq, Eq)]
pub struct Difference {
    pub index: usize,
    pub line: String,
    pub model: String,
    pub program: String,
}

pub struct Short {
    pub lines: Vec<String>,
    pub difference: Difference,
    pub trials: usize,
}

/// Drops lines while `trial` still finds a difference, until none can be dropped or the time is over. None where the
/// lines show no difference at all. Every script tried begins with `power`, unless the difference needs it not to.
pub fn shrink(
    mut lines: Vec<String>,
    deadline: Instant,
    trial: &mut dyn FnMut(&[String]) -> Option<Difference>,
) -> Option<Short> {
    let mut trials = 0;
    let mut tried = |lines: &[String]| {
        trials += 1;
        trial(lines)
    };
    let mut difference = tried(&lines)?;
    lines.truncate(difference.index + 1);
    if !lines[0].starts_with("power ") {
        let mut longer = lines.clone();
        longer.insert(0, "power 64".to_string());
        if let Some(found) = tried(&longer) {
            (lines, difference) = (longer, found);
            lines.truncate(difference.index + 1);
        }
    }
    let mut piece = (lines.len() / 2).max(1);
    loop {
        let mut dropped = false;
        let mut at = 1;
        while at < lines.len() && Instant::now() < deadline {
            let end = (at + piece).min(lines.len());
            let mut shorter = lines[..at].to_vec();
            shorter.extend_from_slice(&lines[end..]);
            match tried(&shorter) {
                Some(found) => {
                    shorter.truncate(found.index + 1);
                    (lines, difference) = (shorter, found);
                    dropped = true;
                }
                None => at = end,
            }
        }
        if Instant::now() >= deadline || (piece == 1 && !dropped) {
            break;
        }
        if !dropped {
            piece = (piece / 2).max(1);
        }
    }
    // Each call in its plainest form, if that still shows it.
    let plain: Vec<String> = lines
        .iter()
        .map(|line| match Call::read(line.as_bytes()) {
            Ok(Some(call)) => call.line(),
            _ => line.clone(),
        })
        .collect();
    if plain != lines {
        if let Some(found) = tried(&plain) {
            lines = plain;
            lines.truncate(found.index + 1);
            difference = found;
        }
    }
    Some(Short { lines, difference, trials })
}

#[cfg(test)]
mod tests {
    use super::*;
    use crate::line::Player;
    use crate::traffic::Traffic;
    use crate::unit::Fault;
    use std::time::Duration;

    fn differs(lines: &[String], fault: Fault) -> Option<Difference> {
        let (mut model, mut program) = (Player::new(None), Player::new(Some(fault)));
        lines.iter().enumerate().find_map(|(index, line)| {
            let told =
                |player: &mut Player| player.answer(line.as_bytes()).unwrap_or_else(|_| panic!("unsound: {line}"));
            let answers = (told(&mut model), told(&mut program));
            (answers.0 != answers.1).then(|| Difference {
                index,
                line: line.clone(),
                model: answers.0.unwrap_or_default(),
                program: answers.1.unwrap_or_default(),
            })
        })
    }

    #[test]
    fn every_fault_is_found_and_its_script_is_short() {
        for fault in Fault::ALL {
            let mut traffic = Traffic::new(1);
            let mut lines: Vec<String> = Vec::new();
            while differs(&lines, fault).is_none() {
                assert!(lines.len() < 100_000, "{} is not found", fault.name());
                assert_eq!(traffic.unsound_text(1), None);
                lines.extend(traffic.block(5_000).into_iter().map(|exchange| exchange.line));
            }
            let deadline = Instant::now() + Duration::from_secs(60);
            let short = shrink(lines, deadline, &mut |lines| differs(lines, fault)).unwrap();
            assert!(short.lines[0].starts_with("power "));
            // A message of 1,020 bytes in packets of 64 takes 17 lines.
            assert!(short.lines.len() <= 24, "{}: {:?}", fault.name(), short.lines);
            assert_eq!(differs(&short.lines, fault), Some(short.difference));
        }
    }
}
