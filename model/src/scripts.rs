//! Scripts with expected answers: each call of a script carries its answer behind `#= `.

use crate::line::{Call, Player};

/// What playing a script gave: its calls, and a sentence for each that was not answered as expected.
pub struct Played {
    pub calls: usize,
    pub differences: Vec<String>,
}

/// Plays the text of a script on a fresh model. `name` stands before the line number in each difference.
pub fn play(name: &str, text: &str) -> Played {
    let mut player = Player::new(None);
    let mut played = Played { calls: 0, differences: Vec::new() };
    for (index, line) in text.lines().enumerate() {
        let place = format!("{name}:{}", index + 1);
        let expected = line.rfind("#= ").map(|at| &line[at + 3..]);
        let got = match Call::read(line.as_bytes()) {
            Ok(None) => {
                if expected.is_some() {
                    played
                        .differences
                        .push(format!("{place}: an answer is expected, but there is no call: write one before it"));
                }
                continue;
            }
            Ok(Some(call)) => match player.play(&call) {
                Ok(answered) => answered.line(),
                Err(unsound) => {
                    played.differences.push(unsound.print(&place));
                    return played;
                }
            },
            Err(wrong) => format!("? {wrong}"),
        };
        played.calls += 1;
        match expected {
            None => played.differences.push(format!("{place}: the call has no expected answer: write it behind `#= `")),
            Some(expected) if expected == got => {}
            Some(expected) if expected.starts_with("? ") && got.starts_with("? ") => {}
            Some(expected) => played.differences.push(format!("{place}:\n  expected {expected}\n  got      {got}")),
        }
    }
    played
}

#[cfg(test)]
mod tests {
    use super::*;
    use std::path::Path;

    /// The scripts of ../vectors were written from the paper by other hands.
    #[test]
    fn every_vector_passes() {
        let folder = Path::new(env!("CARGO_MANIFEST_DIR")).join("../vectors");
        let mut scripts = 0;
        for entry in std::fs::read_dir(&folder).expect("the folder vectors stands beside the folder model") {
            let path = entry.unwrap().path();
            if path.extension().is_some_and(|extension| extension == "script") {
                let text = std::fs::read_to_string(&path).unwrap();
                let played = play(&path.file_name().unwrap().to_string_lossy(), &text);
                assert!(played.differences.is_empty(), "{}", played.differences.join("\n"));
                assert!(played.calls > 0, "{} has no calls", path.display());
                scripts += 1;
            }
        }
        assert!(scripts > 0, "there are no scripts in ../vectors");
    }

    #[test]
    fn what_is_wrong_is_said() {
        let played = play("x", "power 64 #= 0\nin #= 5\nin\n# a comment\n#= 0\nfrobnicate #= ? anything\n");
        assert_eq!(played.calls, 4);
        assert_eq!(played.differences.len(), 3);
        assert!(played.differences[0].starts_with("x:2:"));
        assert!(played.differences[1].starts_with("x:3:"));
        assert!(played.differences[2].starts_with("x:5:"));
    }
}
