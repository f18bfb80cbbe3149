//! The text of the command `compare`: the coverage and the verdict, or the difference and a short script.

use super::shrink::{Difference, Short};
use super::{compare, models_answer, End, Found};
use crate::coverage::ENOUGH_CALLS;
use crate::line::{Player, LONGEST_LINE};
use crate::options::Compare;

pub fn thousands(number: u64) -> String {
    let digits = number.to_string();
    let mut text = String::new();
    for (at, digit) in digits.chars().enumerate() {
        if at > 0 && (digits.len() - at) % 3 == 0 {
            text.push(',');
        }
        text.push(digit);
    }
    text
}

/// A line as it is printed: one of over `most` bytes only in part.
pub(super) fn shown(line: &str, most: usize) -> String {
    match line.get(..60) {
        Some(start) if line.len() > most => {
            format!("{}.. ({} bytes)", start.escape_debug(), thousands(line.len() as u64))
        }
        _ => line.escape_debug().to_string(),
    }
}

/// A short script in the form of the vectors, with the model's answers behind `#= `.
pub(super) fn script_text(short: &Short) -> String {
    let mut player = Player::new(None);
    let mut text = String::new();
    for line in &short.lines {
        match models_answer(&mut player, line) {
            Some(answer) => text.push_str(&format!("{} #= {answer}\n", shown(line, LONGEST_LINE))),
            None => text.push_str(&format!("{}\n", shown(line, LONGEST_LINE))),
        }
    }
    text
}

impl Found {
    pub(super) fn print(&self, seed: u64) -> String {
        let Difference { line, model, program, .. } = &self.difference;
        let mut text = format!(
            "DIFFERENCE in line {} of the traffic of seed {seed}:\n  line     {}\n  model    {model}\n  \
             program  {program}\n",
            thousands(self.place),
            shown(line, LONGEST_LINE),
        );
        match &self.short {
            Some(short) => {
                text.push_str(&format!(
                    "\nThis script shows it ({} lines, {} trials), with the model's answers:\n\n{}\n",
                    short.lines.len(),
                    short.trials,
                    script_text(short),
                ));
                text.push_str(&format!(
                    "To the last line, `{}`:\n  model    {}\n  program  {}\n",
                    shown(&short.difference.line, LONGEST_LINE),
                    short.difference.model,
                    short.difference.program,
                ));
                text.push_str(
                    "\nFind the sentence of 01 or 02 that decides it, put the side right that breaks it, and keep\n\
                     the script as a vector.\n",
                );
            }
            None => text.push_str(&format!(
                "\nA fresh program does not show it after the lines before it. Look first whether it is the end of\n\
                 the input: the last line has no newline, and counts. Else run it again with --seed {seed}: if it\n\
                 comes in the same line, the program keeps something over `power`; if not, its answers are not\n\
                 settled by its input.\n"
            )),
        }
        text
    }
}

/// The command `compare`: its text, and whether all is well.
pub fn report(options: &Compare) -> Result<(String, bool), String> {
    let compared = compare(options, false)?;
    let calls = compared.coverage.calls;
    match compared.end {
        End::Differs(found) => return Ok((found.print(options.seed), false)),
        End::Unsound(unsound) => return Ok((unsound, false)),
        End::Same => {}
    }
    let mut text = if options.cells { compared.coverage.print() } else { String::new() };
    text.push_str(&compared.coverage.summary());
    let empty = compared.coverage.empty();
    let impossible = compared.coverage.impossible();
    text.push_str(&format!(
        "\n{} calls, {} `state` and `more`, {} lines in all, seed {}, {:.1} seconds: every answer is the same.\n",
        thousands(calls),
        thousands(compared.coverage.states),
        thousands(compared.lines),
        options.seed,
        compared.seconds,
    ));
    let mut well = true;
    if !impossible.is_empty() {
        well = false;
        text.push_str(&format!(
            "FAILED: the model came to {} cells that 01 and 02 do not allow:\n  {}\n\
             Put the model right, or the table.\n",
            impossible.len(),
            impossible.join("\n  "),
        ));
    }
    if empty.is_empty() {
        text.push_str("No allowed cell is empty.\n");
    } else if calls < ENOUGH_CALLS {
        text.push_str(&format!(
            "{} allowed cells are empty. That counts from {} calls on: give --calls or --seconds more.\n",
            empty.len(),
            thousands(ENOUGH_CALLS),
        ));
    } else {
        well = false;
        text.push_str(&format!(
            "FAILED: {} allowed cells are empty:\n  {}\nTeach the traffic to come there, or try another --seed.\n",
            empty.len(),
            empty.join("\n  "),
        ));
    }
    Ok((text, well))
}

#[cfg(test)]
mod tests {
    use super::*;

    #[test]
    fn numbers_are_written_in_threes() {
        assert_eq!(thousands(0), "0");
        assert_eq!(thousands(999), "999");
        assert_eq!(thousands(1_000), "1,000");
        assert_eq!(thousands(12_345_678), "12,345,678");
    }
}
