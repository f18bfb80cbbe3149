//! An independent model of the unit of documents 01 and 02, and a comparison of it with a program that speaks `replay`'s lines.

// `length % 4 != 0` reads as the paper does.
#![allow(clippy::manual_is_multiple_of)]

mod bulk;
mod calls;
mod cells;
mod compare;
mod coverage;
mod line;
mod options;
mod random;
mod scenes;
mod scripts;
mod traffic;
mod unit;

use std::io::{BufWriter, Write};
use std::process::ExitCode;

const USAGE: &str = "\
model play [--fault NAME]      answers the lines of standard input, as `replay` does
model scripts FILE..           plays scripts and compares with the answers behind `#= `
model compare [--seed N] [--calls N] [--seconds N] [--cells] --program CMD..
                               sends the same traffic to a program and the model and compares every answer;
                               with --cells it shows how often each cell of the coverage was touched
model faults [--seed N] [--scripts]
                               tries whether the comparison finds each of eight deliberate faults; with
                               --scripts it shows the script for each
model traffic [--seed N] [--lines N]
                               writes the first lines of the traffic that `compare` sends, 200,000 of them
model one-by-one --program CMD..
                               gives a program the lines of standard input, each after its answer to the one
                               before, and writes its answers

--seed, --calls, --seconds and --cells may also stand at the end, after the words of the program. Without --calls
and --seconds a comparison has 1,000,000 calls. Faults: length-off-by-one, tag-kept-over-clear, half-kept-after-halt,
kept-request-lost, packet-withdrawn, alignment-refused, alignment-handed-over, tag-kept-over-alignment.
Exit: 0 all is well, 1 there is a difference, an empty cell or an unsound unit, 2 the command cannot be carried out.
";

fn main() -> ExitCode {
    let words: Vec<String> = std::env::args().skip(1).collect();
    let result = match words.first().map(String::as_str) {
        Some("play") => play(&words[1..]),
        Some("scripts") => play_scripts(&words[1..]),
        Some("compare") => options::compare(&words[1..]).and_then(|asked| show(compare::report(&asked)?)),
        Some("faults") => faults(&words[1..]),
        Some("traffic") => traffic(&words[1..]),
        Some("one-by-one") => one_by_one(&words[1..]),
        Some("help" | "--help" | "-h") => show((USAGE.to_string(), true)),
        Some(other) => Err(format!("`{other}` is no command. Use one of these:\n\n{USAGE}")),
        None => Err(format!("a command is missing. Use one of these:\n\n{USAGE}")),
    };
    match result {
        Ok(true) => ExitCode::SUCCESS,
        Ok(false) => ExitCode::from(1),
        Err(wrong) => {
            eprintln!("model: {wrong}");
            ExitCode::from(2)
        }
    }
}

/// Writes a report. A reader that went away is no fault of the report.
fn show((text, well): (String, bool)) -> Result<bool, String> {
    let _ = std::io::stdout().write_all(text.as_bytes());
    Ok(well)
}

fn play(words: &[String]) -> Result<bool, String> {
    let fault = options::play(words)?;
    let mut input = std::io::stdin().lock();
    let mut output = std::io::stdout().lock();
    let unsound = line::play(&mut input, &mut output, fault)
        .map_err(|error| format!("standard input or output broke: {error}. Run it again with both connected."))?;
    if let Some((line, unsound)) = &unsound {
        eprint!("model: {}", unsound.print(&format!("line {line} of the input")));
    }
    Ok(unsound.is_none())
}

fn play_scripts(files: &[String]) -> Result<bool, String> {
    if files.is_empty() {
        return Err(options::misused(
            "scripts has no files: give some, such as ../vectors/*.script.",
            options::SCRIPTS,
        ));
    }
    let mut calls = 0;
    let mut differences = Vec::new();
    for file in files {
        let text = std::fs::read_to_string(file).map_err(|error| {
            format!("{file} cannot be read: {error}. Give the names of scripts, such as ../vectors/*.script.")
        })?;
        let played = scripts::play(file, &text);
        calls += played.calls;
        differences.extend(played.differences);
    }
    let scripts = if files.len() == 1 { "script" } else { "scripts" };
    let mut text = format!("{} {scripts}, {} calls: ", files.len(), compare::thousands(calls as u64));
    if differences.is_empty() {
        text.push_str("every answer is as expected.\n");
    } else {
        text.push_str(&format!(
            "{} differences. Find the sentence of 01 or 02 that decides each, and put right what breaks it.\n{}\n",
            differences.len(),
            differences.join("\n"),
        ));
    }
    show((text, differences.is_empty()))
}

fn faults(words: &[String]) -> Result<bool, String> {
    let (seed, scripts) = options::faults(words)?;
    let own_path = std::env::current_exe().map_err(|error| {
        format!("the model's own path is not known: {error}. Use `model compare --program model play --fault NAME`.")
    })?;
    show(compare::report_faults(&own_path.to_string_lossy(), seed, scripts)?)
}

fn traffic(words: &[String]) -> Result<bool, String> {
    let (seed, lines) = options::traffic(words)?;
    let mut output = BufWriter::new(std::io::stdout().lock());
    bulk::unless_closed(bulk::write_traffic(seed, lines, &mut output))
}

fn one_by_one(words: &[String]) -> Result<bool, String> {
    let program = options::one_by_one(words)?;
    let mut output = BufWriter::new(std::io::stdout().lock());
    bulk::one_by_one(program, &mut std::io::stdin().lock(), &mut output)
}
