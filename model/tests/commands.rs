//! The commands, run as a user runs them.

use std::io::Write;
use std::path::{Path, PathBuf};
use std::process::{Command, Output, Stdio};

const MODEL: &str = env!("CARGO_BIN_EXE_model");

fn model(words: &[&str]) -> Output {
    Command::new(MODEL).args(words).stdin(Stdio::null()).output().unwrap()
}

fn text(bytes: &[u8]) -> String {
    String::from_utf8_lossy(bytes).into_owned()
}

/// An answer without the words behind `? `, which are free.
fn plain(answer: &str) -> &str {
    if answer.starts_with("? ") {
        return "?";
    }
    answer
}

fn vectors() -> Vec<PathBuf> {
    let folder = Path::new(env!("CARGO_MANIFEST_DIR")).join("../vectors");
    let entries = std::fs::read_dir(folder).expect("the folder vectors stands beside the folder model");
    let paths = entries.map(|entry| entry.unwrap().path());
    paths.filter(|path| path.extension().is_some_and(|extension| extension == "script")).collect()
}

#[test]
fn scripts_are_played() {
    let paths: Vec<String> = vectors().iter().map(|path| path.to_string_lossy().into_owned()).collect();
    let mut words = vec!["scripts"];
    words.extend(paths.iter().map(String::as_str));
    let output = model(&words);
    assert_eq!(output.status.code(), Some(0), "{}", text(&output.stdout));
    assert!(text(&output.stdout).contains("every answer is as expected"));
}

#[test]
fn a_script_with_a_wrong_answer_is_told() {
    let path = Path::new(env!("CARGO_TARGET_TMPDIR")).join("wrong.script");
    std::fs::write(&path, "power 64 #= 0\nin #= 5\n").unwrap();
    let output = model(&["scripts", &path.to_string_lossy()]);
    assert_eq!(output.status.code(), Some(1));
    let told = text(&output.stdout);
    assert!(told.contains("wrong.script:2:") && told.contains("expected 5") && told.contains("got      2"), "{told}");
}

#[test]
fn a_script_is_answered_as_replay_answers_it() {
    for path in vectors() {
        let script = std::fs::read_to_string(&path).unwrap();
        let mut child = Command::new(MODEL).arg("play").stdin(Stdio::piped()).stdout(Stdio::piped()).spawn().unwrap();
        let mut input = child.stdin.take().unwrap();
        let copy = script.clone();
        let writer = std::thread::spawn(move || input.write_all(copy.as_bytes()).unwrap());
        let output = child.wait_with_output().unwrap();
        writer.join().unwrap();
        let expected: Vec<&str> =
            script.lines().filter_map(|line| line.rsplit_once("#= ").map(|(_, answer)| plain(answer))).collect();
        assert_eq!(text(&output.stdout).lines().map(plain).collect::<Vec<_>>(), expected, "{}", path.display());
    }
}

#[test]
fn the_model_is_the_same_as_itself() {
    let output = model(&["compare", "--calls", "20000", "--program", MODEL, "play"]);
    let told = text(&output.stdout);
    assert_eq!(output.status.code(), Some(0), "{told}");
    assert!(told.contains("every answer is the same"), "{told}");
    // A line for each of 14 grids, and every cell only where it is asked for.
    assert!(told.starts_with("CELLS\n") && told.lines().count() < 30, "{told}");
    assert!(told.contains("\n  call x split state "), "{told}");
    let output = model(&["compare", "--calls", "20000", "--cells", "--program", MODEL, "play"]);
    let cells = text(&output.stdout);
    assert!(cells.starts_with("COVERAGE") && cells.lines().count() > 400, "{cells}");
    let summary =
        |text: &str| text.split("CELLS\n").nth(1).unwrap().lines().take(15).map(str::to_string).collect::<Vec<_>>();
    assert_eq!(summary(&cells), summary(&told));
    let output = model(&["compare", "--program", MODEL, "play", "--seed", "9", "--calls", "500", "--seconds", "60"]);
    assert!(text(&output.stdout).contains("seed 9"), "{}", text(&output.stdout));
}

#[test]
fn each_fault_is_found() {
    let faults = [
        "length-off-by-one",
        "tag-kept-over-clear",
        "half-kept-after-halt",
        "kept-request-lost",
        "packet-withdrawn",
        "alignment-refused",
        "alignment-handed-over",
        "tag-kept-over-alignment",
        "top-byte-lost",
        "index-high-byte-lost",
    ];
    for fault in faults {
        let output = model(&["compare", "--seconds", "60", "--program", MODEL, "play", "--fault", fault]);
        let told = text(&output.stdout);
        assert_eq!(output.status.code(), Some(1), "{fault}: {told}");
        assert!(told.contains("DIFFERENCE") && told.contains("This script shows it"), "{fault}: {told}");
    }
    let output = model(&["faults"]);
    let told = text(&output.stdout);
    assert_eq!(output.status.code(), Some(0), "{told}");
    assert_eq!(told.matches(": found in line ").count(), faults.len(), "{told}");
    assert!(!told.contains("#= "), "{told}");
    let told = text(&model(&["faults", "--scripts"]).stdout);
    assert_eq!(told.matches("\npower ").count(), faults.len(), "{told}");
}

/// A program that is no unit at all, and one that ends at once.
#[test]
fn a_program_that_does_not_answer_is_told() {
    for program in ["cat", "true"] {
        let output = model(&["compare", "--calls", "1000", "--program", program]);
        let told = text(&output.stdout);
        assert_eq!(output.status.code(), Some(1), "{program}: {told}");
        assert!(told.contains("DIFFERENCE"), "{program}: {told}");
    }
}

fn with_input(words: &[&str], input: &[u8]) -> Output {
    let mut child = Command::new(MODEL)
        .args(words)
        .stdin(Stdio::piped())
        .stdout(Stdio::piped())
        .stderr(Stdio::piped())
        .spawn()
        .unwrap();
    let mut to_child = child.stdin.take().unwrap();
    let copy = input.to_vec();
    // A program that ends early leaves the rest unread.
    let writer = std::thread::spawn(move || drop(to_child.write_all(&copy)));
    let output = child.wait_with_output().unwrap();
    writer.join().unwrap();
    output
}

#[test]
fn one_by_one_the_answers_are_those_of_all_at_once() {
    let traffic = model(&["traffic", "--seed", "2", "--lines", "5000"]).stdout;
    assert_eq!(traffic.split(|&byte| byte == b'\n').count(), 5000);
    let at_once = with_input(&["play"], &traffic);
    let one_by_one = with_input(&["one-by-one", "--program", MODEL, "play"], &traffic);
    assert_eq!(one_by_one.status.code(), Some(0), "{}", text(&one_by_one.stderr));
    assert!(one_by_one.stdout == at_once.stdout);
}

#[test]
fn a_line_without_an_answer_is_not_waited_for() {
    let script = b"# a comment\n\n \t \r\npower 64\n  # another\nfrobnicate\nin # the last, and no newline";
    let output = with_input(&["one-by-one", "--program", MODEL, "play"], script);
    assert_eq!(output.status.code(), Some(0), "{}", text(&output.stderr));
    let answers = text(&output.stdout);
    let answers: Vec<&str> = answers.lines().collect();
    assert_eq!(answers.len(), 3);
    assert!(answers[0] == "0" && answers[1].starts_with("? ") && answers[2] == "2", "{answers:?}");
}

/// `true` answers nothing; `cat` answers the comment too, and its bytes come back as they were sent.
#[test]
fn one_by_one_tells_what_a_program_answers() {
    let output = with_input(&["one-by-one", "--program", "true"], b"state\n");
    assert_eq!(output.status.code(), Some(1));
    assert!(text(&output.stderr).contains("no answer to line 1"), "{}", text(&output.stderr));
    let output = with_input(&["one-by-one", "--program", "cat"], b"# \xff\nstate \xfe\n");
    assert_eq!(output.status.code(), Some(0), "{}", text(&output.stderr));
    assert_eq!(output.stdout, b"# \xff\nstate \xfe\n");
}

/// 02, 2: 01's case a with old bytes in its padding. They move the tag and the remote/local state like any, and reach no
/// message; one too few is 6, four too many are 11.
#[test]
fn alignment_bytes_may_be_anything() {
    let case_a = |alignment: &str| format!("out 0101fe0006000000010000002a49444e3f0a{alignment}");
    let state = |out: &str, message: &str| {
        let before = format!("0 configured=1 ren=1 remote=REMS status=00 out={out} in=running");
        format!("{before} message={message} reply=0 split=none owed=0 tags=01,00")
    };
    let script = [
        ("setup 0009010000000000".to_string(), "0 -".to_string()),
        ("setup a1a0010000000100".to_string(), "0 01".to_string()),
        (case_a("a5ff"), "0".to_string()),
        ("state".to_string(), state("running", "ready:6")),
        ("take".to_string(), "0 2a49444e3f0a".to_string()),
        (case_a("a5"), "6".to_string()),
        ("setup 0201000001000000".to_string(), "0 -".to_string()),
        (case_a("a5ffffffffff"), "11".to_string()),
        ("state".to_string(), state("halted", "none")),
    ];
    let lines: String = script.iter().map(|(line, _)| format!("{line}\n")).collect();
    let answers = text(&with_input(&["play"], lines.as_bytes()).stdout);
    assert_eq!(answers.lines().collect::<Vec<_>>(), script.iter().map(|(_, answer)| answer).collect::<Vec<_>>());
}

/// Each ends with the usage line of its command, before a program is started: there is none of that name.
#[test]
fn what_is_wrong_with_a_command_is_said() {
    let none = "./no-such-program";
    for (words, hint) in [
        (&["play", "--fault", "none"][..], "is no fault"),
        (&["play", "--fault"], "has no name behind it"),
        (&["play", "x"], "takes no words"),
        (&["scripts"], "has no files"),
        (&["compare"], "has no program"),
        (&["compare", "--program"], "has no program behind it"),
        (&["compare", "--program", "--seed", "1"], "has no program behind it"),
        (&["compare", "--seed", "3x", "--program", none], "--seed `3x` is no whole number"),
        (&["compare", "--seed", "-3", "--program", none], "--seed `-3` is no whole number"),
        (&["compare", "--seed", "", "--program", none], "--seed `` is no whole number"),
        (&["compare", "--seed", "--program", none], "--seed has no number behind it"),
        (&["compare", "--seed", "4294967296", "--program", none], "--seed 4294967296 is too large"),
        (&["compare", "--program", none, "--seed"], "--seed has no number behind it"),
        (&["compare", "--program", none, "--seed", "3x"], "--seed `3x` is no whole number"),
        (&["compare", "--program", none, "--calls", "-1", "--seed", "3"], "--calls `-1` is no whole number"),
        (&["compare", "--calls", "many", "--program", none], "--calls `many` is no whole number"),
        (&["compare", "--calls", "0", "--program", none], "--calls 0 is too small"),
        (&["compare", "--calls", "10000000001", "--program", none], "is too large"),
        (&["compare", "--calls", "99999999999999999999", "--program", none], "is too large"),
        (&["compare", "--seconds", "0", "--program", none], "--seconds 0 is too small"),
        (&["compare", "--seconds", "1.5", "--program", none], "--seconds `1.5` is no whole number"),
        (&["compare", "--seconds", "604801", "--program", none], "is too large"),
        (&["compare", "--seed", "1", "--program", none, "--seed", "2"], "is given twice"),
        (&["compare", "--pace", "1", "--program", none], "is no option here"),
        (&["faults", "now"], "is no option here"),
        (&["faults", "--seed"], "has no number behind it"),
        (&["faults", "--seed", "3x"], "--seed `3x` is no whole number"),
        (&["faults", "--seed", "-3"], "--seed `-3` is no whole number"),
        (&["traffic", "--calls", "5"], "is no option here"),
        (&["traffic", "--lines", "0"], "--lines 0 is too small"),
        (&["traffic", "--lines", "5k"], "--lines `5k` is no whole number"),
        (&["traffic", "--lines", "100000001"], "is too large"),
        (&["traffic", "--seed", "-3"], "--seed `-3` is no whole number"),
        (&["traffic", "--seed"], "--seed has no number behind it"),
        (&["one-by-one"], "takes --program"),
        (&["one-by-one", "--program"], "has no program behind it"),
    ] {
        let output = model(words);
        let told = text(&output.stderr);
        assert_eq!(output.status.code(), Some(2), "{words:?}: {told}");
        assert!(output.stdout.is_empty(), "{words:?}");
        assert!(told.contains(hint), "{words:?}: {told}");
        let usage = told.lines().last().unwrap_or_default();
        assert!(usage.starts_with(&format!("usage: model {} ", words[0])), "{words:?}: {told}");
    }
    for (words, hint) in [
        (&[][..], "Use one of these"),
        (&["frobnicate"], "is no command"),
        (&["scripts", "no-such-file.script"], "cannot be read"),
        (&["compare", "--program", none], "cannot be started"),
        (&["one-by-one", "--program", none], "cannot be started"),
    ] {
        let output = model(words);
        assert_eq!(output.status.code(), Some(2), "{words:?}");
        assert!(text(&output.stderr).contains(hint), "{words:?}: {}", text(&output.stderr));
    }
}
