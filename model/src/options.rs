//! The words of a command line: what each command takes, and the numbers of its options with their limits.

use crate::unit::Fault;

pub const PLAY: &str = "model play [--fault NAME]";
pub const SCRIPTS: &str = "model scripts FILE..";
pub const COMPARE: &str = "model compare [--seed N] [--calls N] [--seconds N] [--cells] --program CMD..";
pub const FAULTS: &str = "model faults [--seed N] [--scripts]";
pub const TRAFFIC: &str = "model traffic [--seed N] [--lines N]";
pub const ONE_BY_ONE: &str = "model one-by-one --program CMD..";

const DEFAULT_SEED: u64 = 1;
const DEFAULT_CALLS: u64 = 1_000_000;
const DEFAULT_LINES: u64 = 200_000;

/// A number that an option takes, from `least` to `most`.
struct Limits {
    option: &'static str,
    least: u64,
    most: u64,
}

const SEED: Limits = Limits { option: "--seed", least: 0, most: u32::MAX as u64 };
/// Some hours.
const CALLS: Limits = Limits { option: "--calls", least: 1, most: 10_000_000_000 };
/// A week.
const SECONDS: Limits = Limits { option: "--seconds", least: 1, most: 604_800 };
/// Some 10 GB.
const LINES: Limits = Limits { option: "--lines", least: 1, most: 100_000_000 };

/// What is wrong, and under it the line that says how the command is used.
pub fn misused(wrong: &str, usage: &str) -> String {
    format!("{wrong}\nusage: {usage}")
}

/// The options of a command, each at most once: those that take a number, and those that stand alone.
struct Options<'names> {
    limits: &'names [Limits],
    alone: &'names [&'static str],
    values: Vec<Option<u64>>,
    given: Vec<bool>,
    usage: &'static str,
}

impl<'names> Options<'names> {
    fn new(limits: &'names [Limits], alone: &'names [&'static str], usage: &'static str) -> Options<'names> {
        Options { limits, alone, values: vec![None; limits.len()], given: vec![false; alone.len()], usage }
    }

    fn takes_number(&self, word: &str) -> Option<usize> {
        self.limits.iter().position(|limits| limits.option == word)
    }

    fn stands_alone(&self, word: &str) -> Option<usize> {
        self.alone.iter().position(|option| *option == word)
    }

    fn wrong(&self, wrong: String) -> Result<(), String> {
        Err(misused(&wrong, self.usage))
    }

    fn read(&mut self, words: &[String]) -> Result<(), String> {
        let mut words = words.iter();
        while let Some(word) = words.next() {
            let twice = if let Some(place) = self.takes_number(word) {
                match self.limits[place].number(words.next()) {
                    Ok(number) => self.values[place].replace(number).is_some(),
                    Err(wrong) => return self.wrong(wrong),
                }
            } else if let Some(place) = self.stands_alone(word) {
                std::mem::replace(&mut self.given[place], true)
            } else {
                let mut options: Vec<&str> = self.limits.iter().map(|limits| limits.option).collect();
                options.extend(self.alone);
                return self.wrong(format!("`{word}` is no option here: use {}.", options.join(", ")));
            };
            if twice {
                return self.wrong(format!("{word} is given twice: give it once."));
            }
        }
        Ok(())
    }

    /// How many of a program's words there are before the options at the very end. An option with nothing behind it is
    /// no word of the program.
    fn words_before(&self, words: &[String]) -> usize {
        let mut end = words.len();
        loop {
            let is_option = |back: usize, test: &dyn Fn(&str) -> bool| end >= back && test(&words[end - back]);
            if is_option(1, &|word| self.stands_alone(word).is_some()) {
                end -= 1;
            } else if is_option(2, &|word| self.takes_number(word).is_some()) {
                end -= 2;
            } else if is_option(1, &|word| self.takes_number(word).is_some()) {
                end -= 1;
            } else {
                return end;
            }
        }
    }
}

impl Limits {
    /// Decimal digits and nothing else: no sign, no point, no empty word.
    fn number(&self, word: Option<&String>) -> Result<u64, String> {
        let Limits { option, least, most } = self;
        let give = format!("give a whole number from {least} to {most}, in decimal digits.");
        let Some(word) = word else {
            return Err(format!("{option} has no number behind it: {give}"));
        };
        if word.is_empty() || !word.bytes().all(|byte| byte.is_ascii_digit()) {
            return Err(format!("{option} `{word}` is no whole number: {give}"));
        }
        match word.parse() {
            Ok(number) if number > *most => Err(format!("{option} {word} is too large: {give}")),
            Ok(number) if number < *least => Err(format!("{option} {word} is too small: {give}")),
            Ok(number) => Ok(number),
            // More digits than 64 bits have.
            Err(_) => Err(format!("{option} {word} is too large: {give}")),
        }
    }
}

/// The fault of `play`, if one is named.
pub fn play(words: &[String]) -> Result<Option<Fault>, String> {
    match words {
        [] => Ok(None),
        [option, name] if option == "--fault" => match Fault::named(name) {
            Some(fault) => Ok(Some(fault)),
            None => {
                let names: Vec<&str> = Fault::ALL.iter().map(|fault| fault.name()).collect();
                Err(misused(&format!("`{name}` is no fault: use {}.", names.join(", ")), PLAY))
            }
        },
        [option] if option == "--fault" => Err(misused("--fault has no name behind it: give one fault.", PLAY)),
        _ => Err(misused("play takes no words, or --fault and the name of one fault.", PLAY)),
    }
}

/// What `compare` is asked for.
pub struct Compare {
    /// The other program and its words.
    pub program: Vec<String>,
    pub seed: u64,
    pub calls: u64,
    pub seconds: u64,
    /// Whether each cell is printed.
    pub cells: bool,
}

/// The options stand before `--program`, or at the very end; all other words behind `--program` are the program's.
pub fn compare(words: &[String]) -> Result<Compare, String> {
    let limits = [SEED, CALLS, SECONDS];
    let mut options = Options::new(&limits, &["--cells"], COMPARE);
    let Some(at) = words.iter().position(|word| word == "--program") else {
        options.read(words)?;
        return Err(misused(
            "compare has no program to compare with: give --program and its path, such as ../target/bin/replay.",
            COMPARE,
        ));
    };
    let (own, program) = (&words[..at], &words[at + 1..]);
    let (program, after) = program.split_at(options.words_before(program));
    options.read(own)?;
    options.read(after)?;
    if program.is_empty() {
        return Err(misused(
            "--program has no program behind it: give its path, such as ../target/bin/replay.",
            COMPARE,
        ));
    }
    let (calls, seconds) = (options.values[1], options.values[2]);
    Ok(Compare {
        program: program.to_vec(),
        seed: options.values[0].unwrap_or(DEFAULT_SEED),
        calls: calls.unwrap_or(if seconds.is_some() { u64::MAX } else { DEFAULT_CALLS }),
        seconds: seconds.unwrap_or(u64::MAX),
        cells: options.given[0],
    })
}

/// The seed of `faults`, and whether the scripts are printed whole.
pub fn faults(words: &[String]) -> Result<(u64, bool), String> {
    let limits = [SEED];
    let mut options = Options::new(&limits, &["--scripts"], FAULTS);
    options.read(words)?;
    Ok((options.values[0].unwrap_or(DEFAULT_SEED), options.given[0]))
}

/// The seed of `traffic`, and how many lines.
pub fn traffic(words: &[String]) -> Result<(u64, u64), String> {
    let limits = [SEED, LINES];
    let mut options = Options::new(&limits, &[], TRAFFIC);
    options.read(words)?;
    Ok((options.values[0].unwrap_or(DEFAULT_SEED), options.values[1].unwrap_or(DEFAULT_LINES)))
}

/// The program of `one-by-one`, and its words.
pub fn one_by_one(words: &[String]) -> Result<&[String], String> {
    match words {
        [option, program @ ..] if option == "--program" && !program.is_empty() => Ok(program),
        [option] if option == "--program" => {
            Err(misused("--program has no program behind it: give its path, such as ../target/bin/replay.", ONE_BY_ONE))
        }
        _ => Err(misused("one-by-one takes --program and the program that gets the lines.", ONE_BY_ONE)),
    }
}

#[cfg(test)]
mod tests {
    use super::*;

    fn words(text: &str) -> Vec<String> {
        text.split(' ').map(str::to_string).collect()
    }

    #[test]
    fn options_stand_before_the_program_or_at_the_end() {
        let read = compare(&words("--seed 3 --program ./replay --fast 7 --calls 10")).unwrap();
        assert_eq!((read.seed, read.calls, read.seconds), (3, 10, u64::MAX));
        assert_eq!(read.program, words("./replay --fast 7"));
        let read = compare(&words("--program cat --seconds 5 --seed 4294967295")).unwrap();
        assert_eq!((read.seed, read.calls, read.seconds), (4_294_967_295, u64::MAX, 5));
        assert_eq!(read.program, words("cat"));
        assert!(!read.cells);
        for cells in
            ["--cells --program cat -u", "--program cat -u --cells --seed 1", "--program cat -u --seed 1 --cells"]
        {
            let read = compare(&words(cells)).unwrap();
            assert!(read.cells && read.seed == 1, "{cells}");
            assert_eq!(read.program, words("cat -u"));
        }
        let read = compare(&words("--program cat")).unwrap();
        assert_eq!((read.seed, read.calls, read.seconds), (1, 1_000_000, u64::MAX));
        assert_eq!(traffic(&words("--lines 100000000 --seed 0")).unwrap(), (0, 100_000_000));
        assert_eq!(traffic(&[]).unwrap(), (1, 200_000));
        assert_eq!(faults(&words("--seed 007 --scripts")).unwrap(), (7, true));
        assert_eq!(faults(&[]).unwrap(), (1, false));
    }

    #[test]
    fn a_number_is_decimal_digits_within_its_limits() {
        let wrong = [
            ("3x", "no whole number"),
            ("x", "no whole number"),
            ("", "no whole number"),
            ("-1", "no whole number"),
            ("+1", "no whole number"),
            ("1.5", "no whole number"),
            ("0x10", "no whole number"),
            ("1e6", "no whole number"),
            ("10000000001", "too large"),
            ("18446744073709551616", "too large"),
            ("99999999999999999999999999", "too large"),
            ("0", "too small"),
        ];
        for (word, what) in wrong {
            for told in [
                CALLS.number(Some(&word.to_string())).unwrap_err(),
                compare(&["--calls".to_string(), word.to_string()]).map(|_| ()).unwrap_err(),
            ] {
                assert!(told.contains(what) && told.contains("from 1 to 10000000000"), "{word}: {told}");
            }
        }
        assert!(CALLS.number(None).unwrap_err().contains("no number behind it"));
        assert_eq!(CALLS.number(Some(&"10000000000".to_string())), Ok(10_000_000_000));
        assert_eq!(CALLS.number(Some(&"1".to_string())), Ok(1));
    }
}
