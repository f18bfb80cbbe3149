//! The command `faults`: a second model with a deliberate fault, which the comparison has to find.

use super::report::{script_text, shown, thousands};
use super::{compare, End, Found};
use crate::options::Compare;
use crate::unit::Fault;

/// How much of a line is shown where the script is not.
const SHOWN: usize = 80;

/// The command `faults`: each fault is switched on in a second model, and the comparison is to find it.
pub fn report_faults(own_path: &str, seed: u64, scripts: bool) -> Result<(String, bool), String> {
    let mut text = String::new();
    let mut well = true;
    let play = |fault: Option<Fault>| {
        let mut program = vec![own_path.to_string(), "play".to_string()];
        if let Some(fault) = fault {
            program.extend(["--fault".to_string(), fault.name().to_string()]);
        }
        Compare { program, seed, calls: if fault.is_some() { u64::MAX } else { 50_000 }, seconds: 60, cells: false }
    };
    let sound = compare(&play(None), true)?;
    match sound.end {
        End::Same => text
            .push_str(&format!("no fault: {} calls, no difference, as it is to be\n", thousands(sound.coverage.calls))),
        End::Unsound(unsound) => {
            well = false;
            text.push_str(&format!("FAILED: {unsound}"));
        }
        End::Differs(found) => {
            well = false;
            text.push_str(&format!(
                "FAILED: the model differs from itself with no fault switched on.\n{}",
                found.print(seed)
            ));
        }
    }
    for fault in Fault::ALL {
        let compared = compare(&play(Some(fault)), true)?;
        match compared.end {
            End::Differs(Found { short: Some(short), place, .. }) => {
                let lines = short.lines.len();
                text.push_str(&format!(
                    "\n{}: found in line {} of the traffic. A script of {lines} lines shows it, {:.1} seconds in all.\n  \
                     last line   {}\n  model       {}\n  with fault  {}\n",
                    fault.name(),
                    thousands(place),
                    compared.seconds,
                    shown(&short.difference.line, SHOWN),
                    short.difference.model,
                    short.difference.program,
                ));
                if scripts {
                    text.push_str(&script_text(&short));
                }
            }
            End::Differs(found) => {
                well = false;
                let printed = found.print(seed);
                text.push_str(&format!("\nFAILED: {} was found, but no script shows it.\n{printed}", fault.name()));
            }
            End::Unsound(unsound) => {
                well = false;
                text.push_str(&format!("\nFAILED: {unsound}"));
            }
            End::Same => {
                well = false;
                text.push_str(&format!(
                    "\nFAILED: {} was not found within a minute, {} calls. Teach the traffic to come where it shows.\n",
                    fault.name(),
                    thousands(compared.coverage.calls),
                ));
            }
        }
    }
    Ok((text, well))
}
