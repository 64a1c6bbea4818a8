//! Writes what the reference gives for a fixed list of conversions, a line for each: the call, its number and index, a digest of
//! the target afterwards and six of its samples, and what a score of the source with that target gives. Then come a few calls of
//! fold, equal and look_up, a line for each: the call, its number and index, and its answer. Another program that runs the same
//! lists writes the same text.

mod calls;
mod cases;
#[cfg(test)]
mod exchanges;
mod run;

use std::io::Write;

/// A word for each number of a conversion's line, or for the numbers of one sort.
const HEADING: &str =
    "source target depth formats sampler layouts turn damage number index digest samples score score-index errors weights";

/// The same for the lines of the other calls.
const CALLS_HEADING: &str = "call parameters number index answer";

fn main() -> std::io::Result<()> {
    let mut output = std::io::stdout().lock();
    writeln!(output, "{HEADING}")?;
    for case in cases::all() {
        writeln!(output, "{}", run::line(&case))?;
    }
    writeln!(output, "{CALLS_HEADING}")?;
    for call in calls::ALL {
        writeln!(output, "{}", call.line())?;
    }
    Ok(())
}
