//! Compares libwelchodrys.a with the reference, call by call: the returned code and every byte of each lent buffer. Each ends at a
//! forbidden page, and those that a call may write hold random bytes before it. The seed of the random numbers may be given as the
//! first argument, and as the second one a file to record a part of the calls in, for the comparison from C.

mod call;
mod cases;
mod comparison;
mod convert;
mod convert_cases;
mod convert_coverage;
mod coverage;
mod damage;
mod frame_call;
mod frame_cases;
mod frame_coverage;
mod lent;
mod record;
mod score;
mod score_cases;
mod score_coverage;

use call::Call;
use comparison::Comparison;
use convert::ConvertCall;
use coverage::Coverage;
use record::{Record, KINDS};
use reference::random::Random;
use score::ScoreCall;
use std::process::ExitCode;

/// The calls' names, in the order of their kinds.
const NAMES: [&str; KINDS] = [Call::NAMES[0], Call::NAMES[1], Call::NAMES[2], ConvertCall::NAME, ScoreCall::NAME];

fn main() -> ExitCode {
    let mut arguments = std::env::args().skip(1);
    let seed = match arguments.next().map(|argument| argument.parse()) {
        None => 1,
        Some(Ok(seed)) => seed,
        Some(Err(_)) => {
            println!("usage: differential [SEED [RECORD]], where SEED is a whole number below 2^64, and RECORD a file to write");
            return ExitCode::FAILURE;
        }
    };
    let record = match arguments.next().map(Record::create).transpose() {
        Ok(record) => record,
        Err(error) => {
            println!("the record cannot be written: {error}");
            return ExitCode::FAILURE;
        }
    };
    let mut comparison = Comparison::new(Random::new(seed), record);
    cases::folds(&mut comparison);
    cases::equalities(&mut comparison);
    cases::look_ups(&mut comparison);
    convert_cases::conversions(&mut comparison);
    score_cases::scores(&mut comparison);
    let as_wanted = report(&comparison);
    let recorded = comparison.record.take().is_none_or(|record| write_record(record, &comparison.coverage));
    if as_wanted && recorded {
        ExitCode::SUCCESS
    } else {
        ExitCode::FAILURE
    }
}

/// Prints what was compared. Whether there was no difference, and every case that must occur did.
fn report(comparison: &Comparison) -> bool {
    let coverage = &comparison.coverage;
    for name in NAMES {
        let returned = coverage.returned(name);
        let compared: u64 = returned.iter().map(|(_, count)| count).sum();
        let parts = returned.iter().map(|(number, count)| match number {
            0 => format!("{count} accepted"),
            _ => format!("{count} refused by {number}"),
        });
        println!("{name}: {compared} calls compared, {}", parts.collect::<Vec<_>>().join(", "));
    }
    let halves =
        ["CMP, halfway, with the sign of", "ACP, halfway, with the sign of"].map(|event| coverage.count("look_up", event));
    let ties = coverage.count("look_up", "axes of the same largest size");
    let short: u64 = Call::NAMES.iter().map(|name| coverage.count(name, "accepted with a short answer buffer")).sum();
    println!(
        "among them {} halves in CMP and {} in ACP, {ties} rays with ties, {short} short answer buffers",
        halves[0], halves[1]
    );
    convert_coverage::report(coverage);
    score_coverage::report(coverage);
    let missing = coverage.missing();
    for (name, event, detail) in &missing {
        println!("this case did not occur: {name}, {event} {detail}");
    }
    println!("{} differences", comparison.differences());
    comparison.differences() == 0 && missing.is_empty()
}

/// Writes the record. Whether that is done, and each call is in it with every number that the reference returned.
fn write_record(record: Record, coverage: &Coverage) -> bool {
    let mut whole = true;
    for (kind, name) in NAMES.into_iter().enumerate() {
        for (number, _) in coverage.returned(name) {
            if !record.has(kind, number as u64) {
                println!("this was not recorded: {name}, returned {number}");
                whole = false;
            }
        }
    }
    match record.write() {
        Ok(calls) => println!("{calls} calls recorded for the comparison from C"),
        Err(error) => {
            println!("the record cannot be written: {error}");
            whole = false;
        }
    }
    whole
}
