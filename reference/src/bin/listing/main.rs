//! Compares the program `rays`, run by run, with the stored runs and with the reference's listing of random inputs: every byte
//! that it writes. It must end with status 0 and write nothing on standard error, unless it cannot read or write.

mod comparison;
mod coverage;
mod inputs;
mod program;
mod runs;

use comparison::Comparison;
use program::Program;
use reference::random::Random;
use runs::StoredRun;
use std::path::Path;
use std::process::ExitCode;

fn main() -> ExitCode {
    let arguments: Vec<String> = std::env::args().skip(1).collect();
    let (program, folder, seed) = match &arguments[..] {
        [program, folder] => (program, folder, Ok(1)),
        [program, folder, seed] => (program, folder, seed.parse()),
        _ => return usage(),
    };
    let Ok(seed) = seed else {
        return usage();
    };
    let stored = match runs::stored_runs(Path::new(folder)) {
        Ok(stored) => stored,
        Err(message) => {
            println!("{message}");
            return ExitCode::FAILURE;
        }
    };
    let mut comparison = Comparison::new(Program::new(program), seed);
    for run in &stored {
        comparison.compare_stored(run);
    }
    comparison.compare_failures(Path::new(folder));
    inputs::compare_all(&mut comparison, &mut Random::new(seed));
    report(&stored, &comparison)
}

fn usage() -> ExitCode {
    println!("usage: listing PROGRAM RUNS [SEED], where PROGRAM is the path of the program `rays`,");
    println!("RUNS the folder of the stored runs, and SEED a whole number below 2^64");
    ExitCode::FAILURE
}

fn report(stored: &[StoredRun], comparison: &Comparison) -> ExitCode {
    let coverage = &comparison.coverage;
    println!("stored runs: {} compared, each written at once and in two parts", stored.len());
    let returned = coverage.details("a record with the number");
    let lines: u64 = returned.iter().map(|(_, count)| count).sum();
    let parts = returned.iter().map(|(number, count)| match number {
        0 => format!("{count} accepted"),
        _ => format!("{count} refused by {number}"),
    });
    println!(
        "random inputs: {} compared, {lines} lines of records, {}",
        coverage.count("an input"),
        parts.collect::<Vec<_>>().join(", ")
    );
    println!(
        "among them {} inputs longer than 65,536 bytes, {} records after a refused one, {} negative positions",
        coverage.count("an input longer than 65,536 bytes"),
        coverage.count("a record after one refused by"),
        coverage.count("a negative position")
    );
    let missing = coverage.missing();
    for (event, detail) in &missing {
        println!("this case did not occur: {event} {detail}");
    }
    println!("{} differences", comparison.differences());
    if comparison.differences() == 0 && missing.is_empty() {
        ExitCode::SUCCESS
    } else {
        ExitCode::FAILURE
    }
}
