//! Runs the program and compares what it writes, byte for byte.

use crate::coverage::Coverage;
use crate::program::Program;
use crate::runs::StoredRun;
use reference::listing::listing;
use std::path::Path;

/// The comparison stops after so many differences.
const ENOUGH: u32 = 10;

/// So many bytes of an input are shown.
const SHOWN: usize = 256;

pub struct Comparison {
    pub coverage: Coverage,
    program: Program,
    seed: u64,
    inputs: u32,
    differences: u32,
}

impl Comparison {
    pub fn new(program: Program, seed: u64) -> Comparison {
        Comparison { coverage: Coverage::default(), program, seed, inputs: 0, differences: 0 }
    }

    pub fn differences(&self) -> u32 {
        self.differences
    }

    /// Compares the program and the reference with a stored run; the program has the input at once, and in two parts.
    pub fn compare_stored(&mut self, run: &StoredRun) {
        let (front, back) = run.input.split_at(run.input.len() / 2);
        for (writer, written) in [
            ("the reference", Ok(listing(&run.input))),
            ("the program", self.program.listing(&[&run.input])),
            ("the program, with the input in two parts,", self.program.listing(&[front, back])),
        ] {
            self.note(&run.name, &run.input, writer, written, &run.output);
        }
    }

    /// Where standard input cannot be read, or standard output cannot be written, the program says so and lists nothing.
    pub fn compare_failures(&mut self, folder: &Path) {
        for (stream, run) in [("input", self.program.unreadable(folder)), ("output", self.program.unwritable())] {
            let said = match run {
                Ok(run) if run.stdout.is_empty() => String::from_utf8_lossy(&run.stderr).into_owned(),
                Ok(run) => format!("a listing of {} bytes", run.stdout.len()),
                Err(message) => message,
            };
            if !said.starts_with(&format!("rays: standard {stream}: ")) {
                self.differ(&format!("standard {stream} fails"), &[], &format!("the program gave {said:?}"));
            }
        }
    }

    /// Compares the program with the reference.
    pub fn compare(&mut self, input: &[u8]) {
        let origin = format!("seed {}, input {}", self.seed, self.inputs);
        let written = self.program.listing(&[input]);
        self.note(&origin, input, "the program", written, &listing(input));
        self.coverage.note(input);
        self.inputs += 1;
    }

    fn note(&mut self, origin: &str, input: &[u8], writer: &str, written: Result<Vec<u8>, String>, expected: &[u8]) {
        if written.as_deref() == Ok(expected) {
            return;
        }
        let what = written.map_or_else(|message| message, |written| first_difference(&written, expected));
        self.differ(origin, input, &format!("{writer} {what}"));
    }

    fn differ(&mut self, origin: &str, input: &[u8], what: &str) {
        self.differences += 1;
        println!("difference: {origin}, {} bytes: {}", input.len(), hexadecimal(input));
        println!("  {what}");
        if self.differences == ENOUGH {
            println!("stopped after {ENOUGH} differences");
            std::process::exit(1);
        }
    }
}

/// The first line, counted from 1, that is not the same in both texts.
fn first_difference(written: &[u8], expected: &[u8]) -> String {
    let mut texts = [written, expected].map(|text| text.split_inclusive(|&byte| byte == b'\n'));
    let mut number = 1;
    loop {
        let [left, right] = texts.each_mut().map(Iterator::next);
        if left != right {
            return format!("wrote as line {number} {}, expected is {}", shown(left), shown(right));
        }
        number += 1;
    }
}

/// A line with its end made visible.
fn shown(line: Option<&[u8]>) -> String {
    line.map_or_else(|| "none".into(), |line| format!("{:?}", String::from_utf8_lossy(line)))
}

fn hexadecimal(input: &[u8]) -> String {
    let bytes: Vec<String> = input.iter().take(SHOWN).map(|byte| format!("{byte:02x}")).collect();
    format!("{}{}", bytes.join(" "), if input.len() > SHOWN { " .." } else { "" })
}
