//! Records a part of the compared calls in a file, each with what the reference gives, for the comparison from C (tests/replay.c).
//!
//! The file begins with `BEGIN`. Of each call it has the kind, one byte; the numbers among the arguments, in the order of the
//! prototype; the buffers before the call, each behind its length; the code; and the last buffer after the call, as long as
//! before. Behind the last call there are `END` and the count of calls. Numbers and lengths have eight bytes, little-endian.

use std::collections::BTreeSet;
use std::fs::File;
use std::io::{self, Write};
use std::ops::RangeInclusive;

const BEGIN: &[u8; 8] = b"calls 01";

/// Stands where the kind of another call would.
const END: u8 = 255;

/// How many kinds of calls there are.
pub const KINDS: usize = 5;

/// Of the calls of a kind whose buffers together have so many bytes: the first is recorded, and from there each `step`-th.
struct Share {
    bytes: RangeInclusive<usize>,
    step: u64,
}

/// The steps are prime, and divide no count of cases that come in turns; so none of these always falls out. The file has about 30
/// million bytes then, half of them in the last share. The few calls between the last two shares are not recorded.
const SHARES: [Share; 3] = [
    // Frames up to size 9, and answers that are not very long: most calls by far.
    Share { bytes: 0..=2_048, step: 23 },
    // Frames up to size 64 or so.
    Share { bytes: 2_049..=131_072, step: 7 },
    // Two frames of size 511 or more: the first conversion and the first score alone.
    Share { bytes: 6_000_000..=usize::MAX, step: 101 },
];

pub struct Record {
    file: File,
    /// What is to be written.
    bytes: Vec<u8>,
    calls: u64,
    /// How many calls of each kind there were in each share, recorded or not.
    offered: [[u64; SHARES.len()]; KINDS],
    /// The kinds of the recorded calls, with the numbers that the reference returned.
    returned: BTreeSet<(usize, u64)>,
}

impl Record {
    pub fn create(path: String) -> io::Result<Record> {
        let file = File::create(path)?;
        let (offered, returned) = ([[0; SHARES.len()]; KINDS], BTreeSet::new());
        Ok(Record { file, bytes: BEGIN.to_vec(), calls: 0, offered, returned })
    }

    /// Records a compared call, if it is one of those that are recorded: its numbers, its buffers before it, and the code and
    /// the last buffer that the reference gives.
    pub fn offer(&mut self, kind: usize, numbers: impl FnOnce() -> Vec<u64>, before: &[&[u8]], code: u64, after: &[u8]) {
        if self.takes(kind, before) {
            self.bytes.push(kind as u8);
            numbers().into_iter().for_each(|number| self.number(number));
            for buffer in before {
                self.number(buffer.len() as u64);
                self.bytes.extend(*buffer);
            }
            self.number(code);
            self.bytes.extend(after);
            self.calls += 1;
            self.returned.insert((kind, code % 256));
        }
    }

    fn takes(&mut self, kind: usize, before: &[&[u8]]) -> bool {
        let bytes = before.iter().map(|buffer| buffer.len()).sum();
        let Some(share) = SHARES.iter().position(|share| share.bytes.contains(&bytes)) else {
            return false;
        };
        let earlier = self.offered[kind][share];
        self.offered[kind][share] += 1;
        earlier.is_multiple_of(SHARES[share].step)
    }

    fn number(&mut self, number: u64) {
        self.bytes.extend(number.to_le_bytes());
    }

    /// Whether a call of this kind was recorded for which the reference returned this number.
    pub fn has(&self, kind: usize, number: u64) -> bool {
        self.returned.contains(&(kind, number))
    }

    /// Writes the file, and gives the count of its calls.
    pub fn write(mut self) -> io::Result<u64> {
        self.bytes.push(END);
        self.number(self.calls);
        self.file.write_all(&self.bytes)?;
        Ok(self.calls)
    }
}
