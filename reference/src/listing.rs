//! The paper's section "The listing program": what `rays` writes for the bytes that it reads.

use crate::calls;
use crate::checks::{self, Refusal};

/// "Input beyond 65,536 bytes counts as absent."
pub const LARGEST_INPUT: usize = 65_536;

/// What a record gives: face, column T, row T, or the question that refuses it.
pub type Outcome = Result<Vec<i128>, Refusal>;

/// "length of the body, 4 bytes; kind, 2 bytes; body": a record that is whole, and the input after it.
#[derive(Clone, Copy)]
struct Record<'input> {
    kind: i128,
    body: &'input [u8],
    after: &'input [u8],
}

/// "Empty input prints the header alone.", and else each record has its line below the header.
pub fn listing(input: &[u8]) -> Vec<u8> {
    let mut text = String::from("at face column row\n");
    for (number, outcome) in outcomes(input).into_iter().enumerate() {
        text.push_str(&line(number, outcome));
    }
    text.into_bytes()
}

/// "Lines: record number from 0, face, column T, row T, all decimal; or record number, `refused`, number."
fn line(number: usize, outcome: Outcome) -> String {
    match outcome {
        Ok(numbers) => {
            let numbers: Vec<String> = numbers.iter().map(i128::to_string).collect();
            format!("{number} {}\n", numbers.join(" "))
        }
        Err(refusal) => format!("{number} refused {}\n", refusal.number),
    }
}

/// What each record gives. After a record that is not whole "the run ends there"; any other "is passed over by its length".
pub fn outcomes(input: &[u8]) -> Vec<Outcome> {
    let mut outcomes = Vec::new();
    let mut rest = &input[..input.len().min(LARGEST_INPUT)];
    while !rest.is_empty() {
        let record = first_record(rest);
        outcomes.push(outcome(record));
        rest = record.map_or(&[], |record| record.after);
    }
    outcomes
}

/// The first record, unless its "six leading bytes or body are cut short".
fn first_record(input: &[u8]) -> Option<Record<'_>> {
    let (length, rest) = input.split_at_checked(4)?;
    let (kind, rest) = rest.split_at_checked(2)?;
    let length = usize::try_from(unsigned(length)).ok()?;
    let (body, after) = rest.split_at_checked(length)?;
    Some(Record { kind: unsigned(kind), body, after })
}

/// "The program puts 16, 15, then the look-up's." "Body of kind 1: format, 1 byte; face size, 2; X, Y, Z, 4 each".
fn outcome(record: Option<Record>) -> Outcome {
    let Record { kind, body, .. } = checks::record_whole(record)?;
    checks::record_kind(kind, body.len())?;
    let (format, size) = (unsigned(&body[..1]), unsigned(&body[1..3]));
    let ray = [3, 7, 11].map(|start| twos_complement(&body[start..start + 4]));
    calls::look_up_outcome(size, format, ray)
}

/// "all little-endian"; a number without a sign.
fn unsigned(bytes: &[u8]) -> i128 {
    bytes.iter().rev().fold(0, |number, &byte| 256 * number + i128::from(byte))
}

/// "X, Y, Z, 4 each, two's complement"
fn twos_complement(bytes: &[u8]) -> i128 {
    let number = unsigned(bytes);
    if number < 1 << 31 {
        number
    } else {
        number - (1 << 32)
    }
}

#[cfg(test)]
mod tests {
    use super::*;

    fn record(kind: u16, body: &[u8]) -> Vec<u8> {
        let (length, kind) = ((body.len() as u32).to_le_bytes(), kind.to_le_bytes());
        [&length[..], &kind[..], body].concat()
    }

    fn body(format: u8, size: u16, ray: [i32; 3]) -> Vec<u8> {
        [vec![format], size.to_le_bytes().to_vec(), ray.map(i32::to_le_bytes).concat()].concat()
    }

    fn look_up(format: u8, size: u16, ray: [i32; 3]) -> Vec<u8> {
        record(1, &body(format, size, ray))
    }

    /// The first record of the paper's example, which gives 1 96 96.
    fn good() -> Vec<u8> {
        look_up(0, 4, [-1, 0, 0])
    }

    /// A record of kind 7 that takes `length` bytes in all.
    fn filler(length: usize) -> Vec<u8> {
        record(7, &vec![0; length - 6])
    }

    /// Each line below the header without its record number, which is tested here.
    fn lines(records: &[Vec<u8>]) -> Vec<String> {
        let text = String::from_utf8(listing(&records.concat())).expect("a listing is text");
        let mut lines = text.strip_suffix('\n').expect("a listing ends with a whole line").split('\n');
        assert_eq!(lines.next(), Some("at face column row"));
        let unnumbered =
            |(number, line): (usize, &str)| String::from(line.strip_prefix(&format!("{number} ")).expect("its number"));
        lines.enumerate().map(unnumbered).collect()
    }

    #[test]
    fn records_of_the_paper() {
        let records = [good(), look_up(1, 4, [2, -1, 0]), look_up(0, 4, [0, 0, 0]), record(7, &[])];
        let text = "at face column row\n0 1 96 96\n1 0 96 172\n2 refused 14\n3 refused 15\n";
        assert_eq!(listing(&records.concat()), text.as_bytes());
    }

    #[test]
    fn empty_input() {
        assert_eq!(listing(&[]), b"at face column row\n");
    }

    #[test]
    fn cut_at_every_place() {
        for cut in 1..good().len() {
            assert_eq!(lines(&[good(), good()[..cut].to_vec()]), ["1 96 96", "refused 16"]);
        }
    }

    #[test]
    fn refused_by_15_and_passed_over() {
        let body = body(0, 4, [-1, 0, 0]);
        for kind in [0, 2, 7, 255, 256, 257, 65_535] {
            assert_eq!(lines(&[record(kind, &body), record(kind, &[]), good()]), ["refused 15", "refused 15", "1 96 96"]);
        }
        for length in [0, 1, 14, 16, 15 + 256] {
            let body: Vec<u8> = body.iter().copied().cycle().take(length).collect();
            assert_eq!(lines(&[record(1, &body), good()]), ["refused 15", "1 96 96"]);
        }
    }

    #[test]
    fn sizes_and_formats() {
        let ray = [1, 0, 0];
        assert_eq!(lines(&[look_up(0, 0, ray), look_up(0, 1, ray)]), ["refused 1", "0 0 0"]);
        assert_eq!(lines(&[look_up(0, 512, ray), look_up(0, 513, ray)]), ["0 16352 16352", "refused 1"]);
        assert_eq!(lines(&[look_up(2, 4, ray), look_up(255, 4, ray), good()]), ["refused 4", "refused 4", "1 96 96"]);
    }

    #[test]
    fn bounds_of_a_ray() {
        for (number, line) in [
            (536_870_911, "2 96 96"),
            (-536_870_911, "3 96 96"),
            (536_870_912, "refused 13"),
            (-536_870_912, "refused 13"),
            (i32::MAX, "refused 13"),
            (i32::MIN, "refused 13"),
        ] {
            assert_eq!(lines(&[look_up(0, 4, [0, number, 0]), good()]), [line, "1 96 96"]);
        }
    }

    #[test]
    fn smallest_and_largest_positions() {
        assert_eq!(lines(&[look_up(0, 4, [1, 1, 1])]), ["0 -32 -32"]);
        assert_eq!(lines(&[look_up(1, 512, [1, -1, -1])]), ["0 32736 32736"]);
    }

    #[test]
    fn lengths_near_2_to_the_32() {
        for length in [u32::MAX, u32::MAX - 5, 1 << 31, 15 + (1 << 24), 15 + (1 << 16)] {
            let mut long = good();
            long[..4].copy_from_slice(&length.to_le_bytes());
            assert_eq!(lines(&[good(), long, good()]), ["1 96 96", "refused 16"]);
        }
    }

    #[test]
    fn questions_in_order() {
        let wrong_ray = [0, 536_870_912, 0];
        let cut = record(7, &body(2, 513, wrong_ray))[..20].to_vec();
        assert_eq!(lines(&[record(7, &body(2, 513, wrong_ray)), look_up(2, 513, wrong_ray)]), ["refused 15", "refused 1"]);
        assert_eq!(lines(&[look_up(2, 512, wrong_ray), look_up(2, 512, [0; 3]), cut]), ["refused 4", "refused 4", "refused 16"]);
    }

    #[test]
    fn the_limit() {
        let before = LARGEST_INPUT - good().len();
        assert_eq!(lines(&[filler(before), good()]), ["refused 15", "1 96 96"]);
        assert_eq!(lines(&[filler(before), good(), good()]), ["refused 15", "1 96 96"]);
        assert_eq!(lines(&[filler(before + 1), good(), good()]), ["refused 15", "refused 16"]);
        assert_eq!(lines(&[filler(LARGEST_INPUT), good()]), ["refused 15"]);
        assert_eq!(lines(&[filler(LARGEST_INPUT + 1), good()]), ["refused 16"]);
    }

    #[test]
    fn the_longest_listing() {
        let input = [record(0, &[]).repeat(10_922), vec![0; 4]].concat();
        assert_eq!(input.len(), LARGEST_INPUT);
        let text = listing(&input);
        assert_eq!(text.len(), 174_600);
        assert!(text.ends_with(b"\n10921 refused 15\n10922 refused 16\n"));
    }
}
