//! Makes a call of the list and the score behind it, and writes their line.

use crate::cases::{Case, Damage, LAYOUTS};
use reference::calls::{convert, score, ConvertArguments, ScoreArguments};
use reference::checks::{self, Refusal};
use reference::frames::{index_of, samples, Place};

/// No frame is lent more bytes than one of face size 512 has.
const MOST_BYTES: u64 = 12 * 512 * 512;

/// Every byte of the target before the call.
const BEFORE: u8 = 165;

/// Sizes, depth, formats, sampler, numbers of the layouts, turn, number of the damage; then the number, the index, the digest and
/// the six samples; then the score's number, its index and its two sums. All are decimal, with single spaces.
pub fn line(case: &Case) -> String {
    let (source, mut target) = (source(case), target(case));
    let code = convert(convert_arguments(case, &source), &mut target);
    let (score_code, [errors, weights]) = scored(score_arguments(case, &source, &target));
    let settings =
        [case.source_size, case.target_size, case.depth, case.source_format, case.target_format, case.sampler].map(decimal);
    let (layouts, rotation) = (case.layouts.map(decimal), case.rotation.map(decimal));
    let outcome = [case.damage as u64, code % 256, code / 256, digest(&target)].map(decimal);
    let samples = corner_samples(case, &target).unwrap_or([0; 6]).map(decimal);
    let score = [score_code % 256, score_code / 256, errors, weights].map(decimal);
    [&settings[..], &layouts[..], &rotation[..], &outcome[..], &samples[..], &score[..]].concat().join(" ")
}

fn decimal(number: impl ToString) -> String {
    number.to_string()
}

/// What the conversion is told and lent.
pub fn convert_arguments<'lent>(case: &Case, source: &'lent [u8]) -> ConvertArguments<'lent> {
    ConvertArguments {
        source_size: case.source_size,
        target_size: case.target_size,
        depth: case.depth,
        source_format: case.source_format,
        target_format: case.target_format,
        sampler: case.sampler,
        source_layout: LAYOUTS[case.layouts[0]],
        target_layout: LAYOUTS[case.layouts[1]],
        rotation: case.rotation,
        source,
    }
}

/// What the score is told and lent that is made right after the conversion, of the source with the target as it is then, with the
/// source's size and format.
pub fn score_arguments<'lent>(case: &Case, source: &'lent [u8], target: &'lent [u8]) -> ScoreArguments<'lent> {
    ScoreArguments {
        size: case.source_size,
        depth: case.depth,
        format: case.source_format,
        first_layout: LAYOUTS[case.layouts[0]],
        second_layout: LAYOUTS[case.layouts[1]],
        first: source,
        second: target,
    }
}

/// What a score returns, and the two numbers in the answer buffer afterwards, whose 16 bytes are 0 before.
pub fn scored(arguments: ScoreArguments) -> (u64, [u64; 2]) {
    let mut answer = [[0; 8]; 2];
    let code = score(arguments, answer.as_flattened_mut());
    (code, answer.map(u64::from_le_bytes))
}

/// The target's sample at column 0 in the last row of each face, where the target is a frame of its size and layout.
fn corner_samples(case: &Case, target: &[u8]) -> Result<[u16; 6], Refusal> {
    let size = checks::target_size(case.target_size.into())?;
    let layout = checks::layout(LAYOUTS[case.layouts[1]])?;
    checks::second_length(target.len(), size)?;
    let by_index: Vec<u16> = samples(target).collect();
    let corner = |face| Place { face, column: 0, row: size - 1 };
    Ok([0, 1, 2, 3, 4, 5].map(|face| by_index[index_of(&layout, size, corner(face)) as usize]))
}

/// A frame of face size A is lent 12·A² bytes, but no more than the largest frame has.
fn lent_bytes(size: u64) -> u64 {
    (12 * size * size).min(MOST_BYTES)
}

/// The sample at index i is floor(i · 2654435761 / 65536) mod 2^D, two bytes, little-endian; then comes the damage.
pub fn source(case: &Case) -> Vec<u8> {
    let sample = |index: u64| (index * 2_654_435_761 / 65_536 % (1 << case.depth)) as u16;
    let mut samples: Vec<u16> = (0..lent_bytes(case.source_size) / 2).map(sample).collect();
    match case.damage {
        Damage::LastTwoSamples => samples.iter_mut().rev().take(2).for_each(|sample| *sample = 1 << case.depth),
        Damage::FirstSample => samples[0] = 65_535,
        _ => {}
    }
    let mut bytes: Vec<u8> = samples.into_iter().flat_map(u16::to_le_bytes).collect();
    match case.damage {
        Damage::SourceShort => drop(bytes.pop()),
        Damage::SourceLong => bytes.push(0),
        _ => {}
    }
    bytes
}

/// The target as it is lent.
pub fn target(case: &Case) -> Vec<u8> {
    let whole = lent_bytes(case.target_size) as usize;
    let length = match case.damage {
        Damage::TargetShort => whole - 1,
        Damage::TargetLong => whole + 1,
        _ => whole,
    };
    vec![BEFORE; length]
}

/// 0 before the first byte; then for each byte, in order, 257 times the digest so far, and the byte, and 1, mod 4294967291.
pub fn digest(bytes: &[u8]) -> u64 {
    bytes.iter().fold(0, |digest, &byte| (digest * 257 + u64::from(byte) + 1) % 4_294_967_291)
}
