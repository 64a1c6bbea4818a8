//! The paper's section "Questions, in order": each check names the paper's number, and the first that fails ends the call.

use crate::frames::{frame_bytes, largest_sample, samples, Layout};
use crate::positions::Format;
use crate::rotations::Rotation;
use crate::samplers::Sampler;

/// "A "no" ends the call with that number. For 10 and 11 the lowest offending index comes with it, for the others 0."
#[derive(Clone, Copy, Debug, PartialEq, Eq)]
pub struct Refusal {
    pub number: u64,
    pub index: u64,
}

fn ask(number: u64, holds: bool) -> Result<(), Refusal> {
    if holds {
        Ok(())
    } else {
        Err(Refusal { number, index: 0 })
    }
}

/// "For 10 and 11 the lowest offending index comes with it".
fn ask_samples(number: u64, bytes: &[u8], depth: i64) -> Result<(), Refusal> {
    let beyond = |sample: u16| i64::from(sample) > largest_sample(depth);
    match samples(bytes).position(beyond) {
        Some(index) => Err(Refusal { number, index: index as u64 }),
        None => Ok(()),
    }
}

/// Whether all numbers are −31 to 31.
fn small(rotation: &Rotation) -> bool {
    rotation.iter().all(|number| (-31..=31).contains(number))
}

/// "1. Is the (source) face size 1 to 512?"
pub fn face_size(size: i128) -> Result<i64, Refusal> {
    ask(1, (1..=512).contains(&size))?;
    Ok(size as i64)
}

/// "2. Is the target face size 1 to 512?"
pub fn target_size(size: i128) -> Result<i64, Refusal> {
    ask(2, (1..=512).contains(&size))?;
    Ok(size as i64)
}

/// "3. Is the depth 8 to 12?"
pub fn depth(depth: i128) -> Result<i64, Refusal> {
    ask(3, (8..=12).contains(&depth))?;
    Ok(depth as i64)
}

/// "4. Is each format and sampler code 0 or 1?", of a format.
pub fn format(code: i128) -> Result<Format, Refusal> {
    ask(4, code == 0 || code == 1)?;
    Ok(if code == 0 { Format::Cmp } else { Format::Acp })
}

/// "4. Is each format and sampler code 0 or 1?", of a sampler.
pub fn sampler(code: i128) -> Result<Sampler, Refusal> {
    ask(4, code == 0 || code == 1)?;
    Ok(if code == 0 { Sampler::Nearest } else { Sampler::Cubic })
}

/// "5. Does each layout hold every face once, with turns 0 to 3?", of a layout; "another length is a "no" to question 5."
pub fn layout(bytes: &[u8]) -> Result<Layout, Refusal> {
    let layout = Layout::from_bytes(bytes).ok_or(Refusal { number: 5, index: 0 })?;
    ask(5, (0..6).all(|face| layout.faces.contains(&face)))?;
    ask(5, layout.quarter_turns.iter().all(|count| (0..=3).contains(count)))?;
    Ok(layout)
}

/// "6. Are all numbers of each turn −31 to 31?"
pub fn rotation_range(rotations: &[Rotation]) -> Result<(), Refusal> {
    ask(6, rotations.iter().all(small))
}

/// "7. Has each turn a nonzero number?"
pub fn rotation_nonzero(rotations: &[Rotation]) -> Result<(), Refusal> {
    ask(7, rotations.iter().all(|rotation| rotation.iter().any(|&number| number != 0)))
}

/// "8. Has the first buffer exactly the frame's bytes?"
pub fn first_length(length: usize, size: i64) -> Result<(), Refusal> {
    ask(8, length as i64 == frame_bytes(size))
}

/// "9. Has the second?"
pub fn second_length(length: usize, size: i64) -> Result<(), Refusal> {
    ask(9, length as i64 == frame_bytes(size))
}

/// "10. Is every sample of the first frame within the depth?"
pub fn first_samples(bytes: &[u8], depth: i64) -> Result<(), Refusal> {
    ask_samples(10, bytes, depth)
}

/// "11. And of the second?"
pub fn second_samples(bytes: &[u8], depth: i64) -> Result<(), Refusal> {
    ask_samples(11, bytes, depth)
}

/// "12. Is each number of the folded turn −31 to 31?"
pub fn composed_range(composed: Rotation) -> Result<(), Refusal> {
    ask(12, small(&composed))
}

/// "13. Are X, Y, Z −536,870,911 to 536,870,911?"
pub fn ray_range(ray: [i128; 3]) -> Result<(), Refusal> {
    ask(13, ray.iter().all(|number| (-536_870_911..=536_870_911).contains(number)))
}

/// "14. Is one of them nonzero?"
pub fn ray_nonzero(ray: [i128; 3]) -> Result<(), Refusal> {
    ask(14, ray.iter().any(|&number| number != 0))
}

/// "15. Is the record's kind 1 with length 15?"
pub fn record_kind(kind: i128, length: usize) -> Result<(), Refusal> {
    ask(15, kind == 1 && length == 15)
}

/// "16. Is the record whole?" If it is, the answer is the record.
pub fn record_whole<Record>(record: Option<Record>) -> Result<Record, Refusal> {
    record.ok_or(Refusal { number: 16, index: 0 })
}
