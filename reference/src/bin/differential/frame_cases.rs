//! Frames for the calls that are lent them, and such calls damaged.

use crate::comparison::Comparison;
use crate::frame_call::FrameCall;
use reference::frames::{frame_bytes, largest_sample};
use reference::random::Random;

pub fn small_size(random: &mut Random) -> u64 {
    1 + random.below(9) as u64
}

pub fn random_bytes(random: &mut Random, size: u64) -> Vec<u8> {
    let mut bytes = vec![0; frame_bytes(size as i64) as usize];
    random.fill(&mut bytes);
    bytes
}

/// A frame whose samples are within the depth: random ones, the smallest and the largest alone, or all the same.
pub fn frame(random: &mut Random, size: u64, depth: u64) -> Vec<u8> {
    let largest = largest_sample(depth as i64) as u16;
    let (kind, any) = (random.below(6), random.bits() as u16 & largest);
    let same = random.pick(&[0, largest, any]);
    let mut bytes = random_bytes(random, size);
    for pair in bytes.chunks_exact_mut(2) {
        let sample = match kind {
            0 => same,
            1 | 2 => largest * u16::from(pair[0] % 2),
            _ => u16::from_le_bytes([pair[0], pair[1]]) & largest,
        };
        pair.copy_from_slice(&sample.to_le_bytes());
    }
    bytes
}

/// Does any damage, for each question as often as for another.
pub fn damage_any<const COUNT: usize, Framed: FrameCall<COUNT>>(random: &mut Random, call: &mut Framed) {
    let question = random.pick(Framed::QUESTIONS);
    let damage = random.pick(&Framed::damages(question));
    damage.apply(random, &mut call.parts());
}

/// Calls with each damage alone, and with several.
pub fn damaged<const COUNT: usize, Framed: FrameCall<COUNT>>(comparison: &mut Comparison, accepted: fn(&mut Random) -> Framed) {
    for &question in Framed::QUESTIONS {
        for damage in Framed::damages(question).into_iter().cycle().take(1_300) {
            let mut call = accepted(&mut comparison.random);
            damage.apply(&mut comparison.random, &mut call.parts());
            comparison.compare_frames(&call);
        }
    }
    for _ in 0..8_000 {
        let mut call = accepted(&mut comparison.random);
        for _ in 0..2 + comparison.random.below(3) {
            damage_any(&mut comparison.random, &mut call);
        }
        comparison.compare_frames(&call);
    }
}
