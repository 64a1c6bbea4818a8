//! The conversions that are compared.

use crate::cases::rotation;
use crate::comparison::Comparison;
use crate::convert::ConvertCall;
use crate::damage::Damage;
use crate::frame_call::FrameCall;
use crate::frame_cases::{damage_any, damaged, frame, random_bytes, small_size};
use reference::random::{cube_rotation, layout, Random};

/// A whole-cube turn or another one, in range and not zero.
fn turn(random: &mut Random) -> [i64; 4] {
    if random.once_in(3) {
        return cube_rotation(random);
    }
    loop {
        let numbers = if random.once_in(2) { rotation(random) } else { [0; 4].map(|_| random.within(31)) };
        if numbers != [0; 4] {
            return numbers;
        }
    }
}

/// A conversion that is accepted. The mixes 0 to 7 are bits: the source's format, the target's format, the sampler.
fn conversion(random: &mut Random, sizes: [u64; 2], mix: u64) -> ConvertCall {
    let depth = 8 + random.below(5) as u64;
    ConvertCall {
        sizes,
        depth,
        codes: [mix % 2, mix / 2 % 2, mix / 4],
        layouts: [layout(random).to_vec(), layout(random).to_vec()],
        rotation: turn(random),
        frames: [frame(random, sizes[0], depth), random_bytes(random, sizes[1])],
    }
}

fn small_conversion(random: &mut Random) -> ConvertCall {
    let (sizes, mix) = ([small_size(random), small_size(random)], random.bits() % 8);
    conversion(random, sizes, mix)
}

pub fn conversions(comparison: &mut Comparison) {
    accepted(comparison);
    damaged(comparison, small_conversion);
    medium(comparison);
    large(comparison);
}

/// Small conversions that are accepted, in every mix.
fn accepted(comparison: &mut Comparison) {
    for mix in 0..8 {
        for _ in 0..5_000 {
            let random = &mut comparison.random;
            let sizes = [small_size(random), small_size(random)];
            let call = conversion(random, sizes, mix);
            comparison.compare_frames(&call);
        }
    }
    // 31 and −31 at each place of the turn.
    for position in 0..4 {
        for number in [31, -31] {
            for _ in 0..50 {
                let mut call = small_conversion(&mut comparison.random);
                call.rotation[position] = number;
                comparison.compare_frames(&call);
            }
        }
    }
}

/// A few dozen of size 64 at one end or at both, and some of these damaged.
fn medium(comparison: &mut Comparison) {
    for mix in 0..8 {
        let small = small_size(&mut comparison.random);
        for sizes in [[64, small], [small, 64], [64, 64]] {
            let mut call = conversion(&mut comparison.random, sizes, mix);
            comparison.compare_frames(&call);
            damage_any(&mut comparison.random, &mut call);
            comparison.compare_frames(&call);
        }
    }
}

/// A handful of the largest sizes, and of sizes just outside the range.
fn large(comparison: &mut Comparison) {
    for (sizes, mix) in
        [([512, 512], 0), ([512, 512], 7), ([512, 511], 5), ([511, 512], 6), ([511, 511], 4), ([2, 512], 3), ([64, 511], 1)]
    {
        let call = conversion(&mut comparison.random, sizes, mix);
        comparison.compare_frames(&call);
    }
    for mix in 0..8 {
        for size in [511, 512] {
            let sizes = [size, small_size(&mut comparison.random)];
            let call = conversion(&mut comparison.random, sizes, mix);
            comparison.compare_frames(&call);
        }
    }
    for damage in [
        Damage::LastSample { end: 0 },
        Damage::AnySample { end: 0 },
        Damage::TwoSamples { end: 0 },
        Damage::ShorterBy { end: 0, bytes: 1 },
        Damage::LongerBy { end: 0, bytes: 2 },
        Damage::ShorterBy { end: 1, bytes: 2 },
        Damage::LongerBy { end: 1, bytes: 1 },
        Damage::LengthOfTheOtherEnd { end: 0 },
        Damage::LengthOfTheOtherEnd { end: 1 },
    ] {
        let mut call = conversion(&mut comparison.random, [512, 511], 4);
        damage.apply(&mut comparison.random, &mut call.parts());
        comparison.compare_frames(&call);
    }
    // Sizes that are refused, with the bytes that a frame of that size would have.
    for size in [0, 513] {
        for other in [1, 5, size] {
            for sizes in [[size, other], [other, size]] {
                let call = conversion(&mut comparison.random, sizes, 2);
                comparison.compare_frames(&call);
            }
        }
    }
}
