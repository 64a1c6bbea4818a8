//! The scores that are compared.

use crate::comparison::Comparison;
use crate::convert::ConvertCall;
use crate::coverage::answer_lengths;
use crate::damage::Damage;
use crate::frame_call::FrameCall;
use crate::frame_cases::{damage_any, damaged, frame, random_bytes, small_size};
use crate::score::ScoreCall;
use reference::frames::{index_of, largest_sample, place_at, places, Layout, Place};
use reference::random::{cube_rotation, layout, Random};

/// How the second frame comes from the first.
#[derive(Clone, Copy)]
enum Second {
    /// A frame of its own.
    Any,
    /// The same bytes.
    SameBytes,
    /// The same picture, in the second layout.
    SamePicture,
    /// The same picture with another sample at one place.
    OneApart,
    /// Its samples are 0, those of the first the largest, or the other way round.
    FarthestApart,
}

const SECONDS: [Second; 5] = [Second::Any, Second::SameBytes, Second::SamePicture, Second::OneApart, Second::FarthestApart];

/// Two layouts that are mostly different ones.
fn two_layouts(random: &mut Random) -> [Vec<u8>; 2] {
    let first = layout(random).to_vec();
    let second = if random.once_in(4) { first.clone() } else { layout(random).to_vec() };
    [first, second]
}

/// A score that is accepted, with the whole answer.
fn score(random: &mut Random, size: u64, format: u64, second: Second) -> ScoreCall {
    let depth = 8 + random.below(5) as u64;
    let (layouts, first) = (two_layouts(random), frame(random, size, depth));
    let frames = [first.clone(), first];
    let mut call = ScoreCall { size, depth, format, layouts, frames, answer: vec![0; ScoreCall::WHOLE_ANSWER] };
    random.fill(&mut call.answer);
    match second {
        Second::Any => call.frames[1] = frame(random, size, depth),
        Second::SameBytes => {}
        Second::SamePicture => put_same_picture(&mut call),
        Second::OneApart => {
            let [face, column, row] = [6, size as usize, size as usize].map(|count| random.below(count) as i64);
            put_same_picture(&mut call);
            put_apart(random, &mut call, Place { face, column, row });
        }
        Second::FarthestApart => put_farthest_apart(random, &mut call),
    }
    call
}

fn layouts_of(call: &ScoreCall) -> [Layout; 2] {
    [0, 1].map(|end| Layout::from_bytes(&call.layouts[end]).expect("12 bytes"))
}

/// Makes the second frame the picture of the first, in its own layout.
fn put_same_picture(call: &mut ScoreCall) {
    let (size, [first, second]) = (call.size as i64, layouts_of(call));
    let [from, to] = &mut call.frames;
    for (index, pair) in (0..).zip(to.chunks_exact_mut(2)) {
        let position = 2 * index_of(&first, size, place_at(&second, size, index)) as usize;
        pair.copy_from_slice(&from[position..position + 2]);
    }
}

/// Replaces the second frame's sample at a place by another one: the next, the smallest, the largest or any.
fn put_apart(random: &mut Random, call: &mut ScoreCall, place: Place) {
    let largest = largest_sample(call.depth as i64) as u16;
    let position = 2 * index_of(&layouts_of(call)[1], call.size as i64, place) as usize;
    let pair = &mut call.frames[1][position..position + 2];
    let (sample, any) = (u16::from_le_bytes([pair[0], pair[1]]), random.bits() as u16 & largest);
    let another = random.pick(&[sample ^ 1, 0, largest, any]);
    pair.copy_from_slice(&if another == sample { sample ^ 1 } else { another }.to_le_bytes());
}

fn put_farthest_apart(random: &mut Random, call: &mut ScoreCall) {
    let mut samples = [0, largest_sample(call.depth as i64) as u16];
    if random.once_in(2) {
        samples.reverse();
    }
    for (frame, sample) in call.frames.iter_mut().zip(samples) {
        frame.chunks_exact_mut(2).for_each(|pair| pair.copy_from_slice(&sample.to_le_bytes()));
    }
}

fn small_score(random: &mut Random) -> ScoreCall {
    let (size, format, second) = (small_size(random), random.bits() % 2, random.pick(&SECONDS));
    score(random, size, format, second)
}

pub fn scores(comparison: &mut Comparison) {
    accepted(comparison);
    every_place(comparison);
    damaged(comparison, small_score);
    both_frames_beyond(comparison);
    every_answer_length(comparison);
    medium(comparison);
    large(comparison);
    after_whole_cube_turns(comparison);
}

/// Small scores that are accepted, of every kind and in both formats.
fn accepted(comparison: &mut Comparison) {
    for second in SECONDS {
        for format in [0, 1] {
            for _ in 0..2_500 {
                let size = small_size(&mut comparison.random);
                let call = score(&mut comparison.random, size, format, second);
                comparison.compare_frames(&call);
            }
        }
    }
}

/// Frames that are one sample apart, at each place of the smallest cubes.
fn every_place(comparison: &mut Comparison) {
    for size in 1..=6 {
        for place in places(size) {
            for format in [0, 1] {
                let mut call = score(&mut comparison.random, size as u64, format, Second::SamePicture);
                put_apart(&mut comparison.random, &mut call, place);
                comparison.compare_frames(&call);
            }
        }
    }
}

/// Samples beyond the depth in both frames, at the first, the last or any indices.
fn both_frames_beyond(comparison: &mut Comparison) {
    for first in Damage::of_samples(0) {
        for second in Damage::of_samples(1) {
            for _ in 0..60 {
                let mut call = small_score(&mut comparison.random);
                for damage in [first, second] {
                    damage.apply(&mut comparison.random, &mut call.parts());
                }
                comparison.compare_frames(&call);
            }
        }
    }
}

/// Every answer length, with calls that are accepted and calls that are refused.
fn every_answer_length(comparison: &mut Comparison) {
    for length in answer_lengths() {
        for refused in [false, true].into_iter().cycle().take(60) {
            let mut call = small_score(&mut comparison.random);
            call.answer.resize(length, 0);
            comparison.random.fill(&mut call.answer);
            if refused {
                damage_any(&mut comparison.random, &mut call);
            }
            comparison.compare_frames(&call);
        }
    }
}

/// Each size up to 100 and some more, and some of these damaged.
fn medium(comparison: &mut Comparison) {
    for (size, second) in (10..=100).chain([127, 128, 129, 200, 255, 256, 257, 384]).zip(SECONDS.into_iter().cycle()) {
        let format = comparison.random.bits() % 2;
        let mut call = score(&mut comparison.random, size, format, second);
        comparison.compare_frames(&call);
        damage_any(&mut comparison.random, &mut call);
        comparison.compare_frames(&call);
    }
}

/// A handful of the largest sizes, and of sizes just outside the range.
fn large(comparison: &mut Comparison) {
    for size in [511, 512] {
        for (second, format) in SECONDS.into_iter().zip([size % 2, 1 - size % 2].into_iter().cycle()) {
            let call = score(&mut comparison.random, size, format, second);
            comparison.compare_frames(&call);
        }
    }
    // The largest sums of all.
    for format in [0, 1] {
        let mut call = score(&mut comparison.random, 512, format, Second::Any);
        call.depth = 12;
        put_farthest_apart(&mut comparison.random, &mut call);
        comparison.compare_frames(&call);
    }
    for damage in [
        Damage::LastSample { end: 0 },
        Damage::LastSample { end: 1 },
        Damage::AnySample { end: 1 },
        Damage::TwoSamples { end: 1 },
        Damage::ShorterBy { end: 0, bytes: 1 },
        Damage::LongerBy { end: 0, bytes: 2 },
        Damage::ShorterBy { end: 1, bytes: 2 },
        Damage::LongerBy { end: 1, bytes: 1 },
    ] {
        let mut call = score(&mut comparison.random, 512, 1, Second::Any);
        damage.apply(&mut comparison.random, &mut call.parts());
        comparison.compare_frames(&call);
    }
    // Sizes that are refused, with the bytes that a frame of that size would have.
    for size in [0, 513] {
        let call = score(&mut comparison.random, size, 0, Second::Any);
        comparison.compare_frames(&call);
    }
}

/// Two frames that the library converts alike by whole-cube turns, each to a layout of its own, keep their score.
fn after_whole_cube_turns(comparison: &mut Comparison) {
    for size in (1..=9).cycle().take(270).chain([33, 64]) {
        let (format, second) = (comparison.random.bits() % 2, comparison.random.pick(&SECONDS));
        let mut call = score(&mut comparison.random, size, format, second);
        let at_first = comparison.compare_frames(&call);
        for count in 1..=1 + comparison.random.below(4) {
            turn_both(comparison, &mut call);
            let afterwards = comparison.compare_frames(&call);
            comparison.compare_after_turns(&call, count, &at_first, &afterwards);
        }
    }
}

/// Replaces both frames of a score by what the library converts them to.
fn turn_both(comparison: &mut Comparison, call: &mut ScoreCall) {
    let (rotation, sampler) = (cube_rotation(&mut comparison.random), comparison.random.bits() % 2);
    for end in [0, 1] {
        let random = &mut comparison.random;
        let conversion = ConvertCall {
            sizes: [call.size, call.size],
            depth: call.depth,
            codes: [call.format, call.format, sampler],
            layouts: [call.layouts[end].clone(), layout(random).to_vec()],
            rotation,
            frames: [call.frames[end].clone(), random_bytes(random, call.size)],
        };
        call.frames[end] = comparison.compare_frames(&conversion);
        call.layouts[end].copy_from_slice(&conversion.layouts[1]);
    }
}
