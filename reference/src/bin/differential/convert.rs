//! A call of convert with its buffers, made of the library and of the reference.

use crate::comparison::Lending;
use crate::coverage::Coverage;
use crate::damage::Damage;
use crate::frame_call::{FrameCall, Parts};
use reference::calls::{self, ConvertArguments};
use std::fmt;

#[rustfmt::skip]
extern "C" {
    fn welchodrys_convert(
        source_size: u64, target_size: u64, depth: u64,
        source_format: u64, target_format: u64, sampler: u64,
        source_layout: *const u8, source_layout_length: usize, target_layout: *const u8, target_layout_length: usize,
        e0: i64, e1: i64, e2: i64, e3: i64,
        source: *const u8, source_length: usize, target: *mut u8, target_length: usize,
    ) -> u64;
}

/// The source's end comes first, the target's second.
#[derive(Clone, Debug)]
pub struct ConvertCall {
    pub sizes: [u64; 2],
    pub depth: u64,
    /// The source's format, the target's, the sampler.
    pub codes: [u64; 3],
    pub layouts: [Vec<u8>; 2],
    pub rotation: [i64; 4],
    /// The source, and the target before the call.
    pub frames: [Vec<u8>; 2],
}

impl ConvertCall {
    pub const NAME: &'static str = "convert";

    pub fn arguments(&self) -> ConvertArguments<'_> {
        ConvertArguments {
            source_size: self.sizes[0],
            target_size: self.sizes[1],
            depth: self.depth,
            source_format: self.codes[0],
            target_format: self.codes[1],
            sampler: self.codes[2],
            source_layout: &self.layouts[0],
            target_layout: &self.layouts[1],
            rotation: self.rotation,
            source: &self.frames[0],
        }
    }
}

impl FrameCall<4> for ConvertCall {
    const KIND: usize = 3;
    const BUFFERS: [&'static str; 4] = ["source layout", "target layout", "source", "target"];
    const QUESTIONS: &'static [u64] = &[1, 2, 3, 4, 5, 6, 7, 8, 9, 10];

    fn buffers(&self) -> [&[u8]; 4] {
        [&self.layouts[0], &self.layouts[1], &self.frames[0], &self.frames[1]]
    }

    fn numbers(&self) -> Vec<u64> {
        let rotation = self.rotation.map(|number| number as u64);
        [&self.sizes[..], &[self.depth], &self.codes, &rotation].concat()
    }

    unsafe fn of_library(&self, pointers: [*mut u8; 4]) -> u64 {
        let [source_size, target_size] = self.sizes;
        let [source_format, target_format, sampler] = self.codes;
        let [e0, e1, e2, e3] = self.rotation;
        let [source_layout, target_layout, source, target] = pointers;
        let [source_layout_length, target_layout_length, source_length, target_length] = self.buffers().map(<[u8]>::len);
        #[rustfmt::skip]
        let code = welchodrys_convert(
            source_size, target_size, self.depth,
            source_format, target_format, sampler,
            source_layout, source_layout_length, target_layout, target_layout_length,
            e0, e1, e2, e3,
            source, source_length, target, target_length,
        );
        code
    }

    fn of_reference(&self, target: &mut [u8]) -> u64 {
        calls::convert(self.arguments(), target)
    }

    fn note(&self, coverage: &mut Coverage, number: u64, lending: Lending) {
        coverage.note_conversion(self, number, lending);
    }

    fn damages(question: u64) -> Vec<Damage> {
        let positions = |count: usize, damages: fn(usize) -> Vec<Damage>| (0..count).flat_map(damages).collect();
        match question {
            1 => Damage::of_size(0),
            2 => Damage::of_size(1),
            3 => Damage::of_depth(),
            4 => positions(3, Damage::of_code),
            5 => positions(2, Damage::of_layout),
            6 => positions(4, Damage::of_rotation_number),
            7 => vec![Damage::RotationZero],
            8 => [Damage::of_length(0), vec![Damage::LengthOfTheOtherEnd { end: 0 }]].concat(),
            9 => [Damage::of_length(1), vec![Damage::LengthOfTheOtherEnd { end: 1 }]].concat(),
            10 => Damage::of_samples(0),
            _ => unreachable!("convert puts 1 to 10"),
        }
    }

    fn parts(&mut self) -> Parts<'_> {
        let ConvertCall { sizes, depth, codes, layouts, rotation, frames } = self;
        Parts { sizes, depth, codes, layouts, rotation, frames }
    }
}

impl fmt::Display for ConvertCall {
    fn fmt(&self, formatter: &mut fmt::Formatter) -> fmt::Result {
        let ConvertCall { sizes, depth, codes, layouts, rotation, frames } = self;
        let lengths = [frames[0].len(), frames[1].len()];
        write!(formatter, "convert, sizes {sizes:?}, depth {depth}, formats and sampler {codes:?}, layouts {layouts:?}, ")?;
        write!(formatter, "turn {rotation:?}, lengths of source and target {lengths:?}")
    }
}
