//! A call of score with its buffers, made of the library and of the reference.

use crate::comparison::Lending;
use crate::coverage::Coverage;
use crate::damage::Damage;
use crate::frame_call::{FrameCall, Parts};
use reference::calls::{self, ScoreArguments};
use std::{fmt, slice};

#[rustfmt::skip]
extern "C" {
    fn welchodrys_score(
        size: u64, depth: u64, format: u64,
        first_layout: *const u8, first_layout_length: usize, second_layout: *const u8, second_layout_length: usize,
        first: *const u8, first_length: usize, second: *const u8, second_length: usize,
        answer: *mut u8, answer_length: usize,
    ) -> u64;
}

/// The first frame's end comes first, the second's second.
#[derive(Clone, Debug)]
pub struct ScoreCall {
    pub size: u64,
    pub depth: u64,
    pub format: u64,
    pub layouts: [Vec<u8>; 2],
    pub frames: [Vec<u8>; 2],
    /// The answer buffer before the call.
    pub answer: Vec<u8>,
}

impl ScoreCall {
    pub const NAME: &'static str = "score";

    /// How many bytes the whole answer has.
    pub const WHOLE_ANSWER: usize = 16;

    pub fn arguments(&self) -> ScoreArguments<'_> {
        ScoreArguments {
            size: self.size,
            depth: self.depth,
            format: self.format,
            first_layout: &self.layouts[0],
            second_layout: &self.layouts[1],
            first: &self.frames[0],
            second: &self.frames[1],
        }
    }
}

impl FrameCall<5> for ScoreCall {
    const KIND: usize = 4;
    const BUFFERS: [&'static str; 5] = ["first layout", "second layout", "first", "second", "answer"];
    const QUESTIONS: &'static [u64] = &[1, 3, 4, 5, 8, 9, 10, 11];

    fn buffers(&self) -> [&[u8]; 5] {
        [&self.layouts[0], &self.layouts[1], &self.frames[0], &self.frames[1], &self.answer]
    }

    fn numbers(&self) -> Vec<u64> {
        vec![self.size, self.depth, self.format]
    }

    unsafe fn of_library(&self, pointers: [*mut u8; 5]) -> u64 {
        let [first_layout, second_layout, first, second, answer] = pointers;
        let [first_layout_length, second_layout_length, first_length, second_length, answer_length] =
            self.buffers().map(<[u8]>::len);
        #[rustfmt::skip]
        let code = welchodrys_score(
            self.size, self.depth, self.format,
            first_layout, first_layout_length, second_layout, second_layout_length,
            first, first_length, second, second_length,
            answer, answer_length,
        );
        code
    }

    fn of_reference(&self, answer: &mut [u8]) -> u64 {
        calls::score(self.arguments(), answer)
    }

    fn note(&self, coverage: &mut Coverage, number: u64, lending: Lending) {
        coverage.note_score(self, number, lending);
    }

    fn damages(question: u64) -> Vec<Damage> {
        match question {
            1 => Damage::of_size(0),
            3 => Damage::of_depth(),
            4 => Damage::of_code(0),
            5 => [Damage::of_layout(0), Damage::of_layout(1)].concat(),
            8 => [Damage::of_length(0), vec![Damage::OtherSize]].concat(),
            9 => Damage::of_length(1),
            10 => Damage::of_samples(0),
            11 => Damage::of_samples(1),
            _ => unreachable!("score puts 1, 3, 4, 5, 8 to 11"),
        }
    }

    fn parts(&mut self) -> Parts<'_> {
        let ScoreCall { size, depth, format, layouts, frames, .. } = self;
        Parts { sizes: slice::from_mut(size), depth, codes: slice::from_mut(format), layouts, rotation: &mut [], frames }
    }
}

impl fmt::Display for ScoreCall {
    fn fmt(&self, formatter: &mut fmt::Formatter) -> fmt::Result {
        let ScoreCall { size, depth, format, layouts, frames, answer } = self;
        let lengths = [frames[0].len(), frames[1].len(), answer.len()];
        write!(formatter, "score, size {size}, depth {depth}, format {format}, layouts {layouts:?}, ")?;
        write!(formatter, "lengths of both frames and of the answer {lengths:?}")
    }
}
