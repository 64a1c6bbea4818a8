//! What the calls that are lent frames, convert and score, have in common.

use crate::comparison::Lending;
use crate::coverage::Coverage;
use crate::damage::Damage;
use std::fmt;

/// No frame that is lent has more bytes: one of size 513, and two bytes more.
pub const LONGEST_FRAME: usize = 12 * 513 * 513 + 2;

/// A call with so many buffers, made of the library and of the reference. It is displayed without the bytes of its frames.
pub trait FrameCall<const COUNT: usize>: fmt::Display {
    /// Its place among all calls, behind those of `Call`.
    const KIND: usize;

    /// What is lent, in the order of the arguments: two layouts, two frames and what else there is. The last may be written.
    const BUFFERS: [&'static str; COUNT];

    /// The questions that it puts, in order.
    const QUESTIONS: &'static [u64];

    fn buffers(&self) -> [&[u8]; COUNT];

    /// The numbers among the arguments, in the order of the prototype and in two's complement.
    fn numbers(&self) -> Vec<u64>;

    /// What the library returns.
    ///
    /// # Safety
    /// Each pointer points at as many bytes as its buffer has, or that buffer is empty. Those of the last may be written, and
    /// nothing else borrows them.
    unsafe fn of_library(&self, pointers: [*mut u8; COUNT]) -> u64;

    /// What the reference returns; it writes the last buffer.
    fn of_reference(&self, written: &mut [u8]) -> u64;

    /// Notes its cases with the number that the reference returned.
    fn note(&self, coverage: &mut Coverage, number: u64, lending: Lending);

    /// What makes the answer to one of its questions "no": each kind, at each end or position, with each number.
    fn damages(question: u64) -> Vec<Damage>;

    /// What can be damaged.
    fn parts(&mut self) -> Parts<'_>;
}

/// The end 0 is the source or the first frame, 1 the target or the second; a score has one size and one code, and no rotation.
pub struct Parts<'call> {
    pub sizes: &'call mut [u64],
    pub depth: &'call mut u64,
    pub codes: &'call mut [u64],
    pub layouts: &'call mut [Vec<u8>; 2],
    pub rotation: &'call mut [i64],
    pub frames: &'call mut [Vec<u8>; 2],
}
