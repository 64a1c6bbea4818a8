//! A call that writes an answer, with its arguments, made of the library and of the reference.

use reference::calls;

const _: &str = env!("WELCHODRYS_LIBRARY_DIR", "set WELCHODRYS_LIBRARY_DIR to the directory that holds libwelchodrys.a");

#[rustfmt::skip]
extern "C" {
    fn welchodrys_fold(
        first0: i64, first1: i64, first2: i64, first3: i64,
        later0: i64, later1: i64, later2: i64, later3: i64,
        answer: *mut u8, answer_length: usize,
    ) -> u64;
    fn welchodrys_equal(
        first0: i64, first1: i64, first2: i64, first3: i64,
        second0: i64, second1: i64, second2: i64, second3: i64,
        answer: *mut u8, answer_length: usize,
    ) -> u64;
    fn welchodrys_look_up(size: u64, format: u64, x: i64, y: i64, z: i64, answer: *mut u8, answer_length: usize) -> u64;
}

#[derive(Clone, Copy, Debug)]
pub enum Call {
    Fold { first: [i64; 4], later: [i64; 4] },
    Equal { first: [i64; 4], second: [i64; 4] },
    LookUp { size: u64, format: u64, ray: [i64; 3] },
}

impl Call {
    /// The calls' names, in the order of `kind`.
    pub const NAMES: [&'static str; 3] = ["fold", "equal", "look_up"];

    pub fn kind(&self) -> usize {
        match self {
            Call::Fold { .. } => 0,
            Call::Equal { .. } => 1,
            Call::LookUp { .. } => 2,
        }
    }

    /// How many bytes the whole answer has.
    pub fn whole_answer(&self) -> usize {
        [32, 8, 24][self.kind()]
    }

    /// The numbers among the arguments, in the order of the prototype and in two's complement.
    pub fn numbers(&self) -> Vec<u64> {
        match *self {
            Call::Fold { first, later: second } | Call::Equal { first, second } => {
                first.into_iter().chain(second).map(|number| number as u64).collect()
            }
            Call::LookUp { size, format, ray: [x, y, z] } => vec![size, format, x as u64, y as u64, z as u64],
        }
    }

    /// What the library returns.
    ///
    /// # Safety
    /// `answer` points at `length` bytes that may be written and that nothing else borrows, or `length` is 0.
    pub unsafe fn of_library(&self, answer: *mut u8, length: usize) -> u64 {
        match *self {
            Call::Fold { first: [a, b, c, d], later: [e, f, g, h] } => welchodrys_fold(a, b, c, d, e, f, g, h, answer, length),
            Call::Equal { first: [a, b, c, d], second: [e, f, g, h] } => welchodrys_equal(a, b, c, d, e, f, g, h, answer, length),
            Call::LookUp { size, format, ray: [x, y, z] } => welchodrys_look_up(size, format, x, y, z, answer, length),
        }
    }

    /// What the reference returns.
    pub fn of_reference(&self, answer: &mut [u8]) -> u64 {
        match *self {
            Call::Fold { first, later } => calls::fold(first, later, answer),
            Call::Equal { first, second } => calls::equal(first, second, answer),
            Call::LookUp { size, format, ray } => calls::look_up(size, format, ray, answer),
        }
    }
}
