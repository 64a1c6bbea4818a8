//! The calls of fold, equal and look_up, and their lines.

use reference::calls::{equal, fold, look_up};

/// One call, with its numbers in the order of C.
#[derive(Clone, Copy, Debug)]
pub enum Call {
    /// The first turn, then the later one.
    Fold([[i64; 4]; 2]),
    Equal([[i64; 4]; 2]),
    /// The size and the format, then X, Y and Z.
    LookUp([u64; 2], [i64; 3]),
}

/// All calls, in order. In each of the last three, an exchange of two numbers of one type changes the outcome.
pub const ALL: [Call; 6] = [
    // P9, P10 and P11.
    Call::Fold([[1, 1, 0, 0], [1, 0, 1, 0]]),
    Call::Fold([[1, 0, 1, 0], [1, 1, 0, 0]]),
    Call::Fold([[31, 1, 0, 0], [31, 1, 0, 0]]),
    Call::Fold([[1, 2, 3, 4], [5, 6, 7, 8]]),
    Call::Equal([[1, 2, 4, 5], [-3, -6, -12, -15]]),
    Call::LookUp([4, 1], [10, -3, 9]),
];

impl Call {
    /// The call's name and numbers, what it returns as number and index, and its answer. All is decimal, with single spaces.
    pub fn line(&self) -> String {
        let call = match self {
            Call::Fold(turns) => format!("fold {}", spaced(turns.as_flattened())),
            Call::Equal(turns) => format!("equal {}", spaced(turns.as_flattened())),
            Call::LookUp(cube, ray) => format!("look_up {} {}", spaced(cube), spaced(ray)),
        };
        let (code, answer) = self.outcome();
        format!("{call} {} {} {}", code % 256, code / 256, spaced(&answer))
    }

    /// What the call returns, and the numbers in its answer buffer afterwards.
    pub fn outcome(&self) -> (u64, Vec<i64>) {
        match *self {
            Call::Fold([first, later]) => answered::<4>(|answer| fold(first, later, answer)),
            Call::Equal([first, second]) => answered::<1>(|answer| equal(first, second, answer)),
            Call::LookUp([size, format], ray) => answered::<3>(|answer| look_up(size, format, ray, answer)),
        }
    }
}

/// Lends a call an answer buffer for so many numbers, whose bytes are 0 before.
fn answered<const NUMBERS: usize>(call: impl FnOnce(&mut [u8]) -> u64) -> (u64, Vec<i64>) {
    let mut answer = [[0; 8]; NUMBERS];
    let code = call(answer.as_flattened_mut());
    (code, answer.map(i64::from_le_bytes).to_vec())
}

fn spaced(numbers: &[impl ToString]) -> String {
    numbers.iter().map(ToString::to_string).collect::<Vec<_>>().join(" ")
}
