//! The paper ("Cubemap frames: turning, resampling and scoring") in plain Rust: written from its sentences, which are quoted
//! above the functions, with exact whole numbers: of 128 bits, or of 64 bits in what is done for every sample and fits them. Where
//! a number did not fit, the program would end and not go on with a wrong one. It is meant to be read beside the paper and is not
//! made for speed.
//!
//! The paper's turn, fold, question, T and look-up are rotation, composition, check, position64 and location here. The modules
//! `searches` and `random` are no part of the paper: the first finds its "largest whole" numbers, and from the second the tests
//! that compare take theirs.

pub mod calls;
pub mod checks;
pub mod conversions;
pub mod frames;
pub mod listing;
pub mod positions;
pub mod random;
pub mod rays;
pub mod rotations;
pub mod samplers;
pub mod scores;
mod searches;
