//! What can be wrong with a call that is lent frames.

use crate::cases::FAR;
use crate::frame_call::Parts;
use reference::frames::frame_bytes;
use reference::random::Random;

/// Face sizes that are refused.
const SIZES: [u64; 7] = [0, 513, 514, 1 << 10, 1 << 16, u64::MAX - 3, u64::MAX];

/// Depths that are refused.
const DEPTHS: [u64; 7] = [0, 1, 7, 13, 16, 64, u64::MAX];

/// Codes that are refused.
const CODES: [u64; 5] = [2, 3, 255, u64::MAX - 1, u64::MAX];

/// A size, depth or code with such a bit more is in range once cut; with the last, the bytes of a frame are right once cut.
const BITS: [u32; 3] = [16, 32, 63];

/// Faces that no slot may have.
const FACES: [u8; 5] = [6, 7, 8, 128, 255];

/// Counts of quarter turns that no slot may have; some are in range once cut.
const QUARTER_TURNS: [u8; 4] = [4, 5, 128, 255];

/// Lengths of a layout other than 12.
const LAYOUT_LENGTHS: [usize; 6] = [0, 1, 6, 11, 13, 24];

/// The ends are those of `Parts`.
#[derive(Clone, Copy, Debug)]
pub enum Damage {
    Size { end: usize, size: u64 },
    SizeBit { end: usize, bit: u32 },
    Depth(u64),
    DepthBit(u32),
    Code { position: usize, code: u64 },
    CodeBit { position: usize, bit: u32 },
    FaceTwice { end: usize },
    Face { end: usize, face: u8 },
    QuarterTurns { end: usize, count: u8 },
    LayoutLength { end: usize, length: usize },
    RotationNumber { position: usize, number: i64 },
    RotationZero,
    LongerBy { end: usize, bytes: usize },
    ShorterBy { end: usize, bytes: usize },
    Empty { end: usize },
    LengthOfTheOtherEnd { end: usize },
    OtherSize,
    FirstSample { end: usize },
    LastSample { end: usize },
    AnySample { end: usize },
    TwoSamples { end: usize },
}

impl Damage {
    pub fn of_size(end: usize) -> Vec<Damage> {
        [&SIZES.map(|size| Damage::Size { end, size })[..], &BITS.map(|bit| Damage::SizeBit { end, bit })].concat()
    }

    pub fn of_depth() -> Vec<Damage> {
        [&DEPTHS.map(Damage::Depth)[..], &BITS.map(Damage::DepthBit)].concat()
    }

    pub fn of_code(position: usize) -> Vec<Damage> {
        let bits = BITS.map(|bit| Damage::CodeBit { position, bit });
        [&CODES.map(|code| Damage::Code { position, code })[..], &bits].concat()
    }

    pub fn of_layout(end: usize) -> Vec<Damage> {
        let mut damages = vec![Damage::FaceTwice { end }];
        damages.extend(FACES.map(|face| Damage::Face { end, face }));
        damages.extend(QUARTER_TURNS.map(|count| Damage::QuarterTurns { end, count }));
        damages.extend(LAYOUT_LENGTHS.map(|length| Damage::LayoutLength { end, length }));
        damages
    }

    pub fn of_rotation_number(position: usize) -> Vec<Damage> {
        FAR.map(|number| Damage::RotationNumber { position, number }).to_vec()
    }

    pub fn of_length(end: usize) -> Vec<Damage> {
        let mut damages = vec![Damage::Empty { end }];
        damages.extend([1, 2].map(|bytes| Damage::LongerBy { end, bytes }));
        damages.extend([1, 2].map(|bytes| Damage::ShorterBy { end, bytes }));
        damages
    }

    pub fn of_samples(end: usize) -> Vec<Damage> {
        vec![Damage::FirstSample { end }, Damage::LastSample { end }, Damage::AnySample { end }, Damage::TwoSamples { end }]
    }

    /// Does the damage to a call, which may have others already.
    pub fn apply(self, random: &mut Random, call: &mut Parts) {
        match self {
            Damage::Size { end, size } => call.sizes[end] = size,
            Damage::SizeBit { end, bit } => call.sizes[end] |= 1 << bit,
            Damage::Depth(depth) => *call.depth = depth,
            Damage::DepthBit(bit) => *call.depth |= 1 << bit,
            Damage::Code { position, code } => call.codes[position] = code,
            Damage::CodeBit { position, bit } => call.codes[position] |= 1 << bit,
            Damage::FaceTwice { end } => {
                let (from, steps) = (random.below(6), 1 + random.below(5));
                replace(&mut call.layouts[end], (from + steps) % 6, |layout| layout[from]);
            }
            Damage::Face { end, face } => replace(&mut call.layouts[end], random.below(6), |_| face),
            Damage::QuarterTurns { end, count } => replace(&mut call.layouts[end], 6 + random.below(6), |_| count),
            Damage::LayoutLength { end, length } => call.layouts[end].resize(length, 0),
            Damage::RotationNumber { position, number } => call.rotation[position] = number,
            Damage::RotationZero => call.rotation.fill(0),
            Damage::LongerBy { end, bytes } => {
                let length = call.frames[end].len() + bytes;
                call.frames[end].resize(length, 0);
            }
            Damage::ShorterBy { end, bytes } => {
                let length = call.frames[end].len().saturating_sub(bytes);
                call.frames[end].truncate(length);
            }
            Damage::Empty { end } => call.frames[end].clear(),
            Damage::LengthOfTheOtherEnd { end } => {
                let size = call.sizes[1 - end].min(513) as i64;
                call.frames[end].resize(frame_bytes(size) as usize, 0);
            }
            Damage::OtherSize => call.sizes[0] = call.sizes[0] % 512 + 1,
            Damage::FirstSample { end } => put_beyond(random, call, end, |_, _| 0),
            Damage::LastSample { end } => put_beyond(random, call, end, |_, count| count - 1),
            Damage::AnySample { end } => put_beyond(random, call, end, |random, count| random.below(count)),
            Damage::TwoSamples { end } => {
                Damage::AnySample { end }.apply(random, call);
                Damage::AnySample { end }.apply(random, call);
            }
        }
    }
}

/// Replaces a byte of a layout, if it has not been cut before that byte.
fn replace(layout: &mut [u8], position: usize, byte: impl Fn(&[u8; 12]) -> u8) {
    if let Ok(layout) = <&mut [u8; 12]>::try_from(layout) {
        layout[position] = byte(layout);
    }
}

/// Replaces the sample of a frame at an index, of so many, by one beyond the depth, if there is any sample.
fn put_beyond(random: &mut Random, call: &mut Parts, end: usize, index: impl Fn(&mut Random, usize) -> usize) {
    let count = call.frames[end].len() / 2;
    if count > 0 {
        let index = index(random, count);
        let (lowest, any) = (1 << (*call.depth).min(15), random.bits() as u16);
        let sample = random.pick(&[lowest, lowest | any, 1 << 15, u16::MAX]);
        call.frames[end][2 * index..2 * index + 2].copy_from_slice(&sample.to_le_bytes());
    }
}
