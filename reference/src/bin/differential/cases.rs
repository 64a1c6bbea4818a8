//! The calls of fold, equality and look-up that are compared.

use crate::call::Call;
use crate::comparison::Comparison;
use crate::coverage::answer_lengths;
use reference::positions::{exact_position, is_halfway, Format};
use reference::random::{face_size, ray, Random, LARGEST_RAY};
use reference::rotations::product;

/// Numbers that no turn may have; some are in range once cut to 32, 16 or 8 bits.
#[rustfmt::skip]
pub const FAR: [i64; 20] = [
    32, -32, 33, -33, 255, 1 << 8, -(1 << 8), 1 << 16, 1 << 31, -(1 << 31), (1 << 32) - 1, 1 << 32, -(1 << 32), 1 << 62, -(1 << 62),
    i64::MIN, i64::MIN + 1, i64::MIN + 31, i64::MAX, i64::MAX - 31,
];

/// Face sizes to be refused or accepted; some are in range once cut.
const SIZES: [u64; 16] = [0, 1, 2, 3, 4, 5, 7, 64, 511, 512, 513, 1 << 16, (1 << 32) + 4, 1 << 63, u64::MAX - 3, u64::MAX];

/// Format codes to be refused or accepted; some are 0 or 1 once cut.
const FORMATS: [u64; 10] = [0, 1, 2, 3, 255, 256, 257, 1 << 32, (1 << 32) + 1, u64::MAX];

/// Numbers of a ray around its bounds, and far beyond.
#[rustfmt::skip]
const RAY_NUMBERS: [i64; 19] = [
    0, 1, -1, LARGEST_RAY, -LARGEST_RAY, LARGEST_RAY - 1, 1 - LARGEST_RAY, LARGEST_RAY + 1, -LARGEST_RAY - 1,
    1 << 31, -(1 << 31), 1 << 32, -(1 << 32), (1 << 32) + 1, 1 << 62, -(1 << 62), i64::MIN, i64::MIN + 1, i64::MAX,
];

type Rotation = [i64; 4];

/// A pair of rotations as a call: a fold or a test for equality.
type RotationCall = fn(Rotation, Rotation) -> Call;

fn fold_call(first: Rotation, later: Rotation) -> Call {
    Call::Fold { first, later }
}

fn equal_call(first: Rotation, second: Rotation) -> Call {
    Call::Equal { first, second }
}

/// Four numbers in range, now and then all zero.
pub fn rotation(random: &mut Random) -> Rotation {
    let size = random.pick(&[1, 2, 3, 5, 7, 31]);
    match random.below(4) {
        0 => [0; 4].map(|_| random.within(size)),
        1 => [0; 4].map(|_| if random.once_in(2) { 0 } else { random.within(size) }),
        2 => {
            let factor = random.sign() * (1 + random.below((31 / size) as usize) as i64);
            [0; 4].map(|_| factor * random.within(size))
        }
        _ => [0; 4].map(|_| random.pick(&[-31, -30, -16, -1, 0, 1, 15, 16, 30, 31])),
    }
}

fn conjugate([e0, e1, e2, e3]: Rotation) -> Rotation {
    [e0, -e1, -e2, -e3]
}

fn multiplied(first: Rotation, later: Rotation) -> Rotation {
    product(first.map(i128::from), later.map(i128::from)).map(|number| number as i64)
}

/// Two rotations in range whose product often has a large common divisor.
fn fold_pair(random: &mut Random) -> (Rotation, Rotation) {
    match random.below(4) {
        0 => {
            let first = rotation(random);
            (first, first.map(|number| random.sign() * number))
        }
        1 => {
            let [left, middle, right] = [0; 3].map(|_| [0; 4].map(|_| random.within(2)));
            (multiplied(left, middle), multiplied(conjugate(middle), right))
        }
        _ => (rotation(random), rotation(random)),
    }
}

/// Two rotations in range, often multiples of one, or nearly so.
fn equal_pair(random: &mut Random) -> (Rotation, Rotation) {
    let size = random.pick(&[1, 2, 3, 5]);
    let base = [0; 4].map(|_| random.within(size));
    let mut multiple = || {
        let factor = random.sign() * (1 + random.below((31 / size) as usize) as i64);
        base.map(|number| factor * number)
    };
    let (first, mut second) = (multiple(), multiple());
    match random.below(6) {
        0 => (rotation(random), rotation(random)),
        1 => {
            let position = random.below(4);
            second[position] = -second[position];
            (first, second)
        }
        2 => {
            let position = random.below(4);
            second[position] = (second[position] + random.sign()).clamp(-31, 31);
            (first, second)
        }
        3 => {
            second.swap(0, 1 + random.below(3));
            (first, second)
        }
        _ => (first, second),
    }
}

/// A number that no turn may have (a random one of 64 bits hardly can be in range).
fn far(random: &mut Random) -> i64 {
    match random.below(3) {
        0 => random.within(31) + random.sign() * (1 << (6 + random.below(57))),
        1 => random.bits() as i64,
        _ => random.pick(&FAR),
    }
}

/// Calls of two rotations: `pairs` random ones, and those that each question decides.
fn rotation_calls(comparison: &mut Comparison, pairs: usize, pair: fn(&mut Random) -> (Rotation, Rotation), call: RotationCall) {
    for _ in 0..pairs {
        let (first, second) = pair(&mut comparison.random);
        comparison.compare(call(first, second));
    }
    // One number replaced, at each place.
    for position in 0..8 {
        for value in FAR.into_iter().chain([31, -31]) {
            for _ in 0..40 {
                let (first, second) = pair(&mut comparison.random);
                let mut numbers = [first, second];
                numbers[position / 4][position % 4] = value;
                comparison.compare(call(numbers[0], numbers[1]));
            }
        }
    }
    // Several numbers replaced and rotations zero, so that more than one question says no.
    for _ in 0..pairs / 10 {
        let (first, second) = pair(&mut comparison.random);
        let mut numbers = [first, second];
        for rotation in &mut numbers {
            if comparison.random.once_in(3) {
                *rotation = [0; 4];
            }
            for number in rotation.iter_mut() {
                if comparison.random.once_in(8) {
                    *number = far(&mut comparison.random);
                }
            }
        }
        if comparison.random.once_in(4) {
            numbers[comparison.random.below(2)] = [0; 4];
        }
        comparison.compare(call(numbers[0], numbers[1]));
    }
    // 31 and −31 at each place, next to a rotation that leaves numbers small.
    for position in 0..4 {
        for unit in 0..4 {
            for value in [-31, 31] {
                let mut large = [0, 1, 0, -1];
                large[position] = value;
                let mut small = [0; 4];
                small[unit] = comparison.random.sign();
                comparison.compare(call(large, small));
                comparison.compare(call(small, large));
            }
        }
    }
    // Every answer length, with calls that are accepted and calls that are refused.
    for length in answer_lengths() {
        for _ in 0..40 {
            let (first, second) = pair(&mut comparison.random);
            let outside = [far(&mut comparison.random); 4];
            for (first, second) in [(first, second), ([1, 0, 0, 0], first), ([0; 4], second), (first, outside)] {
                comparison.compare_with_length(call(first, second), length);
            }
        }
    }
}

pub fn folds(comparison: &mut Comparison) {
    rotation_calls(comparison, 250_000, fold_pair, fold_call);
}

pub fn equalities(comparison: &mut Comparison) {
    rotation_calls(comparison, 150_000, equal_pair, equal_call);
}

/// A ray with `d` on one axis and `scaled` on another, and a random number of at most that size on the third; signs are random.
fn ray_of(random: &mut Random, scaled: i64, d: i64) -> [i64; 3] {
    let mut numbers = [d, scaled, random.within(d)];
    let turned = random.below(3);
    numbers.rotate_left(turned);
    if random.once_in(2) {
        numbers.swap(0, 2);
    }
    numbers.map(|number| random.sign() * number)
}

/// A face size with a fraction (numerator, denominator) of a face's half at which 64 times the position is halfway.
type Half = (u64, i64, i64);

/// All such fractions with small denominators.
fn halves(format: Format, sizes: impl Iterator<Item = u64>, denominators: i64) -> Vec<Half> {
    let mut found = Vec::new();
    for size in sizes {
        for d in 1..=denominators {
            for scaled in 1..=d {
                if is_halfway(exact_position(format, size.into(), scaled.into(), d.into())) {
                    found.push((size, scaled, d));
                }
            }
        }
    }
    found
}

/// Look-ups at such a fraction, times a random factor, and just beside it.
fn compare_half(comparison: &mut Comparison, format: u64, (size, scaled, d): Half) {
    let random = &mut comparison.random;
    let largest_factor = ((LARGEST_RAY / d) >> random.below(15)).max(1);
    let factor = 1 + random.below(largest_factor as usize) as i64;
    let (scaled, d) = (factor * scaled, factor * d);
    for beside in [0, 1, -1] {
        let ray = ray_of(&mut comparison.random, (scaled + beside).min(d), d);
        comparison.compare(Call::LookUp { size, format, ray });
    }
}

pub fn look_ups(comparison: &mut Comparison) {
    // Every small ray: ties, edges, zeros and many halves.
    for size in [1, 2, 3, 4, 5, 7, 511, 512] {
        for number in 0..25 * 25 * 25 {
            let ray = [number / 625 - 12, number / 25 % 25 - 12, number % 25 - 12];
            for format in [0, 1] {
                comparison.compare(Call::LookUp { size, format, ray });
            }
        }
    }
    // Every size with every small fraction, where a position can miss a half by very little.
    for size in 1..=512 {
        for d in 1..=16 {
            for scaled in 0..=d {
                let ray = ray_of(&mut comparison.random, scaled, d);
                comparison.compare(Call::LookUp { size, format: 1, ray });
            }
        }
    }
    for _ in 0..150_000 {
        let random = &mut comparison.random;
        let (size, format, ray) = (face_size(random), random.bits() % 2, ray(random));
        comparison.compare(Call::LookUp { size, format, ray });
    }
    // Halves. In CMP they are k / 64A for each odd k; in ACP they are searched for.
    for _ in 0..10_000 {
        let random = &mut comparison.random;
        let size = face_size(random);
        let odd = 2 * random.below(32 * size as usize) as i64 + 1;
        compare_half(comparison, 0, (size, odd, 64 * size as i64));
    }
    let found = halves(Format::Acp, 1..=512, 48);
    for _ in 0..10_000 {
        let half = comparison.random.pick(&found);
        compare_half(comparison, 1, half);
    }
    // Settings and rays that are refused, several at once.
    for size in SIZES {
        for format in FORMATS {
            for _ in 0..40 {
                let random = &mut comparison.random;
                let ray = match random.below(4) {
                    0 => [0; 3],
                    1 => ray(random),
                    _ => [0; 3].map(|_| random.pick(&RAY_NUMBERS)),
                };
                comparison.compare(Call::LookUp { size, format, ray });
            }
        }
    }
    // The bounds of a ray, on every axis.
    for x in RAY_NUMBERS {
        for y in RAY_NUMBERS {
            for z in RAY_NUMBERS {
                for format in [0, 1] {
                    let size = face_size(&mut comparison.random);
                    comparison.compare(Call::LookUp { size, format, ray: [x, y, z] });
                }
            }
        }
    }
    // Every answer length, with calls that are accepted and calls that are refused.
    for length in answer_lengths() {
        for _ in 0..40 {
            let random = &mut comparison.random;
            let (size, format, ray) = (face_size(random), random.bits() % 2, ray(random));
            let wrong_size = 513 + (random.bits() >> 1);
            for (size, format, ray) in [
                (size, format, ray),
                (wrong_size, format, ray),
                (size, 2, ray),
                (size, format, [0, 0, i64::MIN]),
                (size, format, [0; 3]),
            ] {
                comparison.compare_with_length(Call::LookUp { size, format, ray }, length);
            }
        }
    }
}
