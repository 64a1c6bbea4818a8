//! The random inputs that are compared.

use crate::comparison::Comparison;
use reference::listing::LARGEST_INPUT;
use reference::random::{face_size, ray, Random};

/// Kinds other than 1; some are 1 once cut, or with their bytes in the other order.
const KINDS: [u16; 8] = [0, 2, 7, 255, 256, 257, 1 << 15, u16::MAX];

/// Lengths other than 15 of a body that is there.
const LENGTHS: [usize; 9] = [0, 1, 2, 13, 14, 16, 17, 30, 15 + 256];

/// Lengths of a body that no input holds; some are small once cut, with a sign or with 6 added.
#[rustfmt::skip]
const LONG: [u32; 14] = [
    65_531, 65_536, 15 + (1 << 16), 15 + (1 << 24), (1 << 31) - 6, (1 << 31) - 1, 1 << 31, 15 + (1 << 31), u32::MAX - 20, u32::MAX - 6,
    u32::MAX - 5, u32::MAX - 4, u32::MAX - 1, u32::MAX,
];

/// Face sizes to be refused; some are in range once cut, or with their bytes in the other order.
const SIZES: [u16; 8] = [0, 513, 514, 3 << 8, 4 << 8, 1 << 15, u16::MAX - 1, u16::MAX];

/// Numbers that no ray may have.
const FAR: [i32; 8] = [1 << 29, -(1 << 29), (1 << 29) + 1, 1 << 30, -(1 << 30), i32::MIN, i32::MIN + 1, i32::MAX];

/// Bytes that give short records more often than chance.
const SMALL: [u8; 8] = [0, 0, 0, 1, 1, 4, 15, 255];

fn record(kind: u16, body: &[u8]) -> Vec<u8> {
    let (length, kind) = ((body.len() as u32).to_le_bytes(), kind.to_le_bytes());
    [&length[..], &kind[..], body].concat()
}

fn random_bytes(random: &mut Random, count: usize) -> Vec<u8> {
    let mut bytes = vec![0; count];
    random.fill(&mut bytes);
    bytes
}

fn wrong_size(random: &mut Random) -> u16 {
    match random.below(2) {
        0 => random.pick(&SIZES),
        _ => 513 + random.below(65_536 - 513) as u16,
    }
}

/// A ray that is zero or has one number out of range.
fn wrong_ray(random: &mut Random) -> [i32; 3] {
    if random.once_in(2) {
        return [0; 3];
    }
    let mut numbers = ray(random).map(|number| number as i32);
    numbers[random.below(3)] = random.pick(&FAR);
    numbers
}

/// A record that is whole; each of its parts is wrong once in `rarity` times.
fn whole_record(random: &mut Random, rarity: usize) -> Vec<u8> {
    let kind = if random.once_in(rarity) { random.pick(&KINDS) } else { 1 };
    let format = if random.once_in(rarity) { 2 + random.below(254) } else { random.below(2) };
    let size = if random.once_in(rarity) { wrong_size(random) } else { face_size(random) as u16 };
    let ray = if random.once_in(rarity) { wrong_ray(random) } else { ray(random).map(|number| number as i32) };
    let mut body = [vec![format as u8], size.to_le_bytes().to_vec(), ray.map(i32::to_le_bytes).concat()].concat();
    if random.once_in(rarity) {
        let length = random.pick(&LENGTHS);
        body.extend(random_bytes(random, length));
        body.truncate(length);
    }
    record(kind, &body)
}

/// Fewer than `count` records, few or many of them wrong.
fn records(random: &mut Random, count: usize) -> Vec<u8> {
    let rarity = random.pick(&[2, 8, 32, 256]);
    (0..random.below(count)).flat_map(|_| whole_record(random, rarity)).collect()
}

/// Records, and then a good one or a wrong one that is cut after `length` bytes.
fn cut(random: &mut Random, length: usize) -> Vec<u8> {
    let mut last = whole_record(random, 32);
    last.truncate(length);
    [records(random, 5), last].concat()
}

/// Records, of which one tells a length that no input holds.
fn long_length(random: &mut Random) -> Vec<u8> {
    let length = match random.below(3) {
        0 => u32::MAX - (random.bits() as u32 >> 1),
        _ => random.pick(&LONG),
    };
    let mut long = whole_record(random, 8);
    long[..4].copy_from_slice(&length.to_le_bytes());
    [records(random, 5), long, records(random, 5)].concat()
}

/// Records with one byte replaced, taken out or put in.
fn changed(random: &mut Random) -> Vec<u8> {
    let mut input = [whole_record(random, 32), records(random, 10)].concat();
    let position = random.below(input.len());
    match random.below(3) {
        0 => input[position] = random.pick(&SMALL),
        1 => drop(input.remove(position)),
        _ => input.insert(position, random.pick(&SMALL)),
    }
    input
}

/// Bytes without any order.
fn disordered(random: &mut Random) -> Vec<u8> {
    let length = random.below(100);
    match random.below(3) {
        0 => random_bytes(random, length),
        _ => (0..length).map(|_| random.pick(&SMALL)).collect(),
    }
}

/// Records of which one ends after `end` bytes; a long one of kind 7 comes before it, and others may follow.
fn ending_at(random: &mut Random, end: usize) -> Vec<u8> {
    let (first, last) = (records(random, 5), whole_record(random, 32));
    let filler = random_bytes(random, end - first.len() - 6 - last.len());
    let after = if random.once_in(2) { records(random, 5) } else { Vec::new() };
    [first, record(7, &filler), last, after].concat()
}

/// Short or usual records up to a length around the limit or beyond it.
fn long_input(random: &mut Random) -> Vec<u8> {
    let length = match random.below(3) {
        0 => LARGEST_INPUT,
        1 => LARGEST_INPUT - 30 + random.below(60),
        _ => 60_000 + random.below(10_001),
    };
    let short = random.once_in(4);
    let rarity = random.pick(&[2, 8, 32, 256]);
    let mut input = Vec::new();
    while input.len() < length {
        input.extend(if short { record(random.pick(&KINDS), &[]) } else { whole_record(random, rarity) });
    }
    input.truncate(length);
    input
}

pub fn compare_all(comparison: &mut Comparison, random: &mut Random) {
    for _ in 0..1_600 {
        comparison.compare(&records(random, 20));
    }
    for length in 0..21 {
        for _ in 0..20 {
            comparison.compare(&cut(random, length));
        }
    }
    for _ in 0..280 {
        comparison.compare(&long_length(random));
    }
    for _ in 0..800 {
        comparison.compare(&changed(random));
    }
    for _ in 0..600 {
        comparison.compare(&disordered(random));
    }
    for end in LARGEST_INPUT - 2..LARGEST_INPUT + 23 {
        for _ in 0..8 {
            comparison.compare(&ending_at(random, end));
        }
    }
    for _ in 0..100 {
        comparison.compare(&long_input(random));
    }
}
