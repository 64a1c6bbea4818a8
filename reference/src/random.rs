//! Random numbers for the tests that compare. The generator is one of their own (splitmix64), so that a seed gives the same cases
//! everywhere.

use crate::frames::USUAL_LAYOUT;

/// The bound of question 13.
pub const LARGEST_RAY: i64 = 536_870_911;

pub struct Random(u64);

impl Random {
    pub fn new(seed: u64) -> Random {
        Random(seed)
    }

    /// 64 random bits.
    pub fn bits(&mut self) -> u64 {
        self.0 = self.0.wrapping_add(0x9E37_79B9_7F4A_7C15);
        let mixed = (self.0 ^ (self.0 >> 30)).wrapping_mul(0xBF58_476D_1CE4_E5B9);
        let mixed = (mixed ^ (mixed >> 27)).wrapping_mul(0x94D0_49BB_1331_11EB);
        mixed ^ (mixed >> 31)
    }

    /// A number from 0 to `count` − 1.
    pub fn below(&mut self, count: usize) -> usize {
        (self.bits() % count as u64) as usize
    }

    /// A number from −`size` to `size`.
    pub fn within(&mut self, size: i64) -> i64 {
        self.below(2 * size as usize + 1) as i64 - size
    }

    /// True once in `count` times.
    pub fn once_in(&mut self, count: usize) -> bool {
        self.below(count) == 0
    }

    pub fn pick<T: Copy>(&mut self, from: &[T]) -> T {
        from[self.below(from.len())]
    }

    pub fn sign(&mut self) -> i64 {
        self.pick(&[-1, 1])
    }

    pub fn fill(&mut self, bytes: &mut [u8]) {
        for chunk in bytes.chunks_mut(8) {
            let random = self.bits().to_le_bytes();
            chunk.copy_from_slice(&random[..chunk.len()]);
        }
    }
}

/// A face size in range, now and then a small or a large one.
pub fn face_size(random: &mut Random) -> u64 {
    match random.below(3) {
        0 => random.pick(&[1, 2, 3, 4, 5, 7, 64, 511, 512]),
        _ => 1 + random.below(512) as u64,
    }
}

/// A ray in range, with axes of the same size more often than by chance.
pub fn ray(random: &mut Random) -> [i64; 3] {
    let size = LARGEST_RAY >> random.below(29);
    let same_size = random.once_in(2);
    let mut numbers = [0; 3].map(|_| {
        let own_size = if same_size { size } else { LARGEST_RAY >> random.below(29) };
        random.within(own_size)
    });
    if random.once_in(4) {
        let (from, to) = (random.below(3), random.below(3));
        numbers[to] = random.sign() * numbers[from];
    }
    if random.once_in(8) {
        numbers[random.below(3)] = random.sign() * size;
    }
    if random.once_in(16) {
        numbers = numbers.map(|_| random.sign() * numbers[0]);
    }
    numbers
}

/// A layout with the faces in a random order and random turns, now and then the usual one.
pub fn layout(random: &mut Random) -> [u8; 12] {
    if random.once_in(8) {
        return USUAL_LAYOUT;
    }
    let mut layout = [0, 1, 2, 3, 4, 5, 0, 0, 0, 0, 0, 0];
    for slot in 0..6 {
        layout.swap(slot, slot + random.below(6 - slot));
        layout[6 + slot] = random.below(4) as u8;
    }
    layout
}

/// A whole-cube turn in range: one, two or all four numbers of the same size, the others 0.
pub fn cube_rotation(random: &mut Random) -> [i64; 4] {
    let size = if random.once_in(2) { 1 } else { 1 + random.below(31) as i64 };
    let numbers = [0; 4].map(|_| random.sign() * size);
    let (first, second) = (random.below(4), random.below(4));
    if random.once_in(3) {
        return numbers;
    }
    let mut few = [0; 4];
    for position in [first, second] {
        few[position] = numbers[position];
    }
    few
}
