//! The list of conversions.

/// The layouts, by number: the faces of the six slots, then their turns.
pub const LAYOUTS: [&[u8]; 7] = [
    // The usual one.
    &[4, 0, 5, 3, 1, 2, 0, 0, 0, 1, 1, 1],
    &[0, 1, 2, 3, 4, 5, 0, 0, 0, 0, 0, 0],
    &[5, 4, 3, 2, 1, 0, 0, 1, 2, 3, 0, 1],
    &[2, 0, 4, 1, 5, 3, 3, 3, 2, 2, 1, 1],
    // A face twice.
    &[0, 1, 2, 3, 4, 4, 0, 0, 0, 0, 0, 0],
    // A turn of 4.
    &[0, 1, 2, 3, 4, 5, 0, 0, 0, 0, 0, 4],
    // Eleven bytes.
    &[0, 1, 2, 3, 4, 5, 0, 0, 0, 0, 0],
];

/// What is wrong with the buffers of a call, by number.
#[derive(Clone, Copy, Debug, PartialEq, Eq)]
pub enum Damage {
    None = 0,
    /// The source is lent one byte short.
    SourceShort = 1,
    /// The source is lent one byte more; that byte is 0.
    SourceLong = 2,
    /// The target is lent one byte short.
    TargetShort = 3,
    /// The target is lent one byte more.
    TargetLong = 4,
    /// The samples at the last two indices of the source are 2^D.
    LastTwoSamples = 5,
    /// The first sample of the source is 65,535.
    FirstSample = 6,
}

/// All but the first, in the order of their numbers.
const DAMAGES: [Damage; 6] = [
    Damage::SourceShort,
    Damage::SourceLong,
    Damage::TargetShort,
    Damage::TargetLong,
    Damage::LastTwoSamples,
    Damage::FirstSample,
];

/// One call of convert.
#[derive(Clone, Copy, Debug)]
pub struct Case {
    pub source_size: u64,
    pub target_size: u64,
    pub depth: u64,
    pub source_format: u64,
    pub target_format: u64,
    pub sampler: u64,
    /// The numbers of the source's and of the target's layout.
    pub layouts: [usize; 2],
    pub rotation: [i64; 4],
    pub damage: Damage,
}

impl Case {
    /// The mixes 0 to 7 are bits: the source's format, the target's format, the sampler.
    fn with_mix(self, mix: u64) -> Case {
        Case { source_format: mix % 2, target_format: mix / 2 % 2, sampler: mix / 4, ..self }
    }
}

/// What most cases have, each but for what it is about.
const PLAIN: Case = Case {
    source_size: 3,
    target_size: 2,
    depth: 8,
    source_format: 0,
    target_format: 0,
    sampler: 0,
    layouts: [0, 0],
    rotation: [29, 3, 7, -5],
    damage: Damage::None,
};

/// Smaller than the source of the plain case, and as large.
const TARGET_SIZES: [u64; 2] = [2, 3];

/// All groups, in order.
pub fn all() -> impl Iterator<Item = Case> {
    sizes().chain(depths()).chain(rotation_numbers()).chain(layouts()).chain(cube_rotations()).chain(damages()).chain(codes())
}

/// Each size with itself and with the next one of the list, the last with the first, in every mix; where a size is refused, in
/// mix 0 alone.
fn sizes() -> impl Iterator<Item = Case> {
    const SIZES: [u64; 7] = [0, 1, 2, 3, 511, 512, 513];
    let next_sizes = SIZES.into_iter().cycle().skip(1);
    let pairs = SIZES.into_iter().zip(next_sizes).flat_map(|(size, next)| [(size, size), (size, next)]);
    pairs.flat_map(|(source_size, target_size)| {
        let refused = [source_size, target_size].iter().any(|size| [0, 513].contains(size));
        let case = Case { source_size, target_size, depth: 10, layouts: [0, 2], ..PLAIN };
        (0..if refused { 1 } else { 8 }).map(move |mix| case.with_mix(mix))
    })
}

/// Depths around both bounds, in every mix, to a smaller target and to one of the same size.
fn depths() -> impl Iterator<Item = Case> {
    TARGET_SIZES.into_iter().flat_map(|target_size| {
        [7, 8, 12, 13].into_iter().flat_map(move |depth| {
            let case = Case { target_size, depth, layouts: [0, 1], ..PLAIN };
            (0..8).map(move |mix| case.with_mix(mix))
        })
    })
}

/// Numbers around both bounds, at each position of a turn, in the first and the last mix.
fn rotation_numbers() -> impl Iterator<Item = Case> {
    (0..4).flat_map(|position| {
        [-32, -31, 31, 32].into_iter().flat_map(move |number| {
            let mut rotation = [5, -3, 2, 1];
            rotation[position] = number;
            let case = Case { target_size: 3, depth: 12, layouts: [1, 3], rotation, ..PLAIN };
            [0, 7].map(|mix| case.with_mix(mix))
        })
    })
}

/// Each layout of the source with each of the target, to a smaller target and to one of the same size, from CMP to ACP, cubic.
fn layouts() -> impl Iterator<Item = Case> {
    TARGET_SIZES.into_iter().flat_map(|target_size| {
        (0..LAYOUTS.len()).flat_map(move |source_layout| {
            (0..LAYOUTS.len())
                .map(move |target_layout| Case { target_size, layouts: [source_layout, target_layout], ..PLAIN }.with_mix(6))
        })
    })
}

/// Whole-cube turns, some with common factors and signs, within each format, nearest and cubic.
fn cube_rotations() -> impl Iterator<Item = Case> {
    const ROTATIONS: [[i64; 4]; 8] =
        [[1, 0, 0, 0], [1, 1, 0, 0], [1, 0, -1, 0], [0, 0, 0, 3], [1, 1, 1, 1], [0, 1, -1, 0], [-2, 0, 0, 2], [1, -1, 1, -1]];
    ROTATIONS.into_iter().flat_map(|rotation| {
        let case = Case { target_size: 3, depth: 12, layouts: [0, 3], rotation, ..PLAIN };
        [0, 3, 4, 7].map(|mix| case.with_mix(mix))
    })
}

/// Each damage, to a smaller target and to one of the same size, from ACP to CMP, cubic.
fn damages() -> impl Iterator<Item = Case> {
    TARGET_SIZES.into_iter().flat_map(|target_size| {
        DAMAGES.into_iter().map(move |damage| Case { target_size, layouts: [2, 1], damage, ..PLAIN }.with_mix(5))
    })
}

/// The code 2 for each of the three, and the turn of four zeros.
fn codes() -> impl Iterator<Item = Case> {
    [
        Case { source_format: 2, ..PLAIN },
        Case { target_format: 2, ..PLAIN },
        Case { sampler: 2, ..PLAIN },
        Case { rotation: [0; 4], ..PLAIN },
    ]
    .into_iter()
}
