//! The paper's section "Samplers".

use crate::frames::{largest_sample, subscript, Cube, Place};
use crate::positions::Location;

/// "Nearest, code 0"; "Cubic, code 1".
#[derive(Clone, Copy, Debug, PartialEq, Eq)]
pub enum Sampler {
    Nearest,
    Cubic,
}

/// "column floor((T+32)/64), A becoming A−1"; rows likewise.
pub fn nearest(size: i64, position64: i64) -> i64 {
    let column = (position64 + 32).div_euclid(64);
    if column == size {
        size - 1
    } else {
        column
    }
}

/// The four taps of the cubic sampler on one axis.
#[derive(Clone, Copy, Debug, PartialEq, Eq)]
pub struct Taps {
    pub phase: i64,
    /// Columns or rows.
    pub places: [i64; 4],
}

/// "base floor(T/64), phase k = T − 64·base, taps at base−1 to base+2, each clipped to 0..A−1."
pub fn taps(size: i64, position64: i64) -> Taps {
    let base = position64.div_euclid(64);
    let places = [base - 1, base, base + 1, base + 2].map(|place| place.clamp(0, size - 1));
    Taps { phase: position64 - 64 * base, places }
}

/// "Tap weights for phase k".
const fn weights(k: i64) -> [i64; 4] {
    let (square, cube) = (k * k, k * k * k);
    [
        -cube + 128 * square - 4_096 * k,
        3 * cube - 320 * square + 524_288,
        -3 * cube + 256 * square + 4_096 * k,
        cube - 64 * square,
    ]
}

/// "The 256 weights stand as a table, phases 0 to 63".
static WEIGHTS: [[i64; 4]; 64] = {
    let mut table = [[0; 4]; 64];
    let mut phase = 0;
    while phase < 64 {
        table[phase] = weights(phase as i64);
        phase += 1;
    }
    table
};

/// "the sum over 16 taps of row weight × column weight × sample". The sizes of four weights add to less than 2^20, and a sample
/// has 16 bits, so the sum fits 64.
pub fn cubic_sum(cube: &Cube, location: Location) -> i64 {
    let (columns, rows) = (taps(cube.size, location.column), taps(cube.size, location.row));
    let (column_weights, row_weights) = (WEIGHTS[subscript(columns.phase)], WEIGHTS[subscript(rows.phase)]);
    let mut sum = 0;
    for (row, row_weight) in rows.places.into_iter().zip(row_weights) {
        let samples = cube.row(location.face, row);
        for (column, column_weight) in columns.places.into_iter().zip(column_weights) {
            sum += row_weight * column_weight * i64::from(samples[subscript(column)]);
        }
    }
    sum
}

/// "divided by 2^38, nearest, halves upward"
pub fn rounded(sum: i64) -> i64 {
    (sum + (1 << 37)).div_euclid(1 << 38)
}

/// The sampler's value at a location; for cubic "then clipped to 0..2^D−1".
pub fn value(sampler: Sampler, cube: &Cube, depth: i64, location: Location) -> i64 {
    match sampler {
        Sampler::Nearest => {
            let (column, row) = (nearest(cube.size, location.column), nearest(cube.size, location.row));
            cube.sample(Place { face: location.face, column, row })
        }
        Sampler::Cubic => rounded(cubic_sum(cube, location)).clamp(0, largest_sample(depth)),
    }
}

#[cfg(test)]
mod tests {
    use super::*;
    use crate::frames::{frame_samples, place_at, places, Frame, Layout, Shape, USUAL_LAYOUT};
    use crate::positions::Format;

    /// A cube whose sample at a place is that of the function.
    fn cube(size: i64, sample: impl Fn(Place) -> u16) -> Cube {
        let layout = Layout::from_bytes(&USUAL_LAYOUT).expect("12 bytes");
        let sample_at = |index| sample(place_at(&layout, size, index));
        let bytes: Vec<u8> = (0..frame_samples(size)).map(sample_at).flat_map(u16::to_le_bytes).collect();
        Cube::new(Frame { shape: Shape { size, depth: 12, format: Format::Cmp, layout }, bytes: &bytes })
    }

    #[test]
    fn p6_weights_at_phase_32() {
        assert_eq!(WEIGHTS[32], [-32_768, 294_912, 294_912, -32_768]);
    }

    #[test]
    fn each_phase_adds_to_524_288() {
        for weights in WEIGHTS {
            assert_eq!(weights.iter().sum::<i64>(), 524_288);
            assert!(weights.iter().map(|weight| weight.abs()).sum::<i64>() < 1 << 20);
        }
        assert_eq!(WEIGHTS[0], [0, 524_288, 0, 0]);
    }

    #[test]
    fn nearest_columns() {
        // A = 4, T from −32 to 224.
        let columns = [-32, -1, 0, 31, 32, 95, 96, 223, 224].map(|position64| nearest(4, position64));
        assert_eq!(columns, [0, 0, 0, 0, 1, 1, 2, 3, 3]);
    }

    #[test]
    fn division_below_zero_rounds_down() {
        // "T = −32 has base −1 and phase 32."
        assert_eq!(taps(4, -32), Taps { phase: 32, places: [0, 0, 0, 1] });
    }

    #[test]
    fn taps_at_both_rims() {
        assert_eq!(taps(4, 0), Taps { phase: 0, places: [0, 0, 1, 2] });
        assert_eq!(taps(4, 64 + 5), Taps { phase: 5, places: [0, 1, 2, 3] });
        assert_eq!(taps(4, 224), Taps { phase: 32, places: [2, 3, 3, 3] });
        assert_eq!(taps(1, 32), Taps { phase: 32, places: [0; 4] });
    }

    #[test]
    fn sums_are_rounded_halves_upward() {
        let half = 1 << 37;
        assert_eq!([half - 1, half, -half, -half - 1].map(rounded), [0, 1, 0, -1]);
        assert_eq!(rounded(3 * half), 2);
    }

    #[test]
    fn at_the_middle_of_a_sample_both_give_it() {
        let cube = cube(4, |place| (1_000 * place.face % 4_096 + 10 * place.column + place.row) as u16);
        for place in places(4) {
            let location = Location { face: place.face, column: 64 * place.column, row: 64 * place.row };
            for sampler in [Sampler::Nearest, Sampler::Cubic] {
                assert_eq!(value(sampler, &cube, 12, location), cube.sample(place));
            }
        }
    }

    #[test]
    fn flat_samples_stay() {
        for sample in [0, 1, 255, 4_095] {
            let cube = cube(3, |_| sample);
            for (column, row) in [(-32, 160), (-31, 7), (0, 100), (33, -1)] {
                let location = Location { face: 2, column, row };
                assert_eq!(value(Sampler::Cubic, &cube, 12, location), i64::from(sample));
            }
        }
    }

    #[test]
    fn columns_are_not_rows() {
        // Samples grow along a row by 64: a quarter of the way between two columns gives a quarter of that, whatever the row.
        let cube = cube(8, |place| (64 * place.column) as u16);
        for row in [-32, 0, 100, 480] {
            let location = Location { face: 1, column: 64 * 3 + 16, row };
            assert_eq!(value(Sampler::Cubic, &cube, 12, location), 64 * 3 + 16);
        }
    }

    #[test]
    fn values_are_clipped_to_the_depth() {
        // Beside a step from 0 to the largest sample the cubic goes beyond both.
        let cube = cube(8, |place| if place.column < 4 { 0 } else { 255 });
        let at = |column| Location { face: 4, column, row: 100 };
        assert!(rounded(cubic_sum(&cube, at(64 * 2 + 32))) < 0);
        assert!(rounded(cubic_sum(&cube, at(64 * 4 + 32))) > 255);
        assert_eq!(value(Sampler::Cubic, &cube, 8, at(64 * 2 + 32)), 0);
        assert_eq!(value(Sampler::Cubic, &cube, 8, at(64 * 4 + 32)), 255);
    }
}
