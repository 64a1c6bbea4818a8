//! The paper's section "From place to ray".

use crate::frames::{subscript, Place};
use crate::positions::Format;
use crate::searches::largest;

/// "ACP: s = N = 65,536".
const N: i64 = 65_536;

/// "Let p = 2m+1−A and q = 2n+1−A.": p of a column m, or q of a row n.
pub fn from_middle(size: i64, number: i64) -> i64 {
    2 * number + 1 - size
}

/// "the size of a is the largest whole c from 0 to N with c·(34N − 9c)·A ≤ 25·N²·|p|". The left side grows with c as far as N.
pub fn curve(size: i64, p: i64) -> i64 {
    largest(N, |c| c * (34 * N - 9 * c) * size <= 25 * N * N * p.abs())
}

/// The rays of all places of a cube: the scale s, and the a of each column, which is the b of the row with the same number.
#[derive(Clone, Debug)]
pub struct Grid {
    scale: i64,
    coordinates: Vec<i64>,
}

impl Grid {
    /// "CMP: scale s = A, a = p, b = q. ACP: s = N = 65,536"; the size of a is the curve's, "its sign that of p; b likewise from
    /// q."
    pub fn new(format: Format, size: i64) -> Grid {
        let p = |m: i64| from_middle(size, m);
        match format {
            Format::Cmp => Grid { scale: size, coordinates: (0..size).map(p).collect() },
            Format::Acp => {
                let signed = |p: i64| p.signum() * curve(size, p);
                Grid { scale: N, coordinates: (0..size).map(p).map(signed).collect() }
            }
        }
    }

    /// "Rays by its Table 3".
    pub fn ray(&self, place: Place) -> [i64; 3] {
        let s = self.scale;
        let (a, b) = (self.coordinates[subscript(place.column)], self.coordinates[subscript(place.row)]);
        let rows = [[s, -b, -a], [-s, -b, a], [a, s, b], [a, -s, -b], [a, -b, s], [-a, -b, -s]];
        rows[subscript(place.face)]
    }
}

#[cfg(test)]
mod tests {
    use super::*;
    use crate::frames::places;
    use crate::positions::{locate, Location};

    #[test]
    fn p5_curve() {
        assert_eq!(curve(2, 1), 27_049);
    }

    #[test]
    fn the_curve_is_the_largest_of_all() {
        for (size, p) in [(1, 0), (2, 1), (3, -2), (9, 8), (64, 1), (511, -510), (512, 511), (512, -255)] {
            let small_enough = |c: &i64| c * (34 * N - 9 * c) * size <= 25 * N * N * i64::abs(p);
            assert_eq!((0..=N).rev().find(small_enough), Some(curve(size, p)));
        }
    }

    #[test]
    fn signs_of_the_curve() {
        let Grid { scale, coordinates } = Grid::new(Format::Acp, 3);
        assert_eq!((scale, coordinates[1]), (N, 0));
        assert!(coordinates[0] < 0 && coordinates[2] == -coordinates[0]);
    }

    #[test]
    fn each_row_of_table_3() {
        // A = 4, m = 3, n = 2: a = 3, b = 1.
        let grid = Grid::new(Format::Cmp, 4);
        let ray = |face| grid.ray(Place { face, column: 3, row: 2 });
        assert_eq!([ray(0), ray(1), ray(2)], [[4, -1, -3], [-4, -1, 3], [3, 4, 1]]);
        assert_eq!([ray(3), ray(4), ray(5)], [[3, -4, -1], [3, -1, 4], [-3, -1, -4]]);
    }

    #[test]
    fn a_ray_comes_back_to_its_place() {
        for format in [Format::Cmp, Format::Acp] {
            for size in [1, 2, 3, 7, 64] {
                let grid = Grid::new(format, size);
                for place in places(size) {
                    let location = Location { face: place.face, column: 64 * place.column, row: 64 * place.row };
                    assert_eq!(locate(format, size.into(), grid.ray(place).map(i128::from)), location);
                }
            }
        }
    }
}
