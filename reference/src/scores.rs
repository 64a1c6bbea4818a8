//! The paper's section "Score".

use crate::frames::{places, subscript, Cube, Frame, Place};
use crate::rays::from_middle;
use crate::searches::largest;

/// No weight is larger, because A²+p²+q² is not below A².
const LARGEST_WEIGHT: i64 = 65_536;

/// "The weight of a place is the largest whole W with W²·(A²+p²+q²)³ ≤ 2^32·A^6 (equation 109 in 65,536ths, rounded down)."
pub fn weight(size: i64, p: i64, q: i64) -> i64 {
    let cube = i128::from(size * size + p * p + q * q).pow(3);
    let bound = (1 << 32) * i128::from(size).pow(6);
    largest(LARGEST_WEIGHT, |w| i128::from(w * w) * cube <= bound)
}

/// The weights of the places of a face, which are those of each face. "ACP frames use the same weight at the same m, n."
struct Weights {
    size: i64,
    /// Row by row.
    weights: Vec<i64>,
}

impl Weights {
    fn new(size: i64) -> Weights {
        let row = |n| (0..size).map(move |m| weight(size, from_middle(size, m), from_middle(size, n)));
        Weights { size, weights: (0..size).flat_map(row).collect() }
    }

    /// The weight of a place.
    fn at(&self, place: Place) -> i64 {
        self.weights[subscript(place.row * self.size + place.column)]
    }
}

/// What a score gives.
#[derive(Clone, Copy, Debug, PartialEq, Eq)]
pub struct Score {
    pub errors: i64,
    pub weights: i64,
}

/// "The score is the sum of W × squared difference over all places (f, m, n), and the sum of the weights. Each frame has its own
/// layout; size, depth and format are common." A weight is at most 2^16, a squared difference is below 2^24, and there are fewer
/// than 2^21 places, so both sums fit 64 bits.
pub fn score(first: Frame, second: Frame) -> Score {
    let (size, first, second) = (first.shape.size, Cube::new(first), Cube::new(second));
    let weights = Weights::new(size);
    let mut score = Score { errors: 0, weights: 0 };
    for place in places(size) {
        let (weight, difference) = (weights.at(place), first.sample(place) - second.sample(place));
        score.errors += weight * difference * difference;
        score.weights += weight;
    }
    score
}

#[cfg(test)]
mod tests {
    use super::*;
    use crate::conversions::Conversion;
    use crate::frames::{frame_samples, index_of, place_at, Layout, Shape, USUAL_LAYOUT};
    use crate::positions::Format;
    use crate::random::{self, Random};
    use crate::samplers::Sampler;

    const FORMATS: [Format; 2] = [Format::Cmp, Format::Acp];

    fn usual(size: i64) -> Shape {
        Shape { size, depth: 12, format: Format::Cmp, layout: Layout::from_bytes(&USUAL_LAYOUT).expect("12 bytes") }
    }

    fn with_random_layout(random: &mut Random, shape: Shape) -> Shape {
        Shape { layout: Layout::from_bytes(&random::layout(random)).expect("12 bytes"), ..shape }
    }

    /// The bytes of a frame whose sample at a place is that of the function.
    fn picture(shape: Shape, sample: impl Fn(Place) -> u16) -> Vec<u8> {
        let sample_at = |index| sample(place_at(&shape.layout, shape.size, index));
        (0..frame_samples(shape.size)).map(sample_at).flat_map(u16::to_le_bytes).collect()
    }

    /// A sample that is another one at each place of a cube of size 5 or less.
    fn counted(place: Place) -> u16 {
        (place.face * 25 + place.row * 5 + place.column) as u16
    }

    fn random_samples(random: &mut Random, size: i64) -> Vec<u8> {
        (0..frame_samples(size)).flat_map(|_| (random.bits() as u16 & 4_095).to_le_bytes()).collect()
    }

    /// The weight at a column and a row.
    fn weight_at(size: i64, column: i64, row: i64) -> i64 {
        weight(size, from_middle(size, column), from_middle(size, row))
    }

    /// "W²·(A²+p²+q²)³ ≤ 2^32·A^6"
    fn small_enough(size: i64, p: i64, q: i64, w: i64) -> bool {
        let [a, p, q, w] = [size, p, q, w].map(i128::from);
        w.pow(2) * (a.pow(2) + p.pow(2) + q.pow(2)).pow(3) <= 2_i128.pow(32) * a.pow(6)
    }

    #[test]
    fn p7_weights() {
        for (column, row) in [(0, 0), (1, 0), (0, 1), (1, 1)] {
            assert_eq!(weight_at(2, column, row), 35_673);
        }
        assert_eq!(weight_at(3, 0, 0), 25_244);
        assert_eq!(weight_at(1, 0, 0), 65_536);
    }

    #[test]
    fn p8_ten_against_twelve() {
        let (shape, first, second) = (usual(1), picture(usual(1), |_| 10), picture(usual(1), |_| 12));
        let given = score(Frame { shape, bytes: &first }, Frame { shape, bytes: &second });
        assert_eq!(given, Score { errors: 1_572_864, weights: 393_216 });
    }

    #[test]
    fn the_weight_is_the_largest_of_all() {
        for (size, column, row) in
            [(1, 0, 0), (2, 1, 0), (3, 0, 0), (3, 1, 2), (9, 8, 4), (64, 0, 63), (511, 0, 510), (512, 511, 0)]
        {
            let (p, q) = (from_middle(size, column), from_middle(size, row));
            let largest = (0..=LARGEST_WEIGHT + 1).rev().find(|&w| small_enough(size, p, q, w));
            assert_eq!(largest, Some(weight(size, p, q)));
        }
    }

    #[test]
    fn one_more_is_too_large() {
        for size in [1, 2, 3, 4, 5, 7, 64, 255, 511, 512] {
            let middle = size / 2;
            for (column, row) in
                [(0, 0), (size - 1, 0), (0, size - 1), (size - 1, size - 1), (middle, middle), (middle, 0), (0, middle)]
            {
                let (p, q) = (from_middle(size, column), from_middle(size, row));
                let w = weight(size, p, q);
                assert!(small_enough(size, p, q, w) && !small_enough(size, p, q, w + 1));
            }
        }
    }

    #[test]
    fn the_middle_of_an_odd_face_weighs_most() {
        for size in [1, 3, 5, 63, 511] {
            assert_eq!(weight_at(size, size / 2, size / 2), 65_536);
        }
        assert!(weight_at(512, 255, 256) < 65_536);
    }

    #[test]
    fn weights_are_symmetric() {
        for size in [1, 2, 3, 8, 33] {
            for Place { column, row, .. } in places(size) {
                let w = weight_at(size, column, row);
                assert_eq!(w, weight_at(size, row, column));
                assert_eq!(w, weight_at(size, size - 1 - column, row));
                assert_eq!(w, weight_at(size, column, size - 1 - row));
            }
        }
    }

    #[test]
    fn weights_fall_towards_the_rim() {
        for size in [2, 3, 8, 33, 512] {
            for number in size / 2..size - 1 {
                assert!(weight_at(size, number + 1, 0) < weight_at(size, number, 0));
                assert!(weight_at(size, number + 1, number + 1) < weight_at(size, number, number));
            }
        }
    }

    #[test]
    fn one_sample_apart() {
        // The error sum is the weight of that place times the square, whichever frame has the larger sample.
        let mut random = Random::new(1);
        for size in 1..=5 {
            let (first, second) = (with_random_layout(&mut random, usual(size)), with_random_layout(&mut random, usual(size)));
            let picture_of_first = picture(first, counted);
            for apart in places(size) {
                let differing = picture(second, |place| counted(place) + if place == apart { 7 } else { 0 });
                let frames = [Frame { shape: first, bytes: &picture_of_first }, Frame { shape: second, bytes: &differing }];
                let errors = 49 * weight_at(size, apart.column, apart.row);
                assert_eq!(score(frames[0], frames[1]).errors, errors);
                assert_eq!(score(frames[1], frames[0]).errors, errors);
            }
        }
    }

    #[test]
    fn each_frame_has_its_own_layout() {
        let other = Layout::from_bytes(&[5, 4, 3, 2, 1, 0, 0, 1, 2, 3, 0, 1]).expect("12 bytes");
        for size in 1..=5 {
            let (first, second) = (usual(size), Shape { layout: other, ..usual(size) });
            let pictures = [picture(first, counted), picture(second, counted)];
            let errors =
                |shape, other| score(Frame { shape, bytes: &pictures[0] }, Frame { shape: other, bytes: &pictures[1] }).errors;
            assert_eq!(errors(first, second), 0);
            assert_ne!(errors(first, first), 0);
            assert_ne!(errors(second, second), 0);
            assert_ne!(errors(second, first), 0);
        }
    }

    #[test]
    fn sums_over_the_indices() {
        // The sums once more, by the indices of the first frame.
        let mut random = Random::new(2);
        for size in (1..=9).chain([64]) {
            let (first, second) = (with_random_layout(&mut random, usual(size)), with_random_layout(&mut random, usual(size)));
            let frames = [random_samples(&mut random, size), random_samples(&mut random, size)];
            let sample = |frame: usize, index: i64| {
                let position = 2 * index as usize;
                i128::from(frames[frame][position]) + 256 * i128::from(frames[frame][position + 1])
            };
            let (mut errors, mut weights) = (0, 0);
            for index in 0..frame_samples(size) {
                let place = place_at(&first.layout, size, index);
                let weight = i128::from(weight_at(size, place.column, place.row));
                let difference = sample(0, index) - sample(1, index_of(&second.layout, size, place));
                errors += weight * difference.pow(2);
                weights += weight;
            }
            let given = score(Frame { shape: first, bytes: &frames[0] }, Frame { shape: second, bytes: &frames[1] });
            assert_eq!((given.errors.into(), given.weights.into()), (errors, weights));
        }
    }

    #[test]
    fn the_formats_score_alike() {
        let mut random = Random::new(3);
        let frames = [random_samples(&mut random, 7), random_samples(&mut random, 7)];
        let given = FORMATS.map(|format| {
            let shape = Shape { format, ..usual(7) };
            score(Frame { shape, bytes: &frames[0] }, Frame { shape, bytes: &frames[1] })
        });
        assert_eq!(given[0], given[1]);
    }

    #[test]
    fn the_largest_sums() {
        // "A sample is 0 to 2^D − 1": all 0 against all 4,095, at size 512.
        let (shape, first, second) = (usual(512), picture(usual(512), |_| 0), picture(usual(512), |_| 4_095));
        let given = score(Frame { shape, bytes: &first }, Frame { shape, bytes: &second });
        assert_eq!(given.errors, 4_095 * 4_095 * given.weights);
        let half_of_all = 6 * 512 * 512 * LARGEST_WEIGHT / 2;
        assert!((half_of_all..2 * half_of_all).contains(&given.weights));
    }

    #[test]
    fn whole_cube_turns_keep_the_score() {
        let mut random = Random::new(4);
        for _ in 0..200 {
            let shape = Shape { format: random.pick(&FORMATS), ..usual(1 + random.below(6) as i64) };
            let (first, second) = (with_random_layout(&mut random, shape), with_random_layout(&mut random, shape));
            let (first_turned, second_turned) = (with_random_layout(&mut random, shape), with_random_layout(&mut random, shape));
            let frames = [random_samples(&mut random, shape.size), random_samples(&mut random, shape.size)];
            let [first, second] = [Frame { shape: first, bytes: &frames[0] }, Frame { shape: second, bytes: &frames[1] }];
            let (rotation, sampler) =
                (random::cube_rotation(&mut random).map(i128::from), random.pick(&[Sampler::Nearest, Sampler::Cubic]));
            let turned = |frame, target| Conversion::new(frame, target, rotation, sampler).target_bytes();
            let bytes = [turned(first, first_turned), turned(second, second_turned)];
            let after = score(Frame { shape: first_turned, bytes: &bytes[0] }, Frame { shape: second_turned, bytes: &bytes[1] });
            assert_eq!(after, score(first, second));
        }
    }
}
