//! A conversion that is accepted: from a place of the target over its ray to the source, and to its sample.

use crate::frames::{frame_samples, place_at, Cube, Frame, Place, Shape};
use crate::positions::{locate, Format, Location};
use crate::rays::Grid;
use crate::rotations::{self, Matrix, Rotation};
use crate::samplers::{self, Sampler};

/// The source's samples, what the target is to be, and what is computed once for all samples.
pub struct Conversion {
    pub source: Cube,
    source_format: Format,
    pub target: Shape,
    /// The target's rays.
    grid: Grid,
    matrix: Matrix,
    sampler: Sampler,
}

impl Conversion {
    pub fn new(source: Frame, target: Shape, rotation: Rotation, sampler: Sampler) -> Conversion {
        let grid = Grid::new(target.format, target.size);
        let matrix = rotations::matrix(rotation);
        Conversion { source: Cube::new(source), source_format: source.shape.format, target, grid, matrix, sampler }
    }

    /// "The matrix is applied to the target's ray and gives the source's ray.", for a place of the target.
    pub fn source_ray(&self, place: Place) -> [i64; 3] {
        rotations::applied(&self.matrix, self.grid.ray(place))
    }

    /// Where the sampler reads the source for a place of the target.
    pub fn location(&self, place: Place) -> Location {
        locate(self.source_format, self.source.size.into(), self.source_ray(place).map(i128::from))
    }

    /// The target's sample at a place.
    pub fn sample(&self, place: Place) -> i64 {
        samplers::value(self.sampler, &self.source, self.target.depth, self.location(place))
    }

    /// The target's bytes: its samples by index, "two bytes, little-endian".
    pub fn target_bytes(&self) -> Vec<u8> {
        let Shape { size, layout, .. } = self.target;
        let sample = |index| self.sample(place_at(&layout, size, index));
        let two_bytes = |sample| u16::try_from(sample).expect("a sample fits two bytes").to_le_bytes();
        (0..frame_samples(size)).map(sample).flat_map(two_bytes).collect()
    }
}

#[cfg(test)]
mod tests {
    use super::*;
    use crate::frames::{index_of, places, samples, Layout, USUAL_LAYOUT};
    use crate::random::{self, Random};
    use crate::rotations::{is_cube_rotation, sum_of_squares};

    const FORMATS: [Format; 2] = [Format::Cmp, Format::Acp];
    const SAMPLERS: [Sampler; 2] = [Sampler::Nearest, Sampler::Cubic];

    fn usual(size: i64, format: Format) -> Shape {
        Shape { size, depth: 12, format, layout: Layout::from_bytes(&USUAL_LAYOUT).expect("12 bytes") }
    }

    fn with_random_layout(random: &mut Random, size: i64, format: Format) -> Shape {
        Shape { layout: Layout::from_bytes(&random::layout(random)).expect("12 bytes"), ..usual(size, format) }
    }

    /// A frame whose samples are their indices.
    fn counted(size: i64) -> Vec<u8> {
        (0..frame_samples(size)).flat_map(|index| (index as u16).to_le_bytes()).collect()
    }

    /// All whole-cube turns with numbers −1 to 1; each of the 24 comes with both signs.
    fn cube_rotations() -> Vec<Rotation> {
        let numbers = (0..81).map(|code| [code / 27, code / 9 % 3, code / 3 % 3, code % 3].map(|digit| digit - 1));
        numbers.filter(|&rotation| rotation != [0; 4] && is_cube_rotation(rotation)).collect()
    }

    #[test]
    fn p12_nearest() {
        let (shape, bytes) = (usual(3, Format::Cmp), counted(3));
        let frame = Frame { shape, bytes: &bytes };
        let conversion = Conversion::new(frame, shape, [1, 0, 1, 0], Sampler::Nearest);
        let (target, source) = (Place { face: 0, column: 0, row: 1 }, Place { face: 5, column: 0, row: 1 });
        assert_eq!(conversion.location(target), Location { face: 5, column: 0, row: 64 });
        assert_eq!(conversion.sample(target), index_of(&shape.layout, 3, source));
    }

    #[test]
    fn there_are_24_whole_cube_turns() {
        assert_eq!(cube_rotations().len(), 48);
    }

    #[test]
    fn whole_cube_turns_move_samples() {
        // "the sample at the place with ray r is the old frame's at the place with ray R·r/S; exactly one place has that ray."
        let mut random = Random::new(1);
        for rotation in cube_rotations() {
            for (format, sampler) in [(0, 0), (0, 1), (1, 0), (1, 1)].map(|(f, s)| (FORMATS[f], SAMPLERS[s])) {
                let size = 1 + random.below(4) as i64;
                let bytes = counted(size);
                let source = Frame { shape: with_random_layout(&mut random, size, format), bytes: &bytes };
                let target = with_random_layout(&mut random, size, format);
                let conversion = Conversion::new(source, target, rotation, sampler);
                let (cube, grid) = (Cube::new(source), Grid::new(format, size));
                for place in places(size) {
                    let ray = conversion.source_ray(place).map(|number| number / sum_of_squares(rotation) as i64);
                    let from: Vec<Place> = places(size).filter(|&from| grid.ray(from) == ray).collect();
                    assert_eq!(from.len(), 1);
                    assert_eq!(conversion.sample(place), cube.sample(from[0]));
                }
            }
        }
    }

    #[test]
    fn whole_cube_turns_keep_every_sample_once() {
        let mut random = Random::new(2);
        for rotation in cube_rotations() {
            let size = 1 + random.below(26) as i64;
            let (format, sampler) = (random.pick(&FORMATS), random.pick(&SAMPLERS));
            let factor = i128::from(random.sign()) * (1 + random.below(31) as i128);
            let bytes = counted(size);
            let source = Frame { shape: with_random_layout(&mut random, size, format), bytes: &bytes };
            let target = with_random_layout(&mut random, size, format);
            let conversion = Conversion::new(source, target, rotation.map(|number| factor * number), sampler);
            let converted = conversion.target_bytes();
            let mut sorted: Vec<u16> = samples(&converted).collect();
            sorted.sort();
            assert!(sorted.into_iter().eq(0..frame_samples(size) as u16));
        }
    }

    #[test]
    fn four_quarter_turns_of_the_cube_lead_back() {
        for quarter in [[1, 1, 0, 0], [1, 0, 1, 0], [1, 0, 0, 1], [1, -1, 0, 0], [5, 0, -5, 0], [-31, 0, 0, 31]] {
            for (format, sampler) in [(0, 0), (0, 1), (1, 0), (1, 1)].map(|(f, s)| (FORMATS[f], SAMPLERS[s])) {
                let (shape, first) = (usual(5, format), counted(5));
                let turned = |bytes: &Vec<u8>| Conversion::new(Frame { shape, bytes }, shape, quarter, sampler).target_bytes();
                let frames: Vec<Vec<u8>> = std::iter::successors(Some(first), |bytes| Some(turned(bytes))).take(5).collect();
                assert!(frames[1] != frames[0] && frames[2] != frames[0] && frames[3] != frames[0]);
                assert_eq!(frames[4], frames[0]);
            }
        }
    }

    #[test]
    fn another_layout_and_back() {
        let mut random = Random::new(3);
        for sampler in SAMPLERS {
            let (first, second) = (usual(4, Format::Acp), with_random_layout(&mut random, 4, Format::Acp));
            let bytes = counted(4);
            let one = [1, 0, 0, 0];
            let there = Conversion::new(Frame { shape: first, bytes: &bytes }, second, one, sampler).target_bytes();
            let back = Conversion::new(Frame { shape: second, bytes: &there }, first, one, sampler).target_bytes();
            assert_ne!(there, bytes);
            assert_eq!(back, bytes);
        }
    }

    #[test]
    fn multiples_of_a_turn_give_the_same() {
        let (source, target, bytes) = (usual(4, Format::Acp), usual(3, Format::Cmp), counted(4));
        let frame = Frame { shape: source, bytes: &bytes };
        let converted = |rotation| Conversion::new(frame, target, rotation, Sampler::Cubic).target_bytes();
        assert_eq!(converted([5, -2, 3, 1]), converted([-30, 12, -18, -6]));
        assert_ne!(converted([5, -2, 3, 1]), converted([5, 2, -3, -1]));
    }
}
