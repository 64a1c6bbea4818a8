//! The paper's section "Frames".

use crate::positions::Format;

/// A place (f, m, n): "face f 0 to 5, column m and row n 0 to A−1".
#[derive(Clone, Copy, Debug, PartialEq, Eq)]
pub struct Place {
    pub face: i64,
    pub column: i64,
    pub row: i64,
}

/// "The usual layout has faces 4, 0, 5, 3, 1, 2 with turns 0, 0, 0, 1, 1, 1."
pub const USUAL_LAYOUT: [u8; 12] = [4, 0, 5, 3, 1, 2, 0, 0, 0, 1, 1, 1];

/// "Slots 0 to 5 run left to right, top row first. A layout names for each slot a face and a count of clockwise quarter turns,
/// 0 to 3."
#[derive(Clone, Copy, Debug, PartialEq, Eq)]
pub struct Layout {
    pub faces: [i64; 6],
    pub quarter_turns: [i64; 6],
}

impl Layout {
    /// "A layout goes in as 12 bytes, the six faces and then the six turns"; bytes of another length are none.
    pub fn from_bytes(bytes: &[u8]) -> Option<Layout> {
        let bytes: [u8; 12] = bytes.try_into().ok()?;
        let [f0, f1, f2, f3, f4, f5, t0, t1, t2, t3, t4, t5] = bytes.map(i64::from);
        Some(Layout { faces: [f0, f1, f2, f3, f4, f5], quarter_turns: [t0, t1, t2, t3, t4, t5] })
    }

    /// The slot of a face, in a layout that holds every face once.
    fn slot_of(&self, face: i64) -> usize {
        self.faces.iter().position(|&other| other == face).expect("a layout holds every face")
    }
}

/// What stands beside the bytes of a frame: "face size, depth, format and layout".
#[derive(Clone, Copy, Debug)]
pub struct Shape {
    pub size: i64,
    pub depth: i64,
    pub format: Format,
    pub layout: Layout,
}

/// "A frame travels as one thing: its bytes with face size, depth, format and layout beside them."
#[derive(Clone, Copy, Debug)]
pub struct Frame<'bytes> {
    pub shape: Shape,
    pub bytes: &'bytes [u8],
}

/// "A frame is 3A columns by 2A rows, 12·A² bytes".
pub fn frame_bytes(size: i64) -> i64 {
    12 * size * size
}

/// The number of samples of a frame, and of places of a cube: 3A × 2A.
pub fn frame_samples(size: i64) -> i64 {
    3 * size * (2 * size)
}

/// "A sample is 0 to 2^D − 1": the largest.
pub fn largest_sample(depth: i64) -> i64 {
    (1 << depth) - 1
}

/// "A sample is [..] two bytes, little-endian": the samples of a frame, by index.
pub fn samples(bytes: &[u8]) -> impl Iterator<Item = u16> + '_ {
    bytes.chunks_exact(2).map(|pair| u16::from_le_bytes([pair[0], pair[1]]))
}

/// "One quarter turn puts face sample (column m, row n) at column A−1−n, row m of its slot."; so many of them.
fn turned(size: i64, quarter_turns: i64, (column, row): (i64, i64)) -> (i64, i64) {
    (0..quarter_turns).fold((column, row), |(column, row), _| (size - 1 - row, column))
}

/// "a sample's index is row × 3A + column": that of the sample at a place.
pub fn index_of(layout: &Layout, size: i64, place: Place) -> i64 {
    let slot = layout.slot_of(place.face);
    let (column, row) = turned(size, layout.quarter_turns[slot], (place.column, place.row));
    let (slots_above, slots_left) = (slot as i64 / 3, slot as i64 % 3);
    (slots_above * size + row) * (3 * size) + slots_left * size + column
}

/// The place whose sample has this index. Four quarter turns lead back, so what is left of four undoes those of the slot.
pub fn place_at(layout: &Layout, size: i64, index: i64) -> Place {
    let (frame_row, frame_column) = (index / (3 * size), index % (3 * size));
    let (slots_above, slots_left) = (frame_row / size, frame_column / size);
    let slot = subscript(slots_above * 3 + slots_left);
    let (column, row) = turned(size, 4 - layout.quarter_turns[slot], (frame_column % size, frame_row % size));
    Place { face: layout.faces[slot], column, row }
}

/// All places of a cube, face by face and row by row.
pub fn places(size: i64) -> impl Iterator<Item = Place> {
    (0..6).flat_map(move |face| (0..size).flat_map(move |row| (0..size).map(move |column| Place { face, column, row })))
}

/// The samples of a frame by place, wherever its layout puts them.
#[derive(Clone, Debug)]
pub struct Cube {
    pub size: i64,
    /// In the order of `places`.
    samples: Vec<u16>,
}

impl Cube {
    pub fn new(frame: Frame) -> Cube {
        let Shape { size, layout, .. } = frame.shape;
        let by_index: Vec<u16> = samples(frame.bytes).collect();
        let samples = places(size).map(|place| by_index[subscript(index_of(&layout, size, place))]).collect();
        Cube { size, samples }
    }

    /// The samples of a row of a face, by column.
    pub fn row(&self, face: i64, row: i64) -> &[u16] {
        let start = subscript((face * self.size + row) * self.size);
        &self.samples[start..start + subscript(self.size)]
    }

    /// The sample at a place.
    pub fn sample(&self, place: Place) -> i64 {
        self.row(place.face, place.row)[subscript(place.column)].into()
    }
}

/// A natural number as the position in an array.
pub(crate) fn subscript(number: i64) -> usize {
    usize::try_from(number).expect("a natural number")
}

#[cfg(test)]
mod tests {
    use super::*;
    use crate::random::{self, Random};

    fn usual() -> Layout {
        Layout::from_bytes(&USUAL_LAYOUT).expect("12 bytes")
    }

    fn random_layout(random: &mut Random) -> Layout {
        Layout::from_bytes(&random::layout(random)).expect("12 bytes")
    }

    #[test]
    fn p13_an_index_in_the_usual_layout() {
        let place = Place { face: 3, column: 0, row: 1 };
        assert_eq!(index_of(&usual(), 2, place), 12);
        assert_eq!(place_at(&usual(), 2, 12), place);
    }

    #[test]
    fn a_face_in_each_slot() {
        // Face f in slot f, not turned, A = 2: the first sample of each slot, and the one to its right.
        let layout = Layout { faces: [0, 1, 2, 3, 4, 5], quarter_turns: [0; 6] };
        for (face, first) in (0..).zip([0, 2, 4, 12, 14, 16]) {
            assert_eq!(index_of(&layout, 2, Place { face, column: 0, row: 0 }), first);
            assert_eq!(index_of(&layout, 2, Place { face, column: 1, row: 0 }), first + 1);
            assert_eq!(index_of(&layout, 2, Place { face, column: 0, row: 1 }), first + 6);
        }
    }

    #[test]
    fn quarter_turns_are_clockwise() {
        // The upper left corner goes to the upper right, the lower right, the lower left and back.
        let corners = [0, 1, 2, 3, 4].map(|count| turned(5, count, (0, 0)));
        assert_eq!(corners, [(0, 0), (4, 0), (4, 4), (0, 4), (0, 0)]);
        assert_eq!(turned(5, 1, (1, 2)), (2, 1));
    }

    #[test]
    fn four_quarter_turns_lead_back() {
        for size in 1..=5 {
            for Place { column, row, .. } in places(size) {
                assert_eq!(turned(size, 4, (column, row)), (column, row));
            }
        }
    }

    #[test]
    fn index_and_place_are_inverse() {
        let mut random = Random::new(1);
        for size in (1..=9).chain([64, 511, 512]) {
            for _ in 0..if size < 10 { 50 } else { 1 } {
                let layout = random_layout(&mut random);
                for index in 0..frame_samples(size) {
                    let place = place_at(&layout, size, index);
                    assert!((0..6).contains(&place.face));
                    assert!((0..size).contains(&place.column) && (0..size).contains(&place.row));
                    assert_eq!(index_of(&layout, size, place), index);
                }
            }
        }
    }

    #[test]
    fn a_cube_has_the_samples_of_its_frame() {
        let mut random = Random::new(2);
        for size in 1..=9 {
            let layout = random_layout(&mut random);
            let mut bytes = vec![0; subscript(frame_bytes(size))];
            random.fill(&mut bytes);
            let cube = Cube::new(Frame { shape: Shape { size, depth: 12, format: Format::Cmp, layout }, bytes: &bytes });
            for (index, sample) in (0..).zip(samples(&bytes)) {
                assert_eq!(cube.sample(place_at(&layout, size, index)), i64::from(sample));
            }
        }
    }

    #[test]
    fn places_come_once_each() {
        for size in 1..=5 {
            assert_eq!(places(size).count(), subscript(frame_samples(size)));
            assert_eq!(frame_bytes(size), 2 * frame_samples(size));
        }
    }

    #[test]
    fn little_endian() {
        assert_eq!(samples(&[0x34, 0x12, 0xFF, 0x00]).collect::<Vec<_>>(), [0x1234, 0x00FF]);
    }
}
