//! Which cases occurred of what convert and score are both lent, and those that must.

use crate::comparison::Lending;
use crate::coverage::{Case, Coverage};
use reference::checks;
use reference::frames::{frame_bytes, largest_sample, samples, USUAL_LAYOUT};

impl Coverage {
    /// Notes the number that the reference returned, and how the buffers were lent.
    pub fn note_lending(&mut self, name: &'static str, number: u64, buffers: &[&[u8]], lending: Lending) {
        self.add(name, "returned", number.into());
        self.add(name, "buffers lent as", lending as i128);
        for (position, buffer) in (0..).zip(buffers) {
            if lending == Lending::NullWhereEmpty && buffer.is_empty() {
                self.add(name, "NULL lent as buffer", position);
            }
        }
    }

    /// The layouts of an accepted call.
    pub fn note_layouts(&mut self, name: &'static str, layouts: &[Vec<u8>; 2]) {
        let in_slot = ["first layout's slot and face", "second layout's slot and face"];
        let turned = ["first layout's face and its turns", "second layout's face and its turns"];
        for (end, layout) in layouts.iter().enumerate() {
            for slot in 0..6 {
                let (face, quarter_turns) = (i128::from(layout[slot]), i128::from(layout[6 + slot]));
                self.add(name, in_slot[end], 10 * slot as i128 + face);
                self.add(name, turned[end], 10 * face + quarter_turns);
            }
            if layout[..] == USUAL_LAYOUT {
                self.add(name, "the usual layout at end", end as i128);
            }
        }
    }

    /// Notes the questions behind the one that refused a call to which the answer is "no" too.
    pub fn note_noes(&mut self, name: &'static str, number: u64, noes: Vec<u64>) {
        // 108 stands for a call that is refused by 1 and would else be refused by 8, or by one in between.
        for later in noes.into_iter().filter(|&later| later > number) {
            self.add(name, "refused by the first of two", (100 * number + later).into());
        }
    }

    pub fn note_refused_layouts(&mut self, name: &'static str, layouts: &[Vec<u8>; 2]) {
        let refused = [0, 1].map(|end| checks::layout(&layouts[end]).is_err());
        let (end, layout) = match refused {
            [true, false] => (0, &layouts[0]),
            [false, true] => (1, &layouts[1]),
            _ => return,
        };
        let lengths = ["refused first layout of length", "refused second layout of length"];
        let faces = ["refused first layout with face", "refused second layout with face"];
        let turns = ["refused first layout with turns", "refused second layout with turns"];
        if layout.len() != 12 {
            self.add(name, lengths[end], layout.len() as i128);
            return;
        }
        let (large_face, large_turn) = (layout[..6].iter().max() > Some(&5), layout[6..].iter().max() > Some(&3));
        match (large_face, large_turn) {
            (true, false) => layout[..6].iter().for_each(|&face| self.add(name, faces[end], face.into())),
            (false, true) => layout[6..].iter().for_each(|&count| self.add(name, turns[end], count.into())),
            (false, false) => self.add(name, "refused for a face twice at end", end as i128),
            (true, true) => {}
        }
    }

    /// The length of a refused frame, whose size is in range.
    pub fn note_length(&mut self, name: &'static str, end: usize, frame: &[u8], size: u64) {
        let too_long = ["refused first frame, too long by", "refused second frame, too long by"];
        self.add(name, too_long[end], (frame.len() as i64 - frame_bytes(size as i64)).into());
        if frame.is_empty() {
            self.add(name, "refused for no bytes at end", end as i128);
        }
    }

    /// Where the samples of a refused frame lie that are beyond the depth, which is in range.
    pub fn note_samples_beyond(&mut self, name: &'static str, end: usize, frame: &[u8], depth: u64) {
        let (samples, at_end): (Vec<u16>, i128) = (samples(frame).collect(), end as i128);
        let beyond = |index: &usize| i64::from(samples[*index]) > largest_sample(depth as i64);
        let indices: Vec<usize> = (0..samples.len()).filter(beyond).collect();
        match indices[..] {
            [0] => self.add(name, "first sample alone beyond at end", at_end),
            [index] if index == samples.len() - 1 => self.add(name, "last sample alone beyond at end", at_end),
            [_] => self.add(name, "another sample alone beyond at end", at_end),
            _ => self.add(name, "several samples beyond at end", at_end),
        }
        let one_too_large = ["refused first frame, one too large at depth", "refused second frame, one too large at depth"];
        if samples[indices[0]] == 1 << depth {
            self.add(name, one_too_large[end], depth.into());
        }
    }
}

/// All numbers 10·first + second, the first below one number and the second below another.
fn pairs(firsts: i128, seconds: i128) -> Vec<i128> {
    (0..firsts).flat_map(|first| (0..seconds).map(move |second| 10 * first + second)).collect()
}

/// The numbers 100·first + second of all pairs of different questions, in order.
fn question_pairs(questions: &[u64]) -> Vec<i128> {
    let seconds = |first: u64| questions.iter().filter(move |&&second| first < second);
    questions.iter().flat_map(|&first| seconds(first).map(move |second| (100 * first + second).into())).collect()
}

/// The cases of a call that must occur: with so many buffers, these questions, and samples asked at these ends.
pub fn wanted(name: &'static str, buffers: usize, questions: &[u64], asked: &[i128]) -> Vec<Case> {
    let mut cases = Vec::new();
    let mut want = |event: &'static str, details: &[i128]| cases.extend(details.iter().map(|&detail| (name, event, detail)));
    let numbers: Vec<i128> = questions.iter().map(|&question| question.into()).chain([0]).collect();
    let positions: Vec<i128> = (0..buffers as i128).collect();
    // A turn with a number out of range is not zero, so 6 and 7 do not come together.
    let both_no: Vec<i128> = question_pairs(questions).into_iter().filter(|&both| both != 607).collect();
    want("returned", &numbers);
    want("buffers lent as", &[Lending::Apart, Lending::NullWhereEmpty, Lending::OneWhereSame].map(|lending| lending as i128));
    want("NULL lent as buffer", &positions);
    want("accepted with depth", &[8, 9, 10, 11, 12]);
    want("first layout's slot and face", &pairs(6, 6));
    want("second layout's slot and face", &pairs(6, 6));
    want("first layout's face and its turns", &pairs(6, 4));
    want("second layout's face and its turns", &pairs(6, 4));
    want("the usual layout at end", &[0, 1]);
    want("refused by the first of two", &both_no);
    want("refused depth", &[0, 7, 13, u64::MAX.into()]);
    want("refused first layout of length", &[0, 11, 13]);
    want("refused second layout of length", &[0, 11, 13]);
    want("refused first layout with face", &[6, 255]);
    want("refused second layout with face", &[6, 255]);
    want("refused first layout with turns", &[4, 255]);
    want("refused second layout with turns", &[4, 255]);
    want("refused for a face twice at end", &[0, 1]);
    want("refused first frame, too long by", &[-2, -1, 1, 2]);
    want("refused second frame, too long by", &[-2, -1, 1, 2]);
    want("refused for no bytes at end", &[0, 1]);
    want("first sample alone beyond at end", asked);
    want("last sample alone beyond at end", asked);
    want("another sample alone beyond at end", asked);
    want("several samples beyond at end", asked);
    for &end in asked {
        let one_too_large = ["refused first frame, one too large at depth", "refused second frame, one too large at depth"];
        want(one_too_large[end as usize], &[8, 9, 10, 11, 12]);
    }
    cases
}
