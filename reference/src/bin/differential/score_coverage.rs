//! Which cases of scores occurred, and those that must.

use crate::comparison::Lending;
use crate::coverage::{answer_lengths, Case, Coverage};
use crate::frame_call::FrameCall;
use crate::frame_coverage;
use crate::score::ScoreCall;
use reference::checks;
use reference::frames::{largest_sample, places, samples, Cube, Frame, Place, Shape};

const NAME: &str = ScoreCall::NAME;

/// The samples of larger frames are not looked at place by place.
const LARGEST_SIZE: u64 = 9;

impl Coverage {
    /// Notes the cases of a score with the number that the reference returned.
    pub fn note_score(&mut self, call: &ScoreCall, number: u64, lending: Lending) {
        self.note_lending(NAME, number, &call.buffers(), lending);
        let event = if number == 0 { "accepted with answer length" } else { "refused with answer length" };
        self.add(NAME, event, call.answer.len() as i128);
        if number == 0 {
            self.note_accepted_score(call, lending);
        } else {
            self.note_refused_score(call, number);
        }
    }

    fn note_accepted_score(&mut self, call: &ScoreCall, lending: Lending) {
        let with_size = ["accepted in CMP with size", "accepted in ACP with size"];
        self.add(NAME, "accepted with size", call.size.into());
        self.add(NAME, with_size[call.format as usize], call.size.into());
        self.add(NAME, "accepted with depth", call.depth.into());
        self.note_layouts(NAME, &call.layouts);
        let (same_layouts, same_bytes) = (call.layouts[0] == call.layouts[1], call.frames[0] == call.frames[1]);
        self.add(NAME, "layouts the same", same_layouts.into());
        if lending == Lending::OneWhereSame {
            self.add(NAME, "one buffer for both layouts", same_layouts.into());
            self.add(NAME, "one buffer for both frames", same_bytes.into());
        }
        if call.answer.len() < ScoreCall::WHOLE_ANSWER {
            self.add(NAME, "accepted with a short answer buffer", 0);
        }
        self.note_extremes(call);
        if call.size <= LARGEST_SIZE {
            self.note_places(call);
        }
    }

    /// Whether the samples are as far apart as the depth lets them be.
    fn note_extremes(&mut self, call: &ScoreCall) {
        let largest = largest_sample(call.depth as i64) as u16;
        let all = |end: usize, sample: u16| samples(&call.frames[end]).all(|other| other == sample);
        for (end, event) in [(0, "first frame 0, second the largest, size"), (1, "second frame 0, first the largest, size")] {
            if all(end, 0) && all(1 - end, largest) {
                self.add(NAME, event, call.size.into());
                self.add(NAME, "samples farthest apart, depth", call.depth.into());
                if (call.size, call.depth) == (512, 12) {
                    self.add(NAME, "the largest error sum, format", call.format.into());
                }
            }
        }
    }

    /// At which places the frames differ.
    fn note_places(&mut self, call: &ScoreCall) {
        let [first, second] = [0, 1].map(|end| cube(call, end));
        let mut apart = places(first.size).filter(|&place| first.sample(place) != second.sample(place));
        let same_bytes = call.frames[0] == call.frames[1];
        match (apart.next(), apart.next()) {
            (None, _) if same_bytes => self.add(NAME, "the same picture in the same bytes, format", call.format.into()),
            (None, _) => self.add(NAME, "the same picture in other bytes, format", call.format.into()),
            (Some(place), None) => self.note_one_apart(call, place, second.sample(place) - first.sample(place)),
            (Some(_), Some(_)) if same_bytes => self.add(NAME, "other pictures in the same bytes, format", call.format.into()),
            (Some(_), Some(_)) => self.add(NAME, "several samples apart, format", call.format.into()),
        }
    }

    fn note_one_apart(&mut self, call: &ScoreCall, place: Place, difference: i64) {
        let last = call.size as i64 - 1;
        self.add(NAME, "one sample apart, format", call.format.into());
        self.add(NAME, "one sample apart, face", place.face.into());
        self.add(NAME, "one sample apart, with the sign of", difference.signum().into());
        let at_rims = [place.column == 0, place.column == last, place.row == 0, place.row == last];
        for (rim, at_rim) in (0..).zip(at_rims) {
            if at_rim && last > 0 {
                self.add(NAME, "one sample apart, at the rim", rim);
            }
        }
        if difference.abs() == 1 {
            self.add(NAME, "one sample apart by one", 0);
        }
        if difference.abs() == largest_sample(call.depth as i64) {
            self.add(NAME, "one sample apart by the largest of depth", call.depth.into());
        }
    }

    fn note_refused_score(&mut self, call: &ScoreCall, number: u64) {
        self.note_noes(NAME, number, noes(call));
        match number {
            1 => self.add(NAME, "refused size", call.size.into()),
            3 => self.add(NAME, "refused depth", call.depth.into()),
            4 => self.add(NAME, "refused format", call.format.into()),
            5 => self.note_refused_layouts(NAME, &call.layouts),
            8 => self.note_length(NAME, 0, &call.frames[0], call.size),
            9 => self.note_length(NAME, 1, &call.frames[1], call.size),
            10 => self.note_first_beyond(call),
            11 => self.note_samples_beyond(NAME, 1, &call.frames[1], call.depth),
            _ => {}
        }
        if number == 8 && call.frames[0].len() == call.frames[1].len() {
            self.add(NAME, "refused with both frames of one length", 0);
        }
    }

    fn note_first_beyond(&mut self, call: &ScoreCall) {
        let depth = call.depth as i64;
        self.note_samples_beyond(NAME, 0, &call.frames[0], call.depth);
        let (first, second) = (checks::first_samples(&call.frames[0], depth), checks::second_samples(&call.frames[1], depth));
        if let (Err(first), Err(second)) = (first, second) {
            self.add(NAME, "both frames beyond, order of their indices", first.index.cmp(&second.index) as i128);
        }
    }
}

/// The samples of a frame of an accepted score, by place.
fn cube(call: &ScoreCall, end: usize) -> Cube {
    let format = checks::format(call.format.into()).expect("it is accepted");
    let layout = checks::layout(&call.layouts[end]).expect("it is accepted");
    let shape = Shape { size: call.size as i64, depth: call.depth as i64, format, layout };
    Cube::new(Frame { shape, bytes: &call.frames[end] })
}

/// The questions to which the answer is "no", each asked by itself. No lent frame has size 2^20, and no sample is beyond 16 bits.
fn noes(call: &ScoreCall) -> Vec<u64> {
    let (size, depth) = (call.size.min(1 << 20) as i64, call.depth.min(16) as i64);
    let answers = [
        checks::face_size(call.size.into()).err(),
        checks::depth(call.depth.into()).err(),
        checks::format(call.format.into()).err(),
        call.layouts.iter().find_map(|layout| checks::layout(layout).err()),
        checks::first_length(call.frames[0].len(), size).err(),
        checks::second_length(call.frames[1].len(), size).err(),
        checks::first_samples(&call.frames[0], depth).err(),
        checks::second_samples(&call.frames[1], depth).err(),
    ];
    answers.into_iter().flatten().map(|refusal| refusal.number).collect()
}

/// The cases that must occur.
pub fn wanted() -> Vec<Case> {
    let mut cases = frame_coverage::wanted(NAME, ScoreCall::BUFFERS.len(), ScoreCall::QUESTIONS, &[0, 1]);
    let mut want = |event: &'static str, details: &[i128]| cases.extend(details.iter().map(|&detail| (NAME, event, detail)));
    let (huge, depths, formats) = (i128::from(u64::MAX), [8, 9, 10, 11, 12], [0, 1]);
    let lengths: Vec<i128> = answer_lengths().map(|length| length as i128).collect();
    let sizes: Vec<i128> = (1..=100).chain([255, 256, 511, 512]).collect();
    want("accepted with answer length", &lengths);
    want("refused with answer length", &lengths);
    want("accepted with a short answer buffer", &[0]);
    want("accepted with size", &sizes);
    want("accepted in CMP with size", &[1, 2, 3, 4, 5, 6, 7, 8, 9, 511, 512]);
    want("accepted in ACP with size", &[1, 2, 3, 4, 5, 6, 7, 8, 9, 511, 512]);
    want("layouts the same", &[0, 1]);
    want("one buffer for both layouts", &[0, 1]);
    want("one buffer for both frames", &[0, 1]);
    want("first frame 0, second the largest, size", &[1, 2, 3, 4, 5, 6, 7, 8, 9]);
    want("second frame 0, first the largest, size", &[1, 2, 3, 4, 5, 6, 7, 8, 9]);
    want("samples farthest apart, depth", &depths);
    want("the largest error sum, format", &formats);
    want("the same picture in the same bytes, format", &formats);
    want("the same picture in other bytes, format", &formats);
    want("other pictures in the same bytes, format", &formats);
    want("several samples apart, format", &formats);
    want("one sample apart, format", &formats);
    want("one sample apart, face", &[0, 1, 2, 3, 4, 5]);
    want("one sample apart, with the sign of", &[-1, 1]);
    want("one sample apart, at the rim", &[0, 1, 2, 3]);
    want("one sample apart by one", &[0]);
    want("one sample apart by the largest of depth", &depths);
    want("whole-cube turns before it", &[1, 2, 3, 4]);
    want("refused size", &[0, 513, 1 << 16, huge]);
    want("refused format", &[2, 255, huge]);
    want("refused with both frames of one length", &[0]);
    want("both frames beyond, order of their indices", &[-1, 0, 1]);
    cases
}

/// A line about the scores.
pub fn report(coverage: &Coverage) {
    let count = |event| coverage.count(NAME, event);
    println!(
        "among the scores {} of the same picture, {} one sample apart, {} farthest apart, {} after whole-cube turns, \
         {} short answer buffers, {} noes after the first",
        count("the same picture in the same bytes, format") + count("the same picture in other bytes, format"),
        count("one sample apart, format"),
        count("samples farthest apart, depth"),
        count("whole-cube turns before it"),
        count("accepted with a short answer buffer"),
        count("refused by the first of two")
    );
}
