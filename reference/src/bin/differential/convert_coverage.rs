//! Which cases of conversions occurred, and those that must.

use crate::comparison::Lending;
use crate::convert::ConvertCall;
use crate::coverage::{Case, Coverage};
use crate::frame_call::FrameCall;
use crate::frame_coverage;
use reference::calls::accepted_conversion;
use reference::checks;
use reference::conversions::Conversion;
use reference::frames::{frame_bytes, largest_sample, places, samples};
use reference::positions::Location;
use reference::rotations::{common_divisor, is_cube_rotation, matrix};
use reference::samplers;

const NAME: &str = ConvertCall::NAME;

/// The samples of larger targets are not looked at one by one.
const LARGEST_TARGET: u64 = 5;

impl Coverage {
    /// Notes the cases of a conversion with the number that the reference returned.
    pub fn note_conversion(&mut self, call: &ConvertCall, number: u64, lending: Lending) {
        self.note_lending(NAME, number, &call.buffers(), lending);
        if number == 0 {
            self.note_accepted_conversion(call);
        } else {
            self.note_refused_conversion(call, number);
        }
    }

    fn note_accepted_conversion(&mut self, call: &ConvertCall) {
        let [source_format, target_format, sampler] = call.codes;
        let mix = i128::from(source_format + 2 * target_format + 4 * sampler);
        for (size, event) in call.sizes.into_iter().zip(["accepted with source size", "accepted with target size"]) {
            self.add(NAME, event, size.into());
        }
        if call.sizes[0] == call.sizes[1] {
            self.add(NAME, "accepted with both sizes", call.sizes[0].into());
        }
        self.add(NAME, "accepted with depth", call.depth.into());
        self.note_layouts(NAME, &call.layouts);
        self.note_turn(call.rotation, mix);
        self.note_frame(call, sampler.into());
        if call.sizes[1] <= LARGEST_TARGET {
            let conversion = accepted_conversion(call.arguments(), call.frames[1].len()).expect("it is accepted");
            self.note_samples(&conversion, sampler.into());
        }
    }

    fn note_turn(&mut self, rotation: [i64; 4], mix: i128) {
        for (position, number) in (0..).zip(rotation) {
            match number {
                31 => self.add(NAME, "accepted with 31 at", position),
                -31 => self.add(NAME, "accepted with -31 at", position),
                _ => {}
            }
        }
        let rotation = rotation.map(i128::from);
        if !is_cube_rotation(rotation) {
            self.add(NAME, "accepted with another turn, formats and sampler", mix);
            return;
        }
        self.add(NAME, "accepted with a whole-cube turn, formats and sampler", mix);
        self.add(NAME, "whole-cube turn", cube_rotation_number(rotation));
        if common_divisor(rotation) > 1 {
            self.add(NAME, "whole-cube turn with a common divisor", 0);
        }
        if rotation.into_iter().find(|&number| number != 0) < Some(0) {
            self.add(NAME, "whole-cube turn that begins below zero", 0);
        }
    }

    fn note_frame(&mut self, call: &ConvertCall, sampler: i128) {
        let largest = largest_sample(call.depth as i64) as u16;
        let source: Vec<u16> = samples(&call.frames[0]).collect();
        if source.iter().all(|sample| *sample == source[0]) {
            self.add(NAME, "all samples the same, sampler", sampler);
        } else if source.iter().all(|sample| [0, largest].contains(sample)) {
            self.add(NAME, "the smallest and the largest sample alone, sampler", sampler);
        }
    }

    /// Where the samples of the target come from.
    fn note_samples(&mut self, conversion: &Conversion, sampler: i128) {
        for place in places(conversion.target.size) {
            let ray = conversion.source_ray(place);
            let largest = ray.into_iter().map(i64::abs).max();
            let ties = ray.iter().filter(|number| Some(number.abs()) == largest).count();
            self.add(NAME, "axes of the same largest size", ties as i128);
            let location = conversion.location(place);
            for position64 in [location.column, location.row] {
                if position64 < 0 {
                    self.add(NAME, "position below zero, sampler", sampler);
                }
                if position64 == -32 {
                    self.add(NAME, "position at the lower edge, sampler", sampler);
                }
                if position64 == 64 * conversion.source.size - 32 {
                    self.add(NAME, "position at the upper edge, sampler", sampler);
                }
            }
            if sampler == 1 {
                self.note_cubic(conversion, location);
            }
        }
    }

    fn note_cubic(&mut self, conversion: &Conversion, location: Location) {
        let sum = samplers::cubic_sum(&conversion.source, location);
        let value = samplers::rounded(sum);
        if value < 0 {
            self.add(NAME, "cubic value clipped to the smallest", 0);
        }
        if value > largest_sample(conversion.target.depth) {
            self.add(NAME, "cubic value clipped to the largest", 0);
        }
        if sum > 0 && sum % (1 << 38) == 1 << 37 {
            self.add(NAME, "cubic value halfway", 0);
        }
    }

    fn note_refused_conversion(&mut self, call: &ConvertCall, number: u64) {
        self.note_noes(NAME, number, noes(call));
        match number {
            1 => self.add(NAME, "refused source size", call.sizes[0].into()),
            2 => self.add(NAME, "refused target size", call.sizes[1].into()),
            3 => self.add(NAME, "refused depth", call.depth.into()),
            4 => self.note_codes(call.codes),
            5 => self.note_refused_layouts(NAME, &call.layouts),
            6 => self.note_far_numbers(call.rotation),
            8 => self.note_end_length(call, 0),
            9 => self.note_end_length(call, 1),
            10 => self.note_samples_beyond(NAME, 0, &call.frames[0], call.depth),
            _ => {}
        }
    }

    fn note_codes(&mut self, codes: [u64; 3]) {
        let events = ["refused source format", "refused target format", "refused sampler"];
        if codes.iter().filter(|&&code| code > 1).count() == 1 {
            for (code, event) in codes.into_iter().zip(events).filter(|(code, _)| *code > 1) {
                self.add(NAME, event, code.into());
            }
        }
    }

    fn note_far_numbers(&mut self, rotation: [i64; 4]) {
        if rotation.iter().filter(|number| !(-31..=31).contains(*number)).count() > 1 {
            return;
        }
        for (position, number) in (0..).zip(rotation) {
            match number {
                32 => self.add(NAME, "refused for 32 at", position),
                -32 => self.add(NAME, "refused for -32 at", position),
                i64::MIN => self.add(NAME, "refused for the lowest number at", position),
                i64::MAX => self.add(NAME, "refused for the highest number at", position),
                _ => {}
            }
        }
    }

    fn note_end_length(&mut self, call: &ConvertCall, end: usize) {
        self.note_length(NAME, end, &call.frames[end], call.sizes[end]);
        if call.frames[end].len() as i64 == frame_bytes(call.sizes[1 - end] as i64) {
            self.add(NAME, "refused for the other end's length at end", end as i128);
        }
    }
}

/// The questions to which the answer is "no", each asked by itself. No lent frame has size 2^20, and no sample is beyond 16 bits.
fn noes(call: &ConvertCall) -> Vec<u64> {
    let [source_size, target_size] = call.sizes.map(|size| size.min(1 << 20) as i64);
    let depth = call.depth.min(16) as i64;
    let rotations = [call.rotation.map(i128::from)];
    let answers = [
        checks::face_size(call.sizes[0].into()).err(),
        checks::target_size(call.sizes[1].into()).err(),
        checks::depth(call.depth.into()).err(),
        call.codes.iter().find_map(|&code| checks::format(code.into()).err()),
        call.layouts.iter().find_map(|layout| checks::layout(layout).err()),
        checks::rotation_range(&rotations).err(),
        checks::rotation_nonzero(&rotations).err(),
        checks::first_length(call.frames[0].len(), source_size).err(),
        checks::second_length(call.frames[1].len(), target_size).err(),
        checks::first_samples(&call.frames[0], depth).err(),
    ];
    answers.into_iter().flatten().map(|refusal| refusal.number).collect()
}

/// The signs of the matrix of a whole-cube turn, as digits of 0 to 2.
fn cube_rotation_number(rotation: [i128; 4]) -> i128 {
    matrix(rotation).into_iter().flatten().fold(0, |number, entry| 3 * number + i128::from(entry.signum()) + 1)
}

/// The numbers of all whole-cube turns.
fn cube_rotation_numbers() -> Vec<i128> {
    let rotations = (0..81).map(|code| [code / 27, code / 9 % 3, code / 3 % 3, code % 3].map(|digit| digit - 1));
    let mut numbers: Vec<i128> =
        rotations.filter(|&rotation| rotation != [0; 4] && is_cube_rotation(rotation)).map(cube_rotation_number).collect();
    numbers.sort();
    numbers.dedup();
    numbers
}

/// The cases that must occur.
pub fn wanted() -> Vec<Case> {
    let mut cases = frame_coverage::wanted(NAME, ConvertCall::BUFFERS.len(), ConvertCall::QUESTIONS, &[0]);
    let mut want = |event: &'static str, details: &[i128]| cases.extend(details.iter().map(|&detail| (NAME, event, detail)));
    let (huge, four, mixes) = (i128::from(u64::MAX), [0, 1, 2, 3], [0, 1, 2, 3, 4, 5, 6, 7]);
    want("accepted with source size", &[1, 2, 3, 4, 5, 6, 7, 8, 9, 64, 511, 512]);
    want("accepted with target size", &[1, 2, 3, 4, 5, 6, 7, 8, 9, 64, 511, 512]);
    want("accepted with both sizes", &[1, 2, 9, 64, 511, 512]);
    want("accepted with 31 at", &four);
    want("accepted with -31 at", &four);
    want("accepted with another turn, formats and sampler", &mixes);
    want("accepted with a whole-cube turn, formats and sampler", &mixes);
    want("whole-cube turn", &cube_rotation_numbers());
    want("whole-cube turn with a common divisor", &[0]);
    want("whole-cube turn that begins below zero", &[0]);
    want("all samples the same, sampler", &[0, 1]);
    want("the smallest and the largest sample alone, sampler", &[0, 1]);
    want("axes of the same largest size", &[1, 2]);
    want("position below zero, sampler", &[0, 1]);
    want("position at the lower edge, sampler", &[0, 1]);
    want("position at the upper edge, sampler", &[0, 1]);
    want("cubic value clipped to the smallest", &[0]);
    want("cubic value clipped to the largest", &[0]);
    want("cubic value halfway", &[0]);
    want("refused source size", &[0, 513, huge]);
    want("refused target size", &[0, 513, huge]);
    want("refused source format", &[2, 255, huge]);
    want("refused target format", &[2, 255, huge]);
    want("refused sampler", &[2, 255, huge]);
    want("refused for 32 at", &four);
    want("refused for -32 at", &four);
    want("refused for the lowest number at", &four);
    want("refused for the highest number at", &four);
    want("refused for the other end's length at end", &[0, 1]);
    cases
}

/// A line about the conversions.
pub fn report(coverage: &Coverage) {
    let count = |event| coverage.count(NAME, event);
    let clipped = count("cubic value clipped to the smallest") + count("cubic value clipped to the largest");
    println!(
        "among the conversions {} by whole-cube turns, {} by others, {} halves and {clipped} clipped values seen, {} noes after the first",
        count("accepted with a whole-cube turn, formats and sampler"),
        count("accepted with another turn, formats and sampler"),
        count("cubic value halfway"),
        count("refused by the first of two")
    );
}
