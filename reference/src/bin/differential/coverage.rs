//! Which cases occurred, and those that must.

use crate::call::Call;
use crate::{convert_coverage, score_coverage};
use reference::positions::{self, Format, OnFace};
use reference::random::LARGEST_RAY;
use reference::rotations;
use std::collections::BTreeMap;

/// A case: the call's name, what happened, and where or with which number.
pub type Case = (&'static str, &'static str, i128);

/// The answer lengths that every call that writes an answer is made with.
pub fn answer_lengths() -> impl Iterator<Item = usize> {
    (0..=40).chain([64, 4096])
}

#[derive(Default)]
pub struct Coverage {
    seen: BTreeMap<Case, u64>,
}

impl Coverage {
    /// Notes the cases of a call with the number that the reference returned and the answer's length.
    pub fn note(&mut self, call: &Call, number: u64, length: usize) {
        let name = Call::NAMES[call.kind()];
        self.add(name, "returned", number.into());
        let event = if number == 0 { "accepted with answer length" } else { "refused with answer length" };
        self.add(name, event, length as i128);
        if number == 0 && length < call.whole_answer() {
            self.add(name, "accepted with a short answer buffer", 0);
        }
        match *call {
            Call::Fold { first, later } => {
                self.note_rotations(name, first, later, number);
                if number == 0 || number == 12 {
                    self.note_composition(name, first.map(i128::from), later.map(i128::from), number);
                }
            }
            Call::Equal { first, second } => {
                self.note_rotations(name, first, second, number);
                if number == 0 {
                    self.note_equality(name, first.map(i128::from), second.map(i128::from));
                }
            }
            Call::LookUp { size, format, ray } => {
                self.note_settings(name, size, format, ray, number);
                if number == 0 {
                    let format = if format == 0 { Format::Cmp } else { Format::Acp };
                    self.note_location(name, size.into(), format, ray.map(i128::from));
                }
            }
        }
    }

    /// Notes that a case occurred.
    pub fn add(&mut self, name: &'static str, event: &'static str, detail: i128) {
        *self.seen.entry((name, event, detail)).or_default() += 1;
    }

    fn note_rotations(&mut self, name: &'static str, first: [i64; 4], second: [i64; 4], number: u64) {
        let numbers = [first, second].concat();
        let outside = numbers.iter().filter(|number| !(-31..=31).contains(*number)).count();
        for (position, &value) in (0..).zip(&numbers) {
            match (value, number, outside) {
                (31, 0, _) => self.add(name, "accepted with 31 at", position),
                (-31, 0, _) => self.add(name, "accepted with -31 at", position),
                (32, 6, 1) => self.add(name, "refused for 32 at", position),
                (-32, 6, 1) => self.add(name, "refused for -32 at", position),
                (i64::MIN, 6, 1) => self.add(name, "refused for the lowest number at", position),
                (i64::MAX, 6, 1) => self.add(name, "refused for the highest number at", position),
                _ => {}
            }
        }
        match (number, first == [0; 4], second == [0; 4]) {
            (6, true, false) => self.add(name, "refused by 6 with the first turn zero", 0),
            (6, false, true) => self.add(name, "refused by 6 with the second turn zero", 0),
            (7, true, false) => self.add(name, "first turn zero", 0),
            (7, false, true) => self.add(name, "second turn zero", 0),
            (7, true, true) => self.add(name, "both turns zero", 0),
            _ => {}
        }
    }

    fn note_composition(&mut self, name: &'static str, first: [i128; 4], later: [i128; 4], number: u64) {
        let largest = |rotation: [i128; 4]| rotation.into_iter().map(i128::abs).max().unwrap_or(0);
        let product = rotations::product(first, later);
        let composed = rotations::reduced(product);
        if rotations::common_divisor(product) > 1 {
            self.add(name, "product divided", 0);
        }
        if product.into_iter().find(|&number| number != 0) < Some(0) {
            self.add(name, "signs changed", 0);
        }
        if product != rotations::product(later, first) {
            self.add(name, "order of the turns matters", 0);
        }
        if number == 0 && largest(product) > 31 {
            self.add(name, "accepted only because the product is divided", 0);
        }
        if [31, 32].contains(&largest(composed)) {
            self.add(name, "largest number of the fold", largest(composed));
        }
    }

    fn note_equality(&mut self, name: &'static str, first: [i128; 4], second: [i128; 4]) {
        let equal = rotations::equal(first, second);
        self.add(name, "answered", equal.into());
        if equal && first != second {
            let inner: i128 = first.iter().zip(second).map(|(a, b)| a * b).sum();
            self.add(name, "equal by a factor with the sign of", inner.signum());
        }
    }

    fn note_settings(&mut self, name: &'static str, size: u64, format: u64, ray: [i64; 3], number: u64) {
        let outside = ray.iter().filter(|number| !(-LARGEST_RAY..=LARGEST_RAY).contains(*number)).count();
        let event = if number == 1 { "refused size" } else { "not refused size" };
        self.add(name, event, size.into());
        if number == 4 {
            self.add(name, "refused format", format.into());
        }
        // 104 stands for a call that is refused by 1 and would else be refused by 4.
        for (later, wrong) in [(4, format > 1), (13, outside > 0), (14, ray == [0; 3])] {
            if number > 0 && number < later && wrong {
                self.add(name, "refused by the first of two", (number * 100 + later).into());
            }
        }
        for (axis, &value) in (0..).zip(&ray) {
            match (value, number, outside) {
                (LARGEST_RAY, 0, _) => self.add(name, "accepted with the largest number on axis", axis),
                (v, 0, _) if v == -LARGEST_RAY => self.add(name, "accepted with the smallest number on axis", axis),
                (v, 13, 1) if v == LARGEST_RAY + 1 => self.add(name, "refused for one above the largest on axis", axis),
                (v, 13, 1) if v == -LARGEST_RAY - 1 => self.add(name, "refused for one below the smallest on axis", axis),
                (i64::MIN, 13, 1) => self.add(name, "refused for the lowest number on axis", axis),
                (i64::MAX, 13, 1) => self.add(name, "refused for the highest number on axis", axis),
                _ => {}
            }
        }
    }

    fn note_location(&mut self, name: &'static str, size: i128, format: Format, ray: [i128; 3]) {
        let OnFace { face, d, u, v } = positions::on_face(ray);
        let (on_face, halfway) = match format {
            Format::Cmp => ("CMP, face", "CMP, halfway, with the sign of"),
            Format::Acp => ("ACP, face", "ACP, halfway, with the sign of"),
        };
        self.add(name, on_face, face);
        let ties = ray.iter().filter(|number| number.abs() == d).count();
        if ties > 1 {
            self.add(name, "axes of the same largest size", ties as i128);
        }
        for scaled in [u, v] {
            let exact = positions::exact_position(format, size, scaled, d);
            if positions::is_halfway(exact) {
                self.add(name, halfway, scaled.signum());
                if exact.numerator < 0 {
                    self.add(name, "halfway and below zero", 0);
                }
            }
        }
    }

    /// The number of times that a case of some call occurred, whatever its detail.
    pub fn count(&self, name: &str, event: &str) -> u64 {
        self.seen.iter().filter(|((n, e, _), _)| *n == name && *e == event).map(|(_, count)| count).sum()
    }

    /// For each number that a call returned: how often.
    pub fn returned(&self, name: &str) -> Vec<(i128, u64)> {
        let cases = self.seen.iter().filter(|((n, e, _), _)| *n == name && *e == "returned");
        cases.map(|((_, _, number), count)| (*number, *count)).collect()
    }

    /// The cases that must occur and did not.
    pub fn missing(&self) -> Vec<Case> {
        let wanted = [wanted(), convert_coverage::wanted(), score_coverage::wanted()].concat();
        wanted.into_iter().filter(|case| !self.seen.contains_key(case)).collect()
    }
}

fn wanted() -> Vec<Case> {
    let mut cases = Vec::new();
    let mut want = |names: &[&'static str], event: &'static str, details: &[i128]| {
        for &name in names {
            cases.extend(details.iter().map(|&detail| (name, event, detail)));
        }
    };
    let lengths: Vec<i128> = answer_lengths().map(|length| length as i128).collect();
    let eight = [0, 1, 2, 3, 4, 5, 6, 7];
    let axes = [0, 1, 2];
    let rotation_calls = ["fold", "equal"];
    want(&Call::NAMES, "accepted with answer length", &lengths);
    want(&Call::NAMES, "refused with answer length", &lengths);
    want(&Call::NAMES, "accepted with a short answer buffer", &[0]);
    want(&["fold"], "returned", &[0, 6, 7, 12]);
    want(&["equal"], "returned", &[0, 6, 7]);
    want(&["look_up"], "returned", &[0, 1, 4, 13, 14]);
    want(&rotation_calls, "accepted with 31 at", &eight);
    want(&rotation_calls, "accepted with -31 at", &eight);
    want(&rotation_calls, "refused for 32 at", &eight);
    want(&rotation_calls, "refused for -32 at", &eight);
    want(&rotation_calls, "refused for the lowest number at", &eight);
    want(&rotation_calls, "refused for the highest number at", &eight);
    want(&rotation_calls, "refused by 6 with the first turn zero", &[0]);
    want(&rotation_calls, "refused by 6 with the second turn zero", &[0]);
    want(&rotation_calls, "first turn zero", &[0]);
    want(&rotation_calls, "second turn zero", &[0]);
    want(&rotation_calls, "both turns zero", &[0]);
    want(&["fold"], "product divided", &[0]);
    want(&["fold"], "signs changed", &[0]);
    want(&["fold"], "order of the turns matters", &[0]);
    want(&["fold"], "accepted only because the product is divided", &[0]);
    want(&["fold"], "largest number of the fold", &[31, 32]);
    want(&["equal"], "answered", &[0, 1]);
    want(&["equal"], "equal by a factor with the sign of", &[-1, 1]);
    want(&["look_up"], "refused size", &[0, 513, u64::MAX.into()]);
    want(&["look_up"], "not refused size", &[1, 2, 3, 511, 512]);
    want(&["look_up"], "refused format", &[2, 255, u64::MAX.into()]);
    want(&["look_up"], "refused by the first of two", &[104, 113, 114, 413, 414]);
    want(&["look_up"], "accepted with the largest number on axis", &axes);
    want(&["look_up"], "accepted with the smallest number on axis", &axes);
    want(&["look_up"], "refused for one above the largest on axis", &axes);
    want(&["look_up"], "refused for one below the smallest on axis", &axes);
    want(&["look_up"], "refused for the lowest number on axis", &axes);
    want(&["look_up"], "refused for the highest number on axis", &axes);
    want(&["look_up"], "CMP, face", &[0, 1, 2, 3, 4, 5]);
    want(&["look_up"], "ACP, face", &[0, 1, 2, 3, 4, 5]);
    want(&["look_up"], "axes of the same largest size", &[2, 3]);
    want(&["look_up"], "CMP, halfway, with the sign of", &[-1, 1]);
    want(&["look_up"], "ACP, halfway, with the sign of", &[-1, 1]);
    want(&["look_up"], "halfway and below zero", &[0]);
    cases
}
