//! Makes a call of the library and of the reference, and compares the code and every byte.

use crate::call::Call;
use crate::coverage::Coverage;
use crate::frame_call::{FrameCall, LONGEST_FRAME};
use crate::lent::{self, Lent};
use crate::record::Record;
use crate::score::ScoreCall;
use reference::random::Random;
use std::ffi::c_int;
use std::sync::Mutex;

/// The bytes in front of each lent buffer that are compared too.
const FRONT: usize = 64;

/// No answer buffer and no layout that is lent has more bytes.
const MOST_BYTES: usize = 8_192;

/// The program stops after so many differences.
const ENOUGH: u32 = 10;

/// So many bytes of a buffer are shown.
const SHOWN: usize = 12 * 9 * 9;

enum UnderWay {
    /// A call with the length of its answer.
    Answering(Call, usize),
    /// A call that is lent frames, in words.
    WithFrames(String),
}

/// The call under way, for the message at a fault.
static UNDER_WAY: Mutex<Option<UnderWay>> = Mutex::new(None);

extern "C" fn report_fault(_signal: c_int) {
    match UNDER_WAY.try_lock().as_deref() {
        Ok(Some(UnderWay::Answering(call, length))) => println!("memory fault in {call:?}, answer length {length}"),
        Ok(Some(UnderWay::WithFrames(call))) => println!("memory fault in {call}"),
        _ => println!("memory fault outside every call"),
    }
    std::process::exit(1);
}

fn begin(call: UnderWay) {
    *UNDER_WAY.lock().expect("no thread failed") = Some(call);
}

/// How the buffers of a call that is lent frames are lent.
#[derive(Clone, Copy, Debug, PartialEq, Eq)]
pub enum Lending {
    /// Each in front of a forbidden page of its own.
    Apart,
    /// The same, but with NULL for those that are empty.
    NullWhereEmpty,
    /// The same, but with one for those that are only read and hold the same bytes.
    OneWhereSame,
}

impl Lending {
    fn words(self) -> &'static str {
        match self {
            Lending::Apart => "",
            Lending::NullWhereEmpty => ", NULL where empty",
            Lending::OneWhereSame => ", one buffer where two hold the same",
        }
    }
}

pub struct Comparison {
    pub random: Random,
    pub coverage: Coverage,
    /// Where a part of the compared calls is recorded, if anywhere.
    pub record: Option<Record>,
    answer: Lent,
    /// What the calls that are lent frames are lent: two layouts, two frames, and an answer buffer where there is one.
    buffers: [Lent; 5],
    differences: u32,
}

impl Comparison {
    pub fn new(random: Random, record: Option<Record>) -> Comparison {
        lent::at_fault(report_fault);
        let longest = [MOST_BYTES, MOST_BYTES, LONGEST_FRAME, LONGEST_FRAME, MOST_BYTES];
        let buffers = longest.map(|bytes| Lent::new(FRONT + bytes));
        let (coverage, answer) = (Coverage::default(), Lent::new(FRONT + MOST_BYTES));
        Comparison { random, coverage, record, answer, buffers, differences: 0 }
    }

    pub fn differences(&self) -> u32 {
        self.differences
    }

    /// Compares a call with an answer buffer that mostly holds the whole answer.
    pub fn compare(&mut self, call: Call) {
        let length = match self.random.below(64) {
            0 => 64,
            1 => self.random.below(256),
            2..=17 => self.random.below(41),
            18..=25 => call.whole_answer() + self.random.below(9),
            _ => call.whole_answer(),
        };
        self.compare_with_length(call, length);
    }

    /// Compares a call with an answer buffer of this length; length 0 both with NULL and with a pointer.
    pub fn compare_with_length(&mut self, call: Call, length: usize) {
        self.compare_at(call, length, false);
        if length == 0 {
            self.compare_at(call, length, true);
        }
    }

    fn compare_at(&mut self, call: Call, length: usize, null: bool) {
        let memory = self.answer.last(FRONT + length);
        self.random.fill(memory);
        let before = memory.to_vec();
        let mut expected = before.clone();
        let expected_code = call.of_reference(&mut expected[FRONT..]);
        let answer = if null { std::ptr::null_mut() } else { memory[FRONT..].as_mut_ptr() };
        begin(UnderWay::Answering(call, length));
        // SAFETY: `answer` points at the `length` bytes behind the front; with length 0 it may be NULL.
        let code = unsafe { call.of_library(answer, length) };
        let after = self.answer.last(FRONT + length);
        if code != expected_code || after != expected {
            println!("difference: {call:?}, answer length {length}{}", if null { ", NULL" } else { "" });
            println!("  library returned {code}, reference {expected_code}; {FRONT} bytes in front | answer");
            println!("  before    {}", hexadecimal(&before));
            println!("  library   {}", hexadecimal(after));
            println!("  reference {}", hexadecimal(&expected));
            self.differ();
        }
        self.coverage.note(&call, expected_code % 256, length);
        if let (Some(record), false) = (&mut self.record, null) {
            record.offer(call.kind(), || call.numbers(), &[&before[FRONT..]], expected_code, &expected[FRONT..]);
        }
    }

    /// Compares a call that is lent frames, in each way of lending that makes a difference. Returns what the library left in the
    /// last buffer.
    pub fn compare_frames<const COUNT: usize, Framed: FrameCall<COUNT>>(&mut self, call: &Framed) -> Vec<u8> {
        let buffers = call.buffers();
        let written = self.compare_lending(call, Lending::Apart);
        if buffers.iter().any(|buffer| buffer.is_empty()) {
            self.compare_lending(call, Lending::NullWhereEmpty);
        }
        if (0..COUNT).any(|position| first_same(&buffers, position) < position) {
            self.compare_lending(call, Lending::OneWhereSame);
        }
        written
    }

    fn compare_lending<const COUNT: usize, Framed: FrameCall<COUNT>>(&mut self, call: &Framed, lending: Lending) -> Vec<u8> {
        let buffers = call.buffers();
        let mut expected = buffers.map(|buffer| self.with_front(buffer));
        let mut pointers = [std::ptr::null_mut(); COUNT];
        for (position, (lent, before)) in self.buffers.iter_mut().zip(&expected).enumerate() {
            let memory = lent.last(before.len());
            memory.copy_from_slice(before);
            pointers[position] = memory[FRONT..].as_mut_ptr();
        }
        pointers = match lending {
            Lending::Apart => pointers,
            Lending::NullWhereEmpty => {
                std::array::from_fn(|at| if buffers[at].is_empty() { std::ptr::null_mut() } else { pointers[at] })
            }
            Lending::OneWhereSame => std::array::from_fn(|at| pointers[first_same(&buffers, at)]),
        };
        let expected_code = call.of_reference(&mut expected[COUNT - 1][FRONT..]);
        begin(UnderWay::WithFrames(call.to_string()));
        // SAFETY: each pointer points at the bytes of its buffer behind the front, or at the same bytes of another one where both
        // are only read; that of an empty one may be NULL.
        let code = unsafe { call.of_library(pointers) };
        let mut words = Vec::new();
        for ((lent, expected), name) in self.buffers.iter_mut().zip(&expected).zip(Framed::BUFFERS) {
            words.extend(first_difference(lent.last(expected.len()), expected).map(|what| format!("{name}: {what}")));
        }
        if code != expected_code || !words.is_empty() {
            println!("difference: {call}{}", lending.words());
            println!("  library returned {code}, reference {expected_code}");
            Framed::BUFFERS.iter().zip(buffers).for_each(|(name, buffer)| println!("  {name} {}", start(buffer)));
            words.iter().for_each(|what| println!("  {what}"));
            self.differ();
        }
        call.note(&mut self.coverage, expected_code % 256, lending);
        if let (Some(record), Lending::Apart) = (&mut self.record, lending) {
            record.offer(Framed::KIND, || call.numbers(), &buffers, expected_code, &expected[COUNT - 1][FRONT..]);
        }
        self.buffers[COUNT - 1].last(buffers[COUNT - 1].len()).to_vec()
    }

    /// Compares what the library answered to a score with what it answered before so many whole-cube turns of both frames.
    pub fn compare_after_turns(&mut self, call: &ScoreCall, turns: usize, before: &[u8], after: &[u8]) {
        if before != after {
            println!("difference: {call}, after {turns} whole-cube turns");
            println!("  answer {}, before the turns {}", text(after), text(before));
            self.differ();
        }
        self.coverage.add(ScoreCall::NAME, "whole-cube turns before it", turns as i128);
    }

    /// A buffer behind random bytes.
    fn with_front(&mut self, buffer: &[u8]) -> Vec<u8> {
        let mut front = [0; FRONT];
        self.random.fill(&mut front);
        [&front, buffer].concat()
    }

    /// Counts a difference that was shown.
    fn differ(&mut self) {
        self.differences += 1;
        if self.differences == ENOUGH {
            println!("stopped after {ENOUGH} differences");
            std::process::exit(1);
        }
    }
}

/// The position of the first buffer with the same bytes as this one, where both are only read; else its own position.
fn first_same(buffers: &[&[u8]], position: usize) -> usize {
    let only_read = &buffers[..buffers.len() - 1];
    let same = only_read.iter().position(|buffer| *buffer == buffers[position]);
    same.filter(|_| position < only_read.len()).unwrap_or(position)
}

/// The first byte that differs, counted from the first behind the front, and how many differ.
fn first_difference(after: &[u8], expected: &[u8]) -> Option<String> {
    if after == expected {
        return None;
    }
    let mut positions = (0..expected.len()).filter(|&position| after[position] != expected[position]);
    let first = positions.next()?;
    let (byte, expected_byte, offset) = (after[first], expected[first], first as i64 - FRONT as i64);
    let more = positions.count();
    Some(format!(
        "byte {offset} is {byte:02x} with the library, {expected_byte:02x} with the reference; {more} more bytes differ"
    ))
}

fn hexadecimal(memory: &[u8]) -> String {
    format!("{} | {}", text(&memory[..FRONT]), text(&memory[FRONT..]))
}

fn start(buffer: &[u8]) -> String {
    format!("{}{}", text(&buffer[..buffer.len().min(SHOWN)]), if buffer.len() > SHOWN { " .." } else { "" })
}

fn text(bytes: &[u8]) -> String {
    bytes.iter().map(|byte| format!("{byte:02x}")).collect()
}
