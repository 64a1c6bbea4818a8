//! The stored runs: files that a person writes, each with an input in hexadecimal and with what `rays` writes for it.
//!
//! Lines that begin with `#` are comments. Then come a line `input`, lines of bytes (`0f 00`, or `3 times 0f 00` for the same
//! bytes three times), a line `output`, and the lines of the listing. No line of a listing begins with `lines`: a line such as
//! `lines 0 to 9: refused 15` stands for the ten lines `0 refused 15` to `9 refused 15`.

use std::fs;
use std::path::{Path, PathBuf};

pub struct StoredRun {
    pub name: String,
    pub input: Vec<u8>,
    pub output: Vec<u8>,
}

/// The runs in the folder's files `*.run`, of which there must be one at least.
pub fn stored_runs(folder: &Path) -> Result<Vec<StoredRun>, String> {
    let unreadable = |error| format!("{} cannot be read: {error}", folder.display());
    let mut paths = Vec::new();
    for entry in fs::read_dir(folder).map_err(unreadable)? {
        paths.push(entry.map_err(unreadable)?.path());
    }
    paths.retain(|path| path.extension().is_some_and(|extension| extension == "run"));
    paths.sort();
    if paths.is_empty() {
        return Err(format!("{} holds no stored run", folder.display()));
    }
    paths.iter().map(stored_run).collect()
}

fn stored_run(path: &PathBuf) -> Result<StoredRun, String> {
    let name = path.display().to_string();
    let text = fs::read_to_string(path).map_err(|error| format!("{name} cannot be read: {error}"))?;
    let mut lines = text.lines().filter(|line| !line.starts_with('#'));
    let unclear = |line: &str| format!("{name}: this line is not understood: {line}");
    if lines.next() != Some("input") {
        return Err(format!("{name}: the first line that is no comment must be `input`"));
    }
    let (mut input, mut output) = (Vec::new(), Vec::new());
    for line in lines.by_ref().take_while(|&line| line != "output") {
        input.extend(bytes(line).ok_or_else(|| unclear(line))?);
    }
    for line in lines {
        output.extend(listed(line).ok_or_else(|| unclear(line))?.into_bytes());
    }
    Ok(StoredRun { name, input, output })
}

/// The bytes of a line of an input.
fn bytes(line: &str) -> Option<Vec<u8>> {
    let (count, digits) = match line.split_once(" times ") {
        Some((count, digits)) => (count.parse().ok()?, digits),
        None => (1, line),
    };
    let bytes: Option<Vec<u8>> = digits.split_whitespace().map(byte).collect();
    Some(bytes?.repeat(count))
}

fn byte(digits: &str) -> Option<u8> {
    u8::from_str_radix(digits, 16).ok().filter(|_| digits.len() == 2)
}

/// What a line of an output stands for.
fn listed(line: &str) -> Option<String> {
    let Some(several) = line.strip_prefix("lines ") else {
        return Some(format!("{line}\n"));
    };
    let (numbers, rest) = several.split_once(": ")?;
    let (first, last) = numbers.split_once(" to ")?;
    let (first, last): (u32, u32) = (first.parse().ok()?, last.parse().ok()?);
    Some((first..=last).map(|number| format!("{number} {rest}\n")).collect())
}
