//! Lays another program's answers beside this program's own.

use crate::cases;
use crate::hex::{self, SHOWN};
use crate::inputs::{self, Inputs};
use crate::lister::listing;
use std::ffi::OsString;
use std::io::{self, Read, Write};
use std::process::{Command, Stdio};
use std::thread;

/// The number of inputs that gave the same, or the first difference.
pub type Comparison = Result<usize, String>;

/// Compares with a program that lists.
pub fn compare_listings(program: &[OsString]) -> Comparison {
    compare(program, &inputs::all(), listing)
}

/// Compares with a program that prints cases, on those of reading and walking
/// each input. A text holds as many of them as may be.
pub fn compare_cases(program: &[OsString]) -> Comparison {
    let inputs = inputs::short();
    let mut texts = Inputs::from([Vec::new()]);
    for input in &inputs {
        let octets = hex::after_blanks(input);
        let lines = format!("read{octets}\nwalk{octets}\n").into_bytes();
        match texts.last_mut() {
            Some(text) if text.len() + lines.len() <= cases::LONGEST => text.extend(lines),
            _ => texts.push(lines),
        }
    }
    compare(program, &texts, |text| {
        cases::text(text).expect("every line is a case")
    })?;
    Ok(inputs.len())
}

fn compare(program: &[OsString], inputs: &Inputs, expect: fn(&[u8]) -> String) -> Comparison {
    for input in inputs {
        let expected = expect(input);
        let came = answer(program, input).map_err(|fault| about_input(input) + &fault)?;
        if came != expected.as_bytes() {
            return Err(about_input(input) + &difference(expected.as_bytes(), &came));
        }
    }
    Ok(inputs.len())
}

/// What the program writes for this input. A program that ends badly has not
/// answered, whatever it wrote.
pub fn answer(program: &[OsString], input: &[u8]) -> Result<Vec<u8>, String> {
    let fault = |error: io::Error| format!("the program can't be run: {error}");
    let mut child = Command::new(&program[0])
        .args(&program[1..])
        .stdin(Stdio::piped())
        .stdout(Stdio::piped())
        .spawn()
        .map_err(fault)?;
    let mut stdin = child.stdin.take().expect("its input is a pipe");
    let mut stdout = child.stdout.take().expect("its output is a pipe");
    let mut came = Vec::new();
    let read = thread::scope(|scope| {
        // From a thread of its own: the program may fill its output before it
        // has read its input. It may also stop reading early, which is no fault.
        scope.spawn(move || {
            let _ = stdin.write_all(input);
        });
        stdout.read_to_end(&mut came)
    });
    let status = child.wait().map_err(fault)?;
    read.map_err(fault)?;
    match status.code() {
        Some(0) => Ok(came),
        _ => Err(format!("the program ended badly: {status}")),
    }
}

pub fn about_input(input: &[u8]) -> String {
    format!("input {}\n", hex::cut(input))
}

/// Both texts around the first line in which they differ.
pub fn difference(expected: &[u8], came: &[u8]) -> String {
    let expected: Vec<&[u8]> = expected.split_inclusive(|octet| *octet == b'\n').collect();
    let came: Vec<&[u8]> = came.split_inclusive(|octet| *octet == b'\n').collect();
    let same = alike(&expected, &came);
    // A case repeats its input, so the difference may lie far along the line.
    let from = match (expected.get(same), came.get(same)) {
        (Some(one), Some(other)) => alike(one, other).saturating_sub(SHOWN / 2),
        _ => 0,
    };
    let expected = around(&expected, same, from);
    let came = around(&came, same, from);
    format!(
        "first difference in line {}\nexpected:\n{expected}came:\n{came}",
        same + 1
    )
}

/// How many of the first lines, or octets, are the same.
fn alike<T: PartialEq>(one: &[T], other: &[T]) -> usize {
    let pairs = one.iter().zip(other);
    pairs.take_while(|(one, other)| one == other).count()
}

/// The line at this place, shown from this octet on, with one before it and
/// one after it.
fn around(lines: &[&[u8]], place: usize, from: usize) -> String {
    let last = lines.len().min(place + 2);
    let first = last.min(place.saturating_sub(1));
    let mut text = String::new();
    for (number, line) in lines.iter().enumerate().take(last).skip(first) {
        let skipped = if number == place { from } else { 0 };
        let left_out = if skipped > 0 { "... " } else { "" };
        let rest = &line[skipped..];
        let shown = rest[..rest.len().min(SHOWN)].escape_ascii();
        text.push_str(&format!("  {}: {left_out}{shown}\n", number + 1));
    }
    if place >= lines.len() {
        text.push_str("  (nothing more)\n");
    }
    text
}

#[cfg(test)]
mod tests {
    use super::*;

    #[test]
    fn shows_the_lines_about_a_difference() {
        let shown = difference(b"a\nb\nc\nd\n", b"a\nb\nX\nd\n");
        assert!(shown.starts_with("first difference in line 3\n"));
        assert!(shown.contains("expected:\n  2: b\\n\n  3: c\\n\n  4: d\\n\n"));
        assert!(shown.ends_with("came:\n  2: b\\n\n  3: X\\n\n  4: d\\n\n"));
    }

    #[test]
    fn shows_an_end_that_comes_early_or_late() {
        let shown = difference(b"a\nend 0 0\n", b"a\nend 0 0");
        assert!(shown.starts_with("first difference in line 2\n"));
        let shown = difference(b"a\n", b"");
        assert!(shown.ends_with("came:\n  (nothing more)\n"));
        let shown = difference(b"a\n", b"a\nb\n");
        assert!(shown.contains("expected:\n  1: a\\n\n  (nothing more)\n"));
    }

    #[test]
    fn shows_a_difference_far_along_a_line() {
        let start = "e0 ".repeat(600);
        let expected = format!("{start}: encap 0\nwalk\n");
        let came = format!("{start}: space 1\nwalk\n");
        let shown = difference(expected.as_bytes(), came.as_bytes());
        assert!(shown.starts_with("first difference in line 1\nexpected:\n  1: ... "));
        assert!(shown.contains(" : encap 0\\n\n  2: walk\\n\ncame:\n  1: ... "));
        assert!(shown.ends_with(" : space 1\\n\n  2: walk\\n\n"));
        assert!(shown.len() < 400);
    }

    #[test]
    fn names_the_input() {
        assert_eq!(about_input(&[0xE0, 1]), "input of 2 octets: e0 01\n");
    }
}
