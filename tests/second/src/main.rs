//! The program `second`: lists, replays, takes packets out of frame files,
//! prints the cases, credits files of packets, and compares another program's
//! texts with its own.
//!
//! - `second list` lists standard input;
//! - `second replay` replays the run file on standard input;
//! - `second frames` prints the text of the frame file on standard input;
//! - `second packets` writes the packets that come out of the frame file on
//!   standard input, of any length;
//! - `second cases` prints the cases that stand on standard input (reading,
//!   walking, writing, records, lanes) with their answers;
//! - `second credit STATION:APID:SECONDARY:SHARE:CAP:FILE...` opens one to eight
//!   lanes, lane 0 first, takes one packet of each lane's file in turn until all
//!   files are used up (what can't be read ends a file), closes the lanes, and
//!   prints the 20 octets of each record;
//! - `second compare PROGRAM`, `second compare-replay PROGRAM`,
//!   `second compare-frames PROGRAM` and `second compare-cases PROGRAM` run a
//!   program that should print what `list`, `replay`, `frames` or `cases` does,
//!   on thousands of inputs; that of frames should also write the packets to
//!   file descriptor 3, where that is open.
//!
//! Beside it, the program `calls` compares the C library's functions by calling
//! them.

use second::compare::{self, Comparison};
use second::compare_frames::compare_frames;
use second::compare_replay::compare_replays;
use second::ending::ending;
use second::frames::text;
use second::{cases, credit, lister, replay};
use std::env;
use std::ffi::OsString;
use std::io::{self, Read};
use std::process::ExitCode;

const USAGE: &str = "usage: second list | second replay | second frames | second packets | \
    second cases | \
    second credit STATION:APID:SECONDARY:SHARE:CAP:FILE... | \
    second compare PROGRAM [ARGUMENT...] | second compare-replay PROGRAM [ARGUMENT...] | \
    second compare-frames PROGRAM [ARGUMENT...] | \
    second compare-cases PROGRAM [ARGUMENT...]";

fn main() -> ExitCode {
    let words: Vec<OsString> = env::args_os().skip(1).collect();
    let command = words.first().and_then(|word| word.to_str());
    match (command, words.len()) {
        (Some("list"), 1) => ending(answer(lister::listing, lister::LONGEST_INPUT)),
        (Some("replay"), 1) => ending(answer(replay::text, replay::LONGEST_RUN)),
        (Some("frames"), 1) => ending(answer(text::text, text::LONGEST_FILE)),
        (Some("packets"), 1) => ending(packets()),
        (Some("cases"), 1) => ending(cases_told()),
        (Some("credit"), 2..=9) => ending(credit::records(&words[1..])),
        (Some("compare"), 2..) => {
            ending(compared(compare::compare_listings(&words[1..]), "listed"))
        }
        (Some("compare-replay"), 2..) => ending(compare_replays(&words[1..])),
        (Some("compare-frames"), 2..) => ending(compare_frames(&words[1..])),
        (Some("compare-cases"), 2..) => {
            ending(compared(compare::compare_cases(&words[1..]), "read"))
        }
        _ => {
            eprintln!("{USAGE}");
            ExitCode::from(2)
        }
    }
}

fn answer(text: fn(&[u8]) -> String, longest: usize) -> Result<String, String> {
    let octets = input(longest).map_err(|error| format!("second: {error}"))?;
    Ok(text(&octets))
}

fn packets() -> Result<Vec<u8>, String> {
    let mut file = Vec::new();
    let read = io::stdin().lock().read_to_end(&mut file);
    read.map_err(|error| format!("second: {error}"))?;
    Ok(text::packets(&file))
}

fn cases_told() -> Result<String, String> {
    let octets = input(cases::LONGEST).map_err(|error| format!("second: {error}"))?;
    cases::text(&octets)
}

/// Standard input, kept only as far as is needed to see that it is longer than
/// the longest that counts.
/// The rest is read all the same, so that the sender never meets a closed pipe.
fn input(longest: usize) -> io::Result<Vec<u8>> {
    let mut stdin = io::stdin().lock();
    let mut octets = Vec::new();
    let enough = longest as u64 + 1;
    stdin.by_ref().take(enough).read_to_end(&mut octets)?;
    io::copy(&mut stdin, &mut io::sink())?;
    Ok(octets)
}

fn compared(comparison: Comparison, done: &str) -> Result<String, String> {
    comparison.map(|inputs| format!("{inputs} inputs {done} alike\n"))
}
