//! Frames: cases by hand, runs from a fresh start, and calls beside them.
//!
//! - The cases by hand are made with the library too.
//! - The runs are those of the families on which texts of frame files are
//!   compared, with other seeds. After each call all numbers of the answer and
//!   of the state must be the same, and every octet of field, buffer and output
//!   and of the guards about them. Where the order promises what comes out of a
//!   run, that is compared as well.
//! - Beside the runs, their calls are made with something changed: counts and
//!   pointers of 32 bits, another buffer, output or state.
//! - Calls are made up by themselves: pieces of packets of every length, with
//!   fields that finish them or nearly do.

mod aside;
pub mod call;
mod play;
mod staged;
pub mod structs;

use super::checker::Checker;
use crate::frames::met::{CALL_NAMES, NAMES};

pub use play::{cases, runs};
pub use staged::calls as staged;

/// What each call answers.
const ANSWERS: [&str; 5] = [
    "take_frame that returns 0",
    "take_frame that returns 9",
    "take_frame that returns 28",
    "take_frame that answers repeat",
    "take_frame that answers taken",
];

/// A line for the function and one for each thing met, or what was met too
/// seldom.
pub fn summary(checker: &Checker<'_>) -> Result<String, String> {
    let mut times = Vec::new();
    for answer in ANSWERS {
        times.push(checker.often(answer)?);
    }
    let named = ANSWERS.iter().zip(&times);
    let parts = named.map(|(answer, times)| {
        let told = answer.trim_start_matches("take_frame that ");
        format!("{told}: {times}")
    });
    let parts: Vec<String> = parts.collect();
    let calls: usize = times[..3].iter().sum();
    let mut lines = format!("take_frame: {calls} calls agree ({})\n", parts.join(", "));
    let things = [play::FRESH_FRAMES, play::CASES, play::CALLS, play::PROMISED];
    let made = [aside::ASIDES, staged::STAGED];
    for thing in things.into_iter().chain(made) {
        lines += &format!("{thing}: {}\n", checker.often(thing)?);
    }
    for name in NAMES.into_iter().chain(CALL_NAMES) {
        lines += &format!("frame {name}: {}\n", checker.often(name)?);
    }
    Ok(lines)
}
