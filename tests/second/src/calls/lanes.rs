//! The lanes: runs of calls from a fresh start, and calls beside them.
//!
//! - The runs are those of the families on which replays are compared, with
//!   other seeds. This program's own lanes go along with the library's state,
//!   and after each call all numbers of the answer and of the state must be the
//!   same, and every octet of packet, pool and output and of the guards about
//!   them.
//! - Beside the runs, their calls are made with something changed: another lane
//!   number, pool, output or state. What is expected then comes from the
//!   numbers of the state alone.
//! - Whether a state is sound is asked of every state met, and of copies of
//!   some with each of their numbers changed.
//! - One lane takes packets from its opening on until it is full.

mod aside;
pub mod call;
mod changes;
mod checking;
mod full_lane;
mod noted;
mod play;
pub mod sound;

use super::checker::Checker;
use crate::replay::LONGEST_RUN;
use crate::runs::{self, met::Met};

pub use full_lane::fill as full_lane;

const SITUATIONS: &str = "situations met in the runs often enough";

pub fn runs(checker: &mut Checker<'_>) -> Result<(), String> {
    let mut met = Met::default();
    // Files that are too long are not replayed.
    for run in runs::others().filter(|run| run.file.len() <= LONGEST_RUN) {
        let about = |fault| format!("run of seed {} ({})\n{fault}", run.seed, run.name);
        play::play(checker, &run, &mut met).map_err(about)?;
    }
    for _ in 0..met.by_calls()? {
        checker.meet(SITUATIONS);
    }
    Ok(())
}

/// Lines about functions, runs and changes, or what was met too seldom.
pub fn summary(checker: &Checker<'_>) -> Result<String, String> {
    let mut lines = checking::summary(checker)?;
    for thing in [
        play::FRESH_START,
        play::CALLS,
        SITUATIONS,
        full_lane::PACKETS,
    ] {
        lines += &format!("{thing}: {}\n", checker.often(thing)?);
    }
    Ok(lines + &aside::summary(checker)?)
}
