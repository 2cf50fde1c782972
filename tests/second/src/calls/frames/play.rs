//! Cases by hand and runs from a fresh start, each call compared.

use super::aside;
use super::call::{check, FrameCall};
use super::structs::{FramedNumbers, FramesNumbers, TAKEN};
use crate::calls::checker::Checker;
use crate::calls::memory::Memory;
use crate::frames::file::FileFrame;
use crate::frames::hand::{self, Case, Given, Gives};
use crate::frames::runs::{self, Run};
use crate::frames::{Frame, Frames, BUFFER_OCTETS, LEAST_OUTPUT};
use crate::random::Random;

pub const FRESH_FRAMES: &str = "fresh starts of frames";
pub const CASES: &str = "frames by hand";
pub const CALLS: &str = "frames in runs from a fresh start";
pub const PROMISED: &str = "runs from which what is promised comes out, and nothing else";

/// A frame file may hold very many frames.
const MOST_FRAMES: usize = 2_000;

pub fn cases(checker: &mut Checker<'_>) -> Result<(), String> {
    for case in hand::all() {
        let about = |fault| format!("case {}\n{fault}", case.name);
        make_case(checker, &case).map_err(about)?;
    }
    Ok(())
}

fn make_case(checker: &mut Checker<'_>, case: &Case) -> Result<(), String> {
    let mut state = case.state;
    let mut buffer = case.piece.clone();
    for step in &case.steps {
        buffer.resize(step.buffer, 0xB5);
        let call = FrameCall {
            state,
            frame: Frame {
                count: step.count,
                pointer: step.pointer,
                field: &step.field,
            },
            buffer: &buffer,
            room: step.room,
        };
        let (answer, after) = check(checker, &call)?;
        let gives = given(&answer, &after);
        if gives != step.gives {
            return Err(format!("expected {:?}\ngot {gives:?}\n", step.gives));
        }
        checker.meet(CASES);
        state = answer.state.into();
        buffer.copy_from_slice(after.piece("piece"));
    }
    Ok(())
}

fn given(answer: &FramedNumbers, after: &Memory) -> Gives {
    match (answer.refusal, answer.kind) {
        (0, TAKEN) => Gives::Taken(Given {
            packets: answer.packets,
            out: after.piece("output")[..answer.octets].to_vec(),
            given_up: answer.given_up == 1,
            dropped: answer.dropped == 1,
            piece: after.piece("piece")[..answer.state.piece].to_vec(),
        }),
        (0, _) => Gives::Repeat,
        (refusal, _) => Gives::Refused(refusal),
    }
}

pub fn runs(checker: &mut Checker<'_>) -> Result<(), String> {
    for run in runs::others() {
        let about = |fault| format!("run of seed {} ({})\n{fault}", run.seed, run.name);
        play(checker, &run).map_err(about)?;
    }
    Ok(())
}

/// Plays a frame file up to its end, or to a frame that is cut off.
fn play(checker: &mut Checker<'_>, run: &Run) -> Result<(), String> {
    let mut random = Random::new(run.seed);
    let mut state = fresh(checker)?;
    // What lies in the buffer at the start doesn't matter, and is any octets.
    let mut buffer = random.octets(BUFFER_OCTETS);
    let (mut rest, mut out) = (&run.file[..], Vec::new());
    for _ in 0..MOST_FRAMES {
        let Ok((frame, octets)) = FileFrame::taken(rest) else {
            break;
        };
        rest = &rest[octets..];
        let call = FrameCall {
            state,
            frame: frame.as_frame(),
            buffer: &buffer,
            room: random.pick(&[LEAST_OUTPUT, LEAST_OUTPUT, LEAST_OUTPUT + 1, 16_384]),
        };
        if random.one_in(3) {
            aside::make(checker, &mut random, &call)?;
        }
        let (answer, after) = check(checker, &call)?;
        out.extend(&after.piece("output")[..answer.octets]);
        state = answer.state.into();
        buffer.copy_from_slice(after.piece("piece"));
        checker.meet(CALLS);
    }
    if let Some(promised) = &run.promised {
        if *promised != out {
            return Err("what came out is not what is promised\n".to_string());
        }
        checker.meet(PROMISED);
    }
    Ok(())
}

fn fresh(checker: &mut Checker<'_>) -> Result<Frames, String> {
    // SAFETY: the function takes nothing.
    let state = unsafe { (checker.library().fresh_frames)() };
    let expected = FramesNumbers::default();
    if state != expected {
        return Err(format!(
            "fresh_frames\nexpected {expected:?}\ngot {state:?}\n"
        ));
    }
    checker.meet(FRESH_FRAMES);
    Ok(state.into())
}
