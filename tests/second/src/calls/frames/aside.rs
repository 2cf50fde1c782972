//! Calls beside a run: the run's next call, made before it with something
//! changed, on a copy of the buffer. The run goes on as if nothing had been.

use super::call::{check, FrameCall};
use crate::calls::checker::Checker;
use crate::frames::{Frame, Frames, BUFFER_OCTETS, LEAST_OUTPUT, LONGEST_PIECE};
use crate::random::Random;

pub const ASIDES: &str = "frames with something changed beside a run";

/// Makes the call with one thing changed, or with several.
pub fn make(
    checker: &mut Checker<'_>,
    random: &mut Random,
    call: &FrameCall<'_>,
) -> Result<(), String> {
    let mut changed = *call;
    let mut buffer = call.buffer.to_vec();
    for _ in 0..random.pick(&[1, 1, 1, 2, 3]) {
        match random.below(6) {
            0 => changed.frame.count = count(random, changed.frame.count),
            1 => changed.frame.pointer = pointer(random, &changed.frame),
            2 => buffer.resize(buffer_octets(random), 0x5B),
            3 => changed.room = room(random),
            _ => changed.state = state(random, &changed),
        }
    }
    changed.buffer = &buffer;
    check(checker, &changed)?;
    checker.meet(ASIDES);
    Ok(())
}

/// Numbers that are as they were if they are cut, and any others.
fn wide(random: &mut Random, number: u32, bits: u32) -> u32 {
    let bit = random.between(bits as usize, 31);
    let far = number.wrapping_add(1 << bit);
    random.pick(&[far, far, number.wrapping_add(1 << bits), u32::MAX])
}

fn count(random: &mut Random, count: u32) -> u32 {
    let any = random.below(256);
    let wide = wide(random, count, 8);
    random.pick(&[wide, 255, 256, any, (count + 1) % 256])
}

fn pointer(random: &mut Random, frame: &Frame<'_>) -> u32 {
    let end = frame.field.len() as u32;
    let any = random.below(end.max(1));
    let wide = wide(random, frame.pointer, 11);
    let near = random.pick(&[0, end.max(1) - 1, end, end + 1]);
    let named = random.pick(&[2_045, 2_046, 2_047, 2_048]);
    random.pick(&[wide, near, near, named, named, any])
}

fn buffer_octets(random: &mut Random) -> usize {
    let any = random.between(0, BUFFER_OCTETS);
    let near = random.pick(&[BUFFER_OCTETS - 1, BUFFER_OCTETS + 1]);
    let far = random.pick(&[0, 1, 2 * BUFFER_OCTETS, BUFFER_OCTETS + 65_536]);
    random.pick(&[near, near, far, any])
}

fn room(random: &mut Random) -> usize {
    let any = random.between(0, LEAST_OUTPUT);
    let near = random.pick(&[LEAST_OUTPUT - 1, LEAST_OUTPUT, LEAST_OUTPUT + 1]);
    let far = random.pick(&[0, 8_192, 65_536, 65_536 + LEAST_OUTPUT - 1]);
    random.pick(&[near, near, far, any])
}

/// Another piece, a frame before or none, or another count of it.
fn state(random: &mut Random, call: &FrameCall<'_>) -> Frames {
    let mut state = call.state;
    match random.below(4) {
        0 => state.started = !state.started,
        1 => {
            let (count, any) = (call.frame.count as u8, random.octet());
            let before = count.wrapping_sub(1);
            state.count = random.pick(&[before, before, count, any]);
        }
        _ => state.piece = piece(random, state.piece),
    }
    state
}

fn piece(random: &mut Random, piece: usize) -> usize {
    let any = random.between(0, LONGEST_PIECE);
    let near = random.pick(&[piece.saturating_sub(1), piece.saturating_add(1), 1, 7, 8]);
    let longest = random.pick(&[LONGEST_PIECE, LONGEST_PIECE + 1]);
    let far = random.pick(&[65_536, 1 << 32, usize::MAX, usize::MAX / 2 + 1]);
    let cut = far.wrapping_add(piece);
    random.pick(&[0, any, near, near, longest, longest, far, cut])
}
