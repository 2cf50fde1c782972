//! Counts from frame to frame: repeats, steps, gaps, and the first frame.

use super::{
    after_5, frame, fresh, idle, octets, taken, Case, Gives, Step, BOTH, GIVEN_UP, IDLE, QUIET,
};
use crate::frames::Frames;

/// A packet of 8 octets, cut after 6.
const FRONT: &str = "00 2A C0 05 00 01";
/// Its end, then a packet of one octet and one of five.
const FIELD: &str = "AA BB E0 E9 05 11 22 33";

pub fn cases() -> Vec<Case> {
    [
        worked(),
        counts(),
        repeats(),
        not_started(),
        several_repeats(),
    ]
    .into_iter()
    .flatten()
    .collect()
}

/// The packets of the field behind such an offset.
fn out(pointer: usize, finished: bool) -> Vec<Vec<u8>> {
    let whole = octets("00 2A C0 05 00 01 AA BB");
    let behind = match pointer {
        2 => vec![octets("E0"), octets("E9 05 11 22 33")],
        3 => vec![octets("E9 05 11 22 33")],
        _ => Vec::new(),
    };
    let front = finished.then_some(whole);
    front.into_iter().chain(behind).collect()
}

fn gives(pointer: usize, finished: bool, given_up: bool) -> Gives {
    let out = out(pointer, finished);
    let out: Vec<&[u8]> = out.iter().map(|packet| &packet[..]).collect();
    taken(&out, [given_up, false], &[])
}

/// Two frames, the second with every answer that it can get.
fn worked() -> Vec<Case> {
    let first = octets("E0 E0 00 2A C0 05 00 01");
    let front = octets(FRONT);
    let first = frame(0, 0, &first, taken(&[&[0xE0], &[0xE0]], QUIET, &front));
    let all = [
        (1, 2, gives(2, true, false)),
        (2, 2, gives(2, false, true)),
        (1, 3, gives(3, false, true)),
        (1, 2_047, gives(8, false, true)),
        (2, 2_047, gives(8, false, true)),
        (1, 2_046, gives(8, false, true)),
        (0, 2, Gives::Repeat),
        (1, 8, Gives::Refused(28)),
        (256, 2, Gives::Refused(28)),
        (1, 2_045, Gives::Refused(28)),
    ];
    let case = |(count, pointer, gives): (u32, u32, Gives)| {
        let second = frame(count, pointer, &octets(FIELD), gives);
        let name = format!("a second frame of count {count} and pointer {pointer}");
        fresh(name, vec![first.clone(), second])
    };
    all.into_iter().map(case).collect()
}

/// After each count the next one alone is in step, mod 256.
fn counts() -> Vec<Case> {
    let mut cases = Vec::new();
    for (before, count, in_step) in [
        (255, 0, true),
        (0, 1, true),
        (254, 255, true),
        (127, 128, true),
        (255, 1, false),
        (254, 0, false),
        (0, 255, false),
        (1, 0, false),
        (0, 2, false),
        (5, 4, false),
        (5, 133, false),
    ] {
        cases.push(Case {
            name: format!("count {before}, then {count}"),
            state: Frames {
                started: true,
                count: before,
                piece: 6,
            },
            piece: octets(FRONT),
            steps: vec![frame(count, 2, &octets(FIELD), gives(2, in_step, !in_step))],
        });
    }
    cases
}

/// A repeat is told by the count alone, whatever else the frame is.
fn repeats() -> Vec<Case> {
    let mut cases = Vec::new();
    for pointer in [0, 2, 7, 2_046, 2_047] {
        for piece in [octets(FRONT), Vec::new()] {
            let name = format!("a repeat with pointer {pointer}");
            let step = frame(5, pointer, &octets(FIELD), Gives::Repeat);
            cases.push(after_5(name, &piece, step));
        }
    }
    cases
}

/// A piece and no frame before it: no count is a repeat or out of step, and the
/// pointer judges the piece.
fn not_started() -> Vec<Case> {
    let mut cases = Vec::new();
    for count in [0, 5, 6, 7, 255] {
        for (pointer, gives) in [
            (2, gives(2, true, false)),
            (3, gives(3, false, true)),
            (2_046, gives(8, false, true)),
            (2_047, gives(8, false, true)),
        ] {
            cases.push(Case {
                name: format!("a piece, no frame before, count {count}, pointer {pointer}"),
                state: Frames {
                    started: false,
                    count: 5,
                    piece: 6,
                },
                piece: octets(FRONT),
                steps: vec![frame(count, pointer, &octets(FIELD), gives)],
            });
        }
    }
    cases
}

/// The frame once more.
fn again(step: &Step) -> Step {
    Step {
        gives: Gives::Repeat,
        ..step.clone()
    }
}

/// A frame that comes again and again, and those that become the frame before:
/// idle ones, dropped ones and those that give up a piece.
fn several_repeats() -> Vec<Case> {
    let front = octets("E0 E0 00 2A C0 05 00 01");
    let first = frame(9, 0, &front, taken(&[IDLE; 2], QUIET, &front[2..]));
    let second = frame(10, 2, &octets(FIELD), gives(2, true, false));
    let nothing = frame(10, 0, &[0x20; 8], taken(&[], BOTH, &[]));
    let repeated = vec![
        first.clone(),
        again(&first),
        again(&first),
        second.clone(),
        again(&second),
        frame(11, 0, &[0xE0; 8], idle(8)),
    ];
    let refused = vec![
        first.clone(),
        frame(10, 2, &[0xE0; 7], Gives::Refused(28)),
        again(&first),
        frame(10, 8, &octets(FIELD), Gives::Refused(28)),
        second,
    ];
    let dropped = vec![first.clone(), nothing.clone(), again(&nothing)];
    vec![
        fresh("frames that come again", repeated),
        fresh("refused frames between", refused),
        fresh("a dropped field that comes again", dropped),
        fresh("idle-only frames", idle_only(first)),
    ]
}

/// After a first frame that leaves a piece.
fn idle_only(first: Step) -> Vec<Step> {
    let empty = frame(10, 2_046, &[0x20; 8], taken(&[], GIVEN_UP, &[]));
    vec![
        first,
        empty.clone(),
        again(&empty),
        frame(11, 2_046, &[0; 8], idle(0)),
        frame(12, 2, &octets(FIELD), gives(2, false, false)),
        frame(12, 0, &[0xE0; 8], Gives::Repeat),
    ]
}
