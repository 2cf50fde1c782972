//! Both sides of every limit of 28 and 9, and the order of the refusals.

use super::{after_5, frame, fresh, idle, taken, Case, Gives, Step, IDLE, QUIET};
use crate::frames::Frames;

pub fn cases() -> Vec<Case> {
    [fields(), pointers(), counts(), rooms(), states(), orders()]
        .into_iter()
        .flatten()
        .collect()
}

fn fields() -> Vec<Case> {
    let cut_to_16_bits = 65_536 + 8;
    let wrong = [0, 1, 7, 2_047, 2_048, 8_192, 65_535, cut_to_16_bits];
    let wrong = wrong.map(|octets| (octets, Gives::Refused(28)));
    let right = [8, 9, 2_045, 2_046].map(|octets| (octets, idle(octets)));
    let all = wrong.into_iter().chain(right);
    all.map(|(octets, gives)| {
        let name = format!("a field of {octets} octets");
        fresh(name, vec![frame(0, 0, &vec![0xE0; octets], gives)])
    })
    .collect()
}

/// Offsets by the field's length. Without a piece, 2046 and 2047 leave nothing.
fn pointers() -> Vec<Case> {
    let mut cases = Vec::new();
    for octets in [8_usize, 9, 100, 2_045, 2_046] {
        let end = octets as u32;
        let far = [2_048, 2_049, 4_095, 4_096, 65_536, 1 << 31, u32::MAX];
        let cut = [1 << 11, 1 << 16, 1 << 24].map(|wrap| wrap + end - 1);
        let offset = |pointer: u32| match pointer < end {
            true => idle(octets - pointer as usize),
            false => Gives::Refused(28),
        };
        let near = [0, 1, end - 2, end - 1, end, end + 1, 2_044, 2_045];
        let near = near.into_iter().filter(|pointer| *pointer < 2_046);
        let mut pointers: Vec<(u32, Gives)> = near.map(|near| (near, offset(near))).collect();
        pointers.extend(
            far.into_iter()
                .chain(cut)
                .map(|far| (far, Gives::Refused(28))),
        );
        pointers.extend([2_046, 2_047].map(|pointer| (pointer, idle(0))));
        for (pointer, gives) in pointers {
            let name = format!("pointer {pointer} in a field of {octets} octets");
            let step = frame(7, pointer, &vec![0xE0; octets], gives);
            cases.push(fresh(name, vec![step]));
        }
    }
    cases
}

fn counts() -> Vec<Case> {
    let wrong = [256, 257, 511, 65_535, 65_536, 1 << 31, u32::MAX];
    let wrong = wrong.map(|count| (count, Gives::Refused(28)));
    let right = [0, 1, 254, 255].map(|count| (count, idle(8)));
    let all = wrong.into_iter().chain(right);
    all.map(|(count, gives)| {
        let name = format!("count {count}");
        fresh(name, vec![frame(count, 0, &[0xE0; 8], gives)])
    })
    .collect()
}

fn lent(buffer: usize, room: usize, gives: Gives) -> Step {
    Step {
        buffer,
        room,
        ..frame(6, 0, &[0xE0; 8], gives)
    }
}

/// Buffers and outputs, whatever there is to write.
fn rooms() -> Vec<Case> {
    let refused = Gives::Refused;
    let all = [
        (0, 10_238, refused(28)),
        (8_191, 10_238, refused(28)),
        (8_192, 10_238, idle(8)),
        (8_193, 10_238, refused(28)),
        (16_384, 10_238, refused(28)),
        (8_192 + 65_536, 10_238, refused(28)),
        (8_192, 0, refused(9)),
        (8_192, 8, refused(9)),
        (8_192, 10_236, refused(9)),
        (8_192, 10_237, refused(9)),
        (8_192, 10_239, idle(8)),
        (8_192, 65_536, idle(8)),
    ];
    let case = |(buffer, room, gives): (usize, usize, Gives)| {
        let name = format!("a buffer of {buffer} octets and an output of {room}");
        after_5(name, &[], lent(buffer, room, gives))
    };
    all.into_iter().map(case).collect()
}

/// What the state says of its piece, and what is said of a frame that came
/// before where none did.
fn states() -> Vec<Case> {
    let mut cases = Vec::new();
    let state = |started, count, piece| Frames {
        started,
        count,
        piece,
    };
    let pieces = [8_192, 8_193, 65_536, 65_537, 1 << 32, usize::MAX];
    for piece in pieces {
        for started in [false, true] {
            cases.push(Case {
                name: format!("a state with a piece of {piece} octets"),
                state: state(started, 5, piece),
                piece: Vec::new(),
                steps: vec![frame(6, 0, &[0xE0; 8], Gives::Refused(28))],
            });
        }
    }
    // All E0, the piece is many packets and no beginning of one.
    let given_up = taken(&[IDLE; 8], [true, false], &[]);
    cases.push(after_5(
        "a piece of 8191 octets",
        &[0xE0; 8_191],
        frame(6, 0, &[0xE0; 8], given_up),
    ));
    for count in [0, 5, 255] {
        cases.push(Case {
            name: format!("no frame before, and yet its count {count}"),
            state: state(false, count, 0),
            piece: Vec::new(),
            steps: vec![frame(count.into(), 0, &[0xE0; 8], idle(8))],
        });
    }
    cases
}

/// 28 comes before 9, and both before a repeat.
fn orders() -> Vec<Case> {
    let all = [
        ("28 before 9", 256, 8_192, 0, Gives::Refused(28)),
        ("28 before 9", 6, 8_191, 10_237, Gives::Refused(28)),
        ("28 before a repeat", 5, 8_191, 10_238, Gives::Refused(28)),
        ("9 before a repeat", 5, 8_192, 10_237, Gives::Refused(9)),
        ("a repeat", 5, 8_192, 10_238, Gives::Repeat),
        ("no repeat", 6, 8_192, 10_238, taken(&[IDLE; 8], QUIET, &[])),
    ];
    let case = |(name, count, buffer, room, gives): (&str, u32, usize, usize, Gives)| {
        let step = Step {
            count,
            ..lent(buffer, room, gives)
        };
        after_5(name, &[], step)
    };
    all.into_iter().map(case).collect()
}
