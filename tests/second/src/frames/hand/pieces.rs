//! Pieces and pointers: what goes on, what contradicts, what is left at the end
//! of a field, and what drops its rest.

use super::{
    after_5, data, frame, fresh, octets, space, taken, Case, Gives, BOTH, DROPPED, GIVEN_UP, IDLE,
    QUIET,
};

pub fn cases() -> Vec<Case> {
    [
        goes_on(),
        whole_pieces(),
        no_packet(),
        no_piece(),
        wrong_pieces(),
        ends(),
        drops(),
        resumes(),
    ]
    .into_iter()
    .flatten()
    .collect()
}

/// A packet of 20 octets, cut at every place; its end, then idle octets. Only
/// the right pointer finishes it: the others give it up and read on.
fn goes_on() -> Vec<Case> {
    let packet = space(20);
    let mut cases = Vec::new();
    for cut in 1..20 {
        let end = &packet[cut..];
        let field = [end, &[0xE0; 9]].concat();
        let right = end.len();
        let idle = [IDLE; 9];
        let whole = [&[&packet[..]], &idle[..]].concat();
        let step = frame(6, right as u32, &field, taken(&whole, QUIET, &[]));
        cases.push(after_5(
            format!("a packet cut at {cut}"),
            &packet[..cut],
            step,
        ));
        let late = taken(&idle[1..], GIVEN_UP, &[]);
        let step = frame(6, right as u32 + 1, &field, late);
        cases.push(after_5("a pointer one too far", &packet[..cut], step));
    }
    // One too near: the last octet of the packet is read as another's first.
    let field = [&packet[12..19], &[0xE0; 9]].concat();
    let step = frame(6, 7, &field, taken(&[IDLE; 9], GIVEN_UP, &[]));
    cases.push(after_5("a pointer one too near", &packet[..12], step));
    let step = frame(6, 0, &[0xE0; 9], taken(&[IDLE; 9], GIVEN_UP, &[]));
    cases.push(after_5(
        "pointer 0 with an unfinished piece",
        &packet[..12],
        step,
    ));
    let step = frame(6, 0, &packet, taken(&[&packet], GIVEN_UP, &[]));
    cases.push(after_5(
        "pointer 0, and the packet anew",
        &packet[..19],
        step,
    ));
    cases
}

/// Pieces that are whole packets, which no run from a fresh start leaves.
fn whole_pieces() -> Vec<Case> {
    let packet = space(20);
    let twice = packet.repeat(2);
    let whole = |piece: &[u8], pointer, gives| {
        let name = format!("a piece that is whole, pointer {pointer}");
        after_5(name, piece, frame(6, pointer, &[0xE0; 8], gives))
    };
    let first = |packet: &[u8]| {
        let out = [&[packet][..], &[IDLE; 8]].concat();
        taken(&out, QUIET, &[])
    };
    let given_up = |packets: usize| taken(&vec![IDLE; packets], GIVEN_UP, &[]);
    vec![
        whole(&packet, 0, first(&packet)),
        whole(&[0xE0], 0, first(&[0xE0])),
        whole(&twice, 0, given_up(8)),
        whole(&[0xE0; 2], 0, given_up(8)),
        whole(&packet, 1, given_up(7)),
        whole(&packet, 2_047, given_up(0)),
        whole(&packet, 2_046, given_up(0)),
    ]
}

/// 2047: the field ends the packet, goes on with it, or has too much.
fn no_packet() -> Vec<Case> {
    let packet = space(40);
    let case = |name: &str, cut: usize, end: usize, gives| {
        let step = frame(6, 2_047, &packet[cut..end], gives);
        after_5(format!("{name}, pointer 2047"), &packet[..cut], step)
    };
    let longer = [&packet[20..], &[0xE0]].concat();
    let after = frame(6, 2_047, &longer, taken(&[], GIVEN_UP, &[]));
    vec![
        case("the end of a packet", 20, 40, taken(&[&packet], QUIET, &[])),
        case(
            "the end, the piece of one octet",
            1,
            40,
            taken(&[&packet], QUIET, &[]),
        ),
        case("the middle", 20, 39, taken(&[], QUIET, &packet[..39])),
        case("the shortest middle", 1, 9, taken(&[], QUIET, &packet[..9])),
        after_5("the end and one octet, pointer 2047", &packet[..20], after),
    ]
}

/// An empty piece allows pointer 0 alone: others find nothing to give up, and
/// what lies before them is not read.
fn no_piece() -> Vec<Case> {
    let packet = space(20);
    let field = [&[0xE0], &packet[..]].concat();
    let front = &packet[..11];
    let cases = [
        (0, &field[..], taken(&[&[0xE0], &packet], QUIET, &[])),
        (1, &field[..], taken(&[&packet], QUIET, &[])),
        (0, front, taken(&[], QUIET, front)),
        (2_046, front, taken(&[], QUIET, &[])),
        (2_047, front, taken(&[], QUIET, &[])),
        (2_046, &packet[..], taken(&[], QUIET, &[])),
        (2_047, &packet[..], taken(&[], QUIET, &[])),
        (2_047, &[0x20; 8], taken(&[], QUIET, &[])),
    ];
    let mut all = Vec::new();
    for (pointer, field, gives) in cases {
        for count in [6, 7] {
            let name = format!("no piece, count {count}, pointer {pointer}");
            let step = frame(count, pointer, field, gives.clone());
            all.push(after_5(name, &[], step));
        }
        let step = frame(6, pointer, field, gives);
        all.push(fresh(
            format!("no frame before, pointer {pointer}"),
            vec![step],
        ));
    }
    all
}

/// Pieces that begin no packet, or one that is too long, once their header is
/// whole; with E0 after them it is so, and so soon.
const WRONG: [&str; 9] = [
    "20",
    "E4",
    "F8",
    "F9",
    "0F FF C0 00 00",
    "EA 13",
    "EB 00 00 01",
    "EA",
    "00 2A C0 05",
];

fn wrong_pieces() -> Vec<Case> {
    let mut cases = Vec::new();
    for text in WRONG {
        for (pointer, packets) in [(0, 8), (3, 5), (2_046, 0), (2_047, 0)] {
            let gives = taken(&vec![IDLE; packets], GIVEN_UP, &[]);
            let step = frame(6, pointer, &[0xE0; 8], gives);
            let name = format!("the piece {text}, pointer {pointer}");
            cases.push(after_5(name, &octets(text), step));
        }
    }
    // This one claims 224 octets.
    let longer = [&[0xE9][..], &[0xE0; 8]].concat();
    let step = frame(6, 2_047, &[0xE0; 8], taken(&[], QUIET, &longer));
    cases.push(after_5("the piece E9, pointer 2047", &[0xE9], step));
    cases
}

/// What is unfinished where the field ends, wherever it is cut: also headers of
/// which one can tell that more octets won't make them right.
const FRONTS: [&str; 16] = [
    "00",
    "1F",
    "00 2A C0 05 1F",
    "00 2A C0 05 FF",
    "0F FF C0 00 00",
    "00 2A C0 05 00 00",
    "00 2A C0 05 00 01 AA",
    "00 2A C0 05 1F F9",
    "E9",
    "F9",
    "E1",
    "E9 05 11 22",
    "EA 13 00",
    "EA 00 20 00",
    "EB FF FF FF FF FF FF",
    "EB 00 00 00 00 00 20 00",
];

fn ends() -> Vec<Case> {
    let mut cases = Vec::new();
    for text in FRONTS {
        let front = octets(text);
        let field = [&[0xE0; 8], &front[..]].concat();
        let name = format!("{text} at the end of a field");
        let eight = taken(&[IDLE; 8], QUIET, &front);
        cases.push(after_5(name.clone(), &[], frame(6, 0, &field, eight)));
        let given_up = taken(&[IDLE; 3], GIVEN_UP, &front);
        let step = frame(9, 5, &field, given_up.clone());
        cases.push(after_5(name.clone(), &data(8_000), step));
        cases.push(after_5(name, &[1], frame(9, 5, &field, given_up)));
    }
    cases
}

/// What drops the rest of a field: each refusal, and packets of 8,193 octets or
/// more. The first is told in the fields before.
const DROPS: [&str; 17] = [
    "20",
    "C0 2A C0 05 00 01 AA BB",
    "0F FF C0 00 00 00 00",
    "E9 01",
    "E1 00",
    "EA 00 00 03",
    "EB 00 00 00 00 01 00 07",
    "E4",
    "E9 02",
    "F8",
    "F9 03 00",
    "EA 13 00 05 55",
    "EB 00 00 01 00 00 00 09 55",
    "00 2A C0 05 1F FA",
    "00 2A C0 05 FF FF",
    "EA 00 20 01",
    "EB 00 00 00 00 00 20 01",
];

fn drops() -> Vec<Case> {
    let packet = space(20);
    let mut cases = Vec::new();
    for text in DROPS {
        let wrong = octets(text);
        let name = format!("{text} in a field");
        let first = [&wrong[..], &[0xE0; 8]].concat();
        let after_idle = [&[0xE0; 8], &wrong[..]].concat();
        let between = [&[0xE0; 8], &first[..]].concat();
        let eight = taken(&[IDLE; 8], DROPPED, &[]);
        let none = taken(&[], DROPPED, &[]);
        cases.push(after_5(name.clone(), &[], frame(6, 0, &first, none)));
        cases.push(after_5(
            name.clone(),
            &[],
            frame(6, 0, &after_idle, eight.clone()),
        ));
        cases.push(after_5(name.clone(), &[], frame(6, 0, &between, eight)));
        let both = taken(&[IDLE; 3], BOTH, &[]);
        cases.push(after_5(
            name.clone(),
            &packet[..9],
            frame(8, 5, &between, both),
        ));
        let finished = [&packet[9..], &wrong[..]].concat();
        let step = frame(6, 11, &finished, taken(&[&packet], DROPPED, &[]));
        cases.push(after_5(name, &packet[..9], step));
    }
    cases
}

/// A piece given up and a new one in the same frame; and a finished packet with
/// a new piece after it, which is then the one that goes on.
fn resumes() -> Vec<Case> {
    let (packet, next) = (space(30), space(25));
    let field = [&packet[20..], &next[..8]].concat();
    let finished = taken(&[&packet], QUIET, &next[..8]);
    let given_up: Gives = taken(&[], GIVEN_UP, &next[..8]);
    let end = frame(7, 17, &[&next[8..], &[0xE0; 2]].concat(), {
        taken(&[&next, &[0xE0], &[0xE0]], QUIET, &[])
    });
    let mut two = after_5("one packet ends and one begins", &packet[..20], {
        frame(6, 10, &field, finished)
    });
    two.steps.push(end);
    let gap = frame(8, 10, &field, given_up.clone());
    let shorter = frame(6, 10, &field, given_up.clone());
    let longer = frame(6, 10, &field, given_up);
    vec![
        two,
        after_5("a gap, and a new piece", &packet[..20], gap),
        after_5("too short a piece, and a new one", &packet[..19], shorter),
        after_5("too long a piece, and a new one", &packet[..21], longer),
    ]
}
