//! Packets about the longest that come out, over many frames.

use super::{
    after_5, data, encap, frame, fresh, space, taken, Case, Given, Gives, Step, DROPPED, GIVEN_UP,
    IDLE, QUIET,
};

pub fn cases() -> Vec<Case> {
    [
        five_frames(),
        one_more(),
        last_octets(),
        middles(),
        most_output(),
    ]
    .into_iter()
    .flatten()
    .collect()
}

/// The frames that hold a packet, each field as long as may be: the first of
/// them at pointer 0, those in the middle with 2047.
fn long_run(packet: &[u8]) -> Vec<Step> {
    let mut steps = Vec::new();
    for (place, field) in packet[..8_184].chunks(2_046).enumerate() {
        let pointer = if place == 0 { 0 } else { 2_047 };
        let so_far = &packet[..2_046 * (place + 1)];
        let count = (254 + place as u32) % 256;
        steps.push(frame(count, pointer, field, taken(&[], QUIET, so_far)));
    }
    steps
}

/// 4 x 2,046 octets, and eight in the fifth frame.
fn five_frames() -> Vec<Case> {
    let mut cases = Vec::new();
    for packet in [space(8_192), encap(8_192)] {
        let mut alone = long_run(&packet);
        alone.push(frame(
            2,
            2_047,
            &packet[8_184..],
            taken(&[&packet], QUIET, &[]),
        ));
        cases.push(fresh("8,192 octets in five frames", alone));
        let mut more = long_run(&packet);
        let field = [&packet[8_184..], &[0xE0; 3], &packet[..9]].concat();
        let out: [&[u8]; 4] = [&packet, &[0xE0], &[0xE0], &[0xE0]];
        more.push(frame(2, 8, &field, taken(&out, QUIET, &packet[..9])));
        cases.push(fresh("8,192 octets in five frames, and more", more));
        let mut lost = long_run(&packet);
        lost.remove(2);
        lost.truncate(3);
        lost[2].gives = taken(&[], GIVEN_UP, &[]);
        cases.push(fresh("8,192 octets, a middle frame lost", lost));
    }
    cases
}

/// A packet of 8,193 octets drops the field in which it begins, and of the
/// others nothing comes out before a packet begins.
fn one_more() -> Vec<Case> {
    let mut cases = Vec::new();
    for packet in [space(8_193), encap(8_193)] {
        let nothing = taken(&[], QUIET, &[]);
        let mut steps = long_run(&packet);
        steps
            .iter_mut()
            .for_each(|step| step.gives = nothing.clone());
        steps[0].gives = taken(&[], DROPPED, &[]);
        let field = [&packet[8_184..], &[0xE0; 2]].concat();
        steps.push(frame(2, 9, &field, taken(&[IDLE; 2], QUIET, &[])));
        cases.push(fresh("8,193 octets in five frames", steps));
    }
    cases
}

/// Pieces of which only few octets lack, as they may be handed in: whether the
/// packet has 8,192 octets, or more.
fn last_octets() -> Vec<Case> {
    let mut cases = Vec::new();
    for make in [space as fn(usize) -> Vec<u8>, encap] {
        for (octets, piece) in [
            (8_192, 8_191),
            (8_192, 8_190),
            (8_191, 8_190),
            (8_192, 7_000),
        ] {
            let packet = make(octets);
            let field = [&packet[piece..], &[0xE0; 8]].concat();
            let lead = (octets - piece) as u32;
            let out = [&[&packet[..]], &vec![IDLE; 8][..]].concat();
            let name = format!("a piece of {piece} octets of {octets}");
            let step = frame(6, lead, &field, taken(&out, QUIET, &[]));
            cases.push(after_5(name, &packet[..piece], step));
        }
        for (octets, piece) in [(8_193, 8_191), (8_193, 8_190), (8_193, 8), (10_000, 8_191)] {
            let packet = make(octets);
            let lead = (octets - piece).min(1_900);
            let field = [&packet[piece..piece + lead], &[0xE0; 8]].concat();
            let name = format!("a piece of {piece} octets of {octets}");
            let gives = taken(&[IDLE; 8], GIVEN_UP, &[]);
            let step = frame(6, lead as u32, &field, gives);
            cases.push(after_5(name, &packet[..piece], step));
        }
    }
    cases
}

/// 2047 with a long piece: it may become one of 8,191 octets or a whole packet.
fn middles() -> Vec<Case> {
    let middle = |octets: usize, piece: usize, field: usize, gives: fn(&[u8], usize) -> Gives| {
        let packet = [space(octets), data(2_046)].concat();
        let end = piece + field;
        let step = frame(6, 2_047, &packet[piece..end], gives(&packet, end));
        let name = format!("{piece} octets of {octets}, and {field} more");
        after_5(name, &packet[..piece], step)
    };
    let longer = |packet: &[u8], end: usize| taken(&[], QUIET, &packet[..end]);
    let whole = |packet: &[u8], end: usize| taken(&[&packet[..end]], QUIET, &[]);
    let given_up = |_: &[u8], _: usize| taken(&[], GIVEN_UP, &[]);
    vec![
        middle(8_192, 8_183, 8, longer),
        middle(8_192, 8_184, 8, whole),
        middle(8_192, 8_185, 8, given_up),
        middle(8_192, 8_191, 8, given_up),
        middle(8_193, 8_183, 8, given_up),
        middle(8_193, 8_185, 8, given_up),
        middle(8_191, 8_183, 8, whole),
        middle(8_192, 6_145, 2_046, longer),
        middle(8_192, 6_146, 2_046, whole),
        middle(8_192, 6_147, 2_046, given_up),
        middle(8_192, 8_191, 2_046, given_up),
    ]
}

/// The most that can come out of one frame: 8,192 octets and 2,045 more.
fn most_output() -> Vec<Case> {
    let packet = space(8_192);
    let field = [&packet[8_191..], &[0xE0; 2_045]].concat();
    let gives = Gives::Taken(Given {
        packets: 2_046,
        out: [&packet[..], &[0xE0; 2_045]].concat(),
        given_up: false,
        dropped: false,
        piece: Vec::new(),
    });
    let step = frame(6, 1, &field, gives);
    vec![after_5("10,237 octets come out", &packet[..8_191], step)]
}
