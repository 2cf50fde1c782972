//! Packets that a lane must refuse for what they are.

use super::moves::Draft;
use crate::forge::EncapHead;
use crate::inputs::packets;
use crate::random::Random;

/// A good packet made wrong, or one of another kind. Where several things are
/// wrong, the order of the refusals shows.
pub fn octets(random: &mut Random, draft: &Draft, secondary: usize) -> Vec<u8> {
    let mut octets = match random.below(24) {
        0..=2 => encap(random),
        3..=6 => unreadable(random),
        7 => cut_late(random, draft),
        _ => wrong_fields(random, *draft, secondary),
    };
    match random.below(6) {
        0 => {
            let after = random.between(1, 9);
            octets.extend(random.octets(after));
        }
        1 => octets.truncate(random.between(0, octets.len().max(1) - 1)),
        2 => octets.truncate(octets.len().max(1) - 1),
        _ => (),
    }
    octets
}

fn unreadable(random: &mut Random) -> Vec<u8> {
    let wrong = packets::wrong_packets();
    wrong[random.between(0, wrong.len() - 1)].clone()
}

/// The front of a packet, of more octets than one octet can count: if the place
/// were cut to that, it would show.
fn cut_late(random: &mut Random, draft: &Draft) -> Vec<u8> {
    let octets = random.between(256, 600);
    let mut packet = draft.head.with(&random.octets(octets));
    packet.truncate(octets);
    packet
}

fn encap(random: &mut Random) -> Vec<u8> {
    let short = EncapHead {
        protocol: random.pick(&[0, 1, 2, 7]),
        length_of_length: random.between(1, 3),
        ..EncapHead::default()
    };
    let idle = EncapHead::default().with(&[]);
    let content = random.octets(3);
    random.pick(&[&idle, &short.with(&content)]).clone()
}

/// One to three of the fields that a lane looks at are changed.
fn wrong_fields(random: &mut Random, mut draft: Draft, secondary: usize) -> Vec<u8> {
    for _ in 0..random.between(1, 3) {
        match random.below(5) {
            0 => draft.head.packet_type = 1,
            1 => draft.head.apid ^= 1 << random.below(11),
            2 => draft.head.apid = 2_047,
            3 => draft.head.secondary ^= 1,
            _ => draft.data = random.between(1, secondary.max(2) - 1),
        }
    }
    draft.head.with(&random.octets(draft.data))
}
