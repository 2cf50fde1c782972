//! Good packets of every kind, and a few wrong ones.

use crate::forge::{EncapHead, SpaceHead};
use crate::hex;
use crate::random::Random;

/// Short good packets, typed by hand: each kind and each header size.
pub fn short_packets() -> Vec<Vec<u8>> {
    let texts = [
        "00 2A C0 05 00 01 AA BB",
        "18 2A 40 07 00 00 99",
        "1F FE FF FF 00 02 01 02 03",
        "07 FF C0 00 00 03 00 00 00 00",
        "08 01 80 01 00 07 E0 E0 E0 E0 E0 E0 E0 E0",
        "E0",
        "E1 02",
        "E1 04 00 00",
        "E9 05 11 22 33",
        "FD 03 E4",
        "E2 00 00 04",
        "EA 40 00 06 12 34",
        "FA 03 00 05 55",
        "FE F0 00 07 01 02 03",
        "E3 50 00 00 00 00 00 08",
        "EB 00 00 00 00 00 00 0A 20 20",
        "FB FF 00 00 00 00 00 09 77",
    ];
    texts.iter().map(|text| hex::octets(text)).collect()
}

/// Packets wrong in one way or in several: at least one for each refusal that
/// more octets can't heal, at each place that it can tell.
pub fn wrong_packets() -> Vec<Vec<u8>> {
    let texts = [
        "20",
        "C0 2A C0 05 00 01 AA BB",
        "0F FF C0 00 00 00 00",
        "1F FF 00 07 FF FF",
        "E9 01",
        "E1 00",
        "EA 00 00 03",
        "FE 90 00 00",
        "FB 01 00 00 00 00 00 00",
        "E3 00 00 00 00 00 00 07",
        "EB 00 00 00 00 01 00 07",
        "FB 03 00 00 80 00 00 09",
        "E4",
        "E9 02",
        "FA 03 00 04",
        "F8",
        "F9 01",
        "EA 13 00 05 55",
        "EB 00 01 00 00 00 00 09 55",
        "FB 03 80 01 00 00 00 08",
        "EB 03 00 01 00 00 00 09 55",
        "FB 03 00 01 00 00 00 09 55",
        "E3 00 00 01 00 01 00 07",
    ];
    texts.iter().map(|text| hex::octets(text)).collect()
}

/// A good packet of either kind.
pub fn packet(random: &mut Random) -> Vec<u8> {
    if random.one_in(2) {
        space(random)
    } else {
        encap(random)
    }
}

pub fn space(random: &mut Random) -> Vec<u8> {
    let any = random.below(2_048);
    let apid = random.pick(&[0, 1, 42, 1_024, 2_046, 2_047, any]);
    let any = random.below(16_384);
    let head = SpaceHead {
        packet_type: random.below(2),
        secondary: if apid == 2_047 { 0 } else { random.below(2) },
        apid,
        flags: random.below(4),
        count: random.pick(&[0, 1, 255, 256, 16_383, any]),
    };
    let octets = size(random).max(1);
    head.with(&random.octets(octets))
}

fn encap(random: &mut Random) -> Vec<u8> {
    let length_of_length = random.between(0, 3);
    let (any, any_nibble) = (random.below(8), random.below(16));
    let protocol = match length_of_length {
        0 => 0,
        1 => random.pick(&[0, 1, 2, 3, 4, 5, 7]),
        _ => random.pick(&[6, any, any, any]),
    };
    let head = EncapHead {
        protocol,
        length_of_length,
        // Laid only in a header that has room for it.
        user: random.pick(&[0, any_nibble]),
        extension: if protocol == 6 { random.below(16) } else { 0 },
        ccsds: 0,
    };
    encap_of(head, random)
}

/// A good packet with this head, if the head is good.
pub fn encap_of(head: EncapHead, random: &mut Random) -> Vec<u8> {
    // Only protocol 0 may be without content.
    let fewest = usize::from(head.protocol != 0);
    let most = [0, 253, 65_531, 65_534][head.length_of_length];
    let octets = size(random).clamp(fewest, most);
    head.with(&random.octets(octets))
}

/// Mostly few octets, at times about as many as one length octet can count,
/// seldom many.
fn size(random: &mut Random) -> usize {
    match random.below(40) {
        0 => random.between(500, 3_000),
        1..=4 => random.between(245, 262),
        5..=9 => 0,
        _ => random.between(1, 12),
    }
}
