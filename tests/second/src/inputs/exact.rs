//! Inputs that go through fields and places one by one.

use super::{packets, Inputs};
use crate::cases::{self, STARRED};
use crate::forge::{EncapHead, SpaceHead};
use crate::hex;
use crate::random::Random;
use crate::reader::LONGEST_ENCAP;

/// The paper's cases, and the packets that its writing cases begin.
pub fn paper_cases() -> Inputs {
    let mut inputs: Inputs = STARRED.iter().map(|text| hex::octets(text)).collect();
    inputs.extend(cases::packets());
    for (start, content) in [("E9 FF", 253), ("EA 00 01 02", 254)] {
        inputs.push([hex::octets(start), vec![0x5A; content]].concat());
    }
    inputs
}

/// Each first octet alone, then before some fixed and some random octets.
pub fn first_octets() -> Inputs {
    let tails = [
        "",
        "00",
        "05 11 22 33",
        "03 00 05 55 E0",
        "00 00 00 00 00 00 00 00 00",
        "00 00 00 00 00 00 09 77 20",
        "FF FF FF FF FF FF FF FF",
    ];
    let mut random = Random::new(1);
    let mut inputs = Inputs::new();
    for first in 0..=255 {
        let mut after: Inputs = tails.iter().map(|tail| hex::octets(tail)).collect();
        for most in [4, 12, 40] {
            let octets = random.between(1, most);
            after.push(random.octets(octets));
        }
        inputs.extend(after.iter().map(|tail| [&[first][..], tail].concat()));
    }
    inputs
}

/// Every type, flag and sequence flags with APIDs up to the idle one, and every
/// single bit of APID and count.
pub fn space_fields() -> Inputs {
    let mut inputs = Inputs::new();
    for apid in [0, 42, 1_023, 2_046, 2_047] {
        for bits in 0..16 {
            let head = SpaceHead {
                packet_type: bits & 1,
                secondary: (bits >> 1) & 1,
                flags: (bits >> 2) & 3,
                apid,
                count: 5,
            };
            inputs.push(head.with(&[0xAA, 0xBB]));
        }
    }
    let empty = SpaceHead::default();
    let apids = (0..11).map(|bit| SpaceHead {
        apid: 1 << bit,
        ..empty
    });
    let counts = (0..14).map(|bit| SpaceHead {
        count: 1 << bit,
        ..empty
    });
    inputs.push(apids.flat_map(|head| head.with(&[1])).collect());
    inputs.push(counts.flat_map(|head| head.with(&[1])).collect());
    inputs
}

/// Every protocol in every header size, with each other field zero and not (of
/// the CCSDS field, with each of its octets), and with lengths that are too
/// small, fit, are cut short and are too big: so each two grounds for a refusal
/// that can meet do meet.
pub fn encap_fields() -> Inputs {
    let mut heads = Vec::new();
    for bits in 0..512 {
        heads.push(EncapHead {
            protocol: bits & 7,
            length_of_length: (bits as usize >> 3) & 3,
            user: if bits & 32 == 0 { 0 } else { 9 },
            extension: if bits & 64 == 0 { 0 } else { 3 },
            ccsds: [0, 0x0100, 0x0001, 0x8080][bits as usize >> 7],
        });
    }
    let mut inputs = Inputs::new();
    for head in heads {
        let header = head.octets() as u32;
        let near = [header - 1, header, header + 1, header + 4];
        for length in near.into_iter().chain([LONGEST_ENCAP + 1]) {
            if head.can_claim(length) {
                inputs.push(head.claiming(length, &[0xE0, 0xE0, 0x55]));
            }
        }
    }
    inputs
}

/// Short good packets cut at every place, alone and after another packet.
pub fn cut_short_packets() -> Inputs {
    let mut inputs = Inputs::new();
    for packet in packets::short_packets() {
        for kept in 0..=packet.len() {
            inputs.push(packet[..kept].to_vec());
            inputs.push([&[0xE9, 0x03, 0x20], &packet[..kept]].concat());
        }
    }
    inputs
}

/// Long good packets cut in and after the header, about where the octets kept
/// fill one octet of length, and near the end.
pub fn cut_long_packets() -> Inputs {
    let encap = |protocol, length_of_length| EncapHead {
        protocol,
        length_of_length,
        ..EncapHead::default()
    };
    let packets = [
        SpaceHead::default().with(&[0xE0; 300]),
        SpaceHead::default().with(&[0x00; 65_530]),
        encap(2, 1).with(&[0x11; 253]),
        encap(2, 2).with(&[0x22; 65_531]),
        encap(6, 3).with(&[0x33; 65_528]),
    ];
    let mut inputs = Inputs::new();
    for packet in packets {
        let end = packet.len();
        let places = (0..=9)
            .chain(252..=258)
            .chain([end / 2])
            .chain(end - 2..=end);
        inputs.extend(
            places
                .filter(|kept| *kept <= end)
                .map(|kept| packet[..kept].to_vec()),
        );
    }
    inputs
}
