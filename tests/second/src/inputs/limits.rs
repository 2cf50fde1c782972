//! Inputs at the limits of the length fields and of the input itself.

use super::{packets, Inputs};
use crate::forge::{EncapHead, SpaceHead};
use crate::lister::LONGEST_INPUT;
use crate::random::Random;

/// Data fields of every length of interest. Those which no input can hold
/// whole are claimed only.
pub fn space_lengths() -> Inputs {
    let head = SpaceHead {
        apid: 99,
        flags: 3,
        count: 1_000,
        ..SpaceHead::default()
    };
    let mut inputs = Inputs::new();
    for octets in [
        1, 2, 3, 255, 256, 257, 65_529, 65_530, 65_531, 65_535, 65_536,
    ] {
        let header = head.claiming(octets, &[]);
        inputs.extend(about(&header, octets));
    }
    inputs
}

/// Encapsulation lengths of every interest in each header that can claim them.
pub fn encap_lengths() -> Inputs {
    let mut inputs = Inputs::new();
    for length_of_length in 1..=3 {
        for protocol in [0, 2, 6] {
            let head = EncapHead {
                protocol,
                length_of_length,
                ..EncapHead::default()
            };
            for length in interesting_lengths(&head) {
                let header = head.claiming(length, &[]);
                let content = (length as usize).saturating_sub(head.octets());
                inputs.extend(about(&header, content));
            }
        }
    }
    inputs
}

fn interesting_lengths(head: &EncapHead) -> Vec<u32> {
    let header = head.octets() as u32;
    let near_the_header = [0, header - 1, header, header + 1];
    let near_an_octet = [253, 254, 255, 256, 257, 258];
    let near_the_limit = [65_535, 65_536, 65_541, 65_542, 65_543];
    // With some of their high bits lost, all but the last would be good lengths.
    let far_over = [0x0001_0009, 0x0100_0009, 0x8000_0009, u32::MAX];
    let all = [
        &near_the_header[..],
        &near_an_octet,
        &near_the_limit,
        &far_over,
    ]
    .concat();
    all.into_iter()
        .filter(|length| head.can_claim(*length))
        .collect()
}

/// The header alone, with one octet too few after it, with all of them, and
/// with a further packet behind; none longer than an input may be.
fn about(header: &[u8], wanted: usize) -> Inputs {
    let room = LONGEST_INPUT - header.len();
    [
        0,
        wanted.saturating_sub(1),
        wanted,
        wanted.saturating_add(1),
    ]
    .into_iter()
    .map(|octets| [header, &vec![0xE0; octets.min(room)]].concat())
    .collect()
}

/// Inputs just as long as permitted, a little shorter, and too long.
pub fn input_lengths() -> Inputs {
    let mut random = Random::new(2);
    let mut inputs = Inputs::new();
    for octets in [65_535, 65_536, 65_537, 70_000] {
        for fill in [0xE0, 0x00, 0x20, 0xFF] {
            inputs.push(vec![fill; octets]);
        }
        inputs.push(random.octets(octets));
        inputs.push(many_packets(&mut random, octets));
        inputs.push(many_packets(&mut random, octets));
        let big = SpaceHead::default().with(&[0x5A; 65_000]);
        inputs.push([big, vec![0xE0; octets - 65_006]].concat());
    }
    inputs
}

/// Good packets one after another, the last of them cut where the input ends.
fn many_packets(random: &mut Random, octets: usize) -> Vec<u8> {
    let mut input = Vec::new();
    while input.len() < octets {
        input.extend(packets::packet(random));
    }
    input.truncate(octets);
    input
}
