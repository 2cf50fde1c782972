//! Single good packets, alone or with octets after them.
//!
//! They are there for what only the cases show: the type, the secondary header
//! flag, the user field and the data of the packet at the front.

use super::{packets, Inputs};
use crate::forge::EncapHead;
use crate::random::Random;

/// Packets of both kinds; about half of them have octets after them.
pub fn filled_packets() -> Inputs {
    let mut random = Random::new(9);
    let mut inputs = Inputs::new();
    for _ in 0..200 {
        inputs.push(packets::space(&mut random));
    }
    for head in [extended_heads(), plain_heads()].concat() {
        inputs.push(packets::encap_of(head, &mut random));
    }
    for input in &mut inputs {
        if random.one_in(2) {
            put_octets_after(input, &mut random);
        }
    }
    inputs
}

/// Every user field with every extension, so that one taken for the other
/// shows, in both header sizes that have them.
fn extended_heads() -> Vec<EncapHead> {
    let mut heads = Vec::new();
    for nibbles in 0..256 {
        heads.extend([2, 3].map(|length_of_length| EncapHead {
            protocol: 6,
            length_of_length,
            user: nibbles >> 4,
            extension: nibbles & 15,
            ccsds: 0,
        }));
    }
    heads
}

/// Every other protocol with every user field, in the same header sizes.
fn plain_heads() -> Vec<EncapHead> {
    let mut heads = Vec::new();
    for user in 0..16 {
        for protocol in [0, 1, 2, 3, 4, 5, 7] {
            heads.extend([2, 3].map(|length_of_length| EncapHead {
                protocol,
                length_of_length,
                user,
                ..EncapHead::default()
            }));
        }
    }
    heads
}

/// Packets without content in every header size with every user field, each
/// alone and with octets after it, which are no content.
pub fn empty_packets() -> Inputs {
    let mut random = Random::new(10);
    let mut inputs = Inputs::new();
    for bits in 0..64 {
        let head = EncapHead {
            length_of_length: bits & 3,
            user: bits as u32 >> 2,
            ..EncapHead::default()
        };
        let mut input = head.with(&[]);
        inputs.push(input.clone());
        put_octets_after(&mut input, &mut random);
        inputs.push(input);
    }
    inputs
}

fn put_octets_after(input: &mut Vec<u8>, random: &mut Random) {
    let octets = random.between(1, 9);
    input.extend(random.octets(octets));
}
