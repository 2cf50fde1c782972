//! Octets to be read as packets.

use super::data_lengths;
use crate::forge::{EncapHead, SpaceHead};
use crate::inputs::{self, chance, packets, Inputs};
use crate::random::Random;
use crate::writer::MOST_DATA;

pub fn inputs() -> Inputs {
    let mut random = Random::new(23);
    // Those on which listings are compared go up to 70,000 octets.
    let mut inputs = inputs::all();
    space_lengths(&mut random, &mut inputs);
    encap_lengths(&mut random, &mut inputs);
    single_packets(&mut random, &mut inputs);
    any_headers(&mut random, &mut inputs);
    inputs
}

/// Data of every length of interest.
fn space_lengths(random: &mut Random, inputs: &mut Inputs) {
    let good = |octets: &usize| (1..=MOST_DATA).contains(octets);
    for octets in data_lengths().filter(good) {
        let head = SpaceHead::new([1, 1, 42, 2, 16_382]);
        let packet = head.with(&random.octets(octets));
        about(packet, random, inputs);
    }
}

/// Content of every length of interest in each header that can tell it: most
/// of these headers aren't the shortest.
fn encap_lengths(random: &mut Random, inputs: &mut Inputs) {
    for octets in data_lengths() {
        for bits in 0..16 {
            let head = EncapHead {
                protocol: [0, 2, 6, 7][bits & 3],
                length_of_length: bits >> 2,
                ..EncapHead::default()
            };
            if head.can_claim((head.octets() + octets) as u32) {
                let packet = head.with(&random.octets(octets));
                about(packet, random, inputs);
            }
        }
    }
}

/// Packets of few octets, good and then damaged.
fn single_packets(random: &mut Random, inputs: &mut Inputs) {
    for _ in 0..6_000 {
        let packet = packets::packet(random);
        let mut damaged = packet.clone();
        chance::damage(random, &mut damaged);
        about(packet, random, inputs);
        inputs.push(damaged);
    }
}

/// Headers of any fields, right or wrong, with few octets after them, which are
/// as many as the header claims or not.
fn any_headers(random: &mut Random, inputs: &mut Inputs) {
    for _ in 0..6_000 {
        let octets = random.between(0, 12);
        let data = random.octets(octets);
        let any_apid = random.below(2_048);
        let apid = random.pick(&[2_046, 2_047, any_apid]);
        let [packet_type, secondary, flags] = [2, 2, 4].map(|bound| random.below(bound));
        let head = SpaceHead::new([packet_type, secondary, apid, flags, random.below(16_384)]);
        inputs.push(head.claiming(random.between(1, 12), &data));

        let (ccsds, low) = (random.below(65_536), random.below(256));
        let head = EncapHead {
            protocol: random.below(8),
            length_of_length: random.between(0, 3),
            user: random.below(16),
            extension: random.pick(&[0, 0, 1, 15]),
            ccsds: random.pick(&[0, 0, 0, ccsds, low]),
        };
        let length = any_length(random, (head.octets() + octets) as u32);
        inputs.push(head.claiming(length, &data));
    }
}

/// Most often such a length, else a wrong one.
fn any_length(random: &mut Random, right: u32) -> u32 {
    let small = random.below(10);
    let any = random.below(u32::MAX);
    random.pick(&[right, right, right, small, right + 1, 65_542, 65_543, any])
}

/// The packet alone, with its last octet cut off, and with octets after it.
fn about(packet: Vec<u8>, random: &mut Random, inputs: &mut Inputs) {
    inputs.push(packet[..packet.len() - 1].to_vec());
    let more = random.between(1, 9);
    inputs.push([&packet[..], &random.octets(more)].concat());
    inputs.push(packet);
}
