//! Inputs made by chance, always the same ones.

use super::{packets, Inputs};
use crate::random::Random;

/// Runs of good packets.
pub fn runs() -> Inputs {
    let mut random = Random::new(3);
    (0..500).map(|_| run(&mut random)).collect()
}

fn run(random: &mut Random) -> Vec<u8> {
    let number = random.between(2, 12);
    (0..number).flat_map(|_| packets::packet(random)).collect()
}

/// Runs of good packets in which one to three octets are damaged.
pub fn damaged_runs() -> Inputs {
    let mut random = Random::new(4);
    let mut inputs = Inputs::new();
    for _ in 0..700 {
        let mut input = run(&mut random);
        for _ in 0..random.between(1, 3) {
            damage(&mut random, &mut input);
        }
        inputs.push(input);
    }
    inputs
}

/// Turns one bit over, or puts any other octet in an octet's place.
pub fn damage(random: &mut Random, input: &mut [u8]) {
    let place = random.between(0, input.len() - 1);
    let turned = 1 << random.below(8);
    let other = random.between(1, 255) as u8;
    input[place] ^= random.pick(&[turned, other]);
}

/// Runs of good packets with some octets taken out or put in, so that what
/// follows is read from a wrong place.
pub fn shifted_runs() -> Inputs {
    let mut random = Random::new(5);
    let mut inputs = Inputs::new();
    for _ in 0..400 {
        let mut input = run(&mut random);
        for _ in 0..random.between(1, 3) {
            let place = random.between(0, input.len() - 1);
            if random.one_in(2) {
                input.remove(place);
            } else {
                input.insert(place, random.octet());
            }
        }
        inputs.push(input);
    }
    inputs
}

/// Good packets, then a wrong one, then good ones that must not be listed.
pub fn wrong_after_good() -> Inputs {
    let mut random = Random::new(6);
    let mut inputs = Inputs::new();
    for wrong in packets::wrong_packets() {
        for _ in 0..5 {
            inputs.push([run(&mut random), wrong.clone()].concat());
            inputs.push([run(&mut random), wrong.clone(), run(&mut random)].concat());
        }
    }
    inputs
}

/// Octets with no order at all.
pub fn noise() -> Inputs {
    let mut random = Random::new(7);
    let lengths = (1..=100).chain([255, 256, 257, 1_000, 4_096, 10_000, 65_536]);
    lengths.map(|octets| random.octets(octets)).collect()
}

/// Octets without order, but of those that begin packets or make small fields:
/// plain noise is nearly always refused at once for its version.
pub fn leaning_noise() -> Inputs {
    let mut random = Random::new(8);
    let mut inputs = Inputs::new();
    for turn in 0..400 {
        let octets = 1 + turn % 100;
        inputs.push((0..octets).map(|_| leaning_octet(&mut random)).collect());
    }
    inputs
}

fn leaning_octet(random: &mut Random) -> u8 {
    match random.below(8) {
        0..=1 => 0x00,
        2..=3 => 0xE0 | random.octet(),
        4 => 0xE0,
        5..=6 => random.between(1, 12) as u8,
        _ => random.octet(),
    }
}
