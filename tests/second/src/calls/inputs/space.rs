//! Calls that write Space Packets.

use super::{about_width, ample, data_lengths, few_octets, field};
use crate::calls::functions::write_space::WriteSpace;
use crate::forge::SpaceHead;
use crate::random::Random;
use crate::writer::MOST_DATA;

/// Bits of type, secondary header flag, APID, flags and count.
const WIDTHS: [u32; 5] = [1, 1, 11, 2, 14];
const HEADER: usize = 6;

pub fn calls() -> Vec<WriteSpace> {
    let mut random = Random::new(21);
    let mut calls = Vec::new();
    each_field(&mut random, &mut calls);
    each_length(&mut random, &mut calls);
    every_grounds(&mut random, &mut calls);
    chance(&mut random, &mut calls);
    calls
}

/// No room, one octet too little, just enough, one more, and much more.
fn rooms(data: usize) -> [usize; 6] {
    let octets = HEADER + data;
    [
        0,
        octets - 1,
        octets,
        octets + 1,
        octets + 1_000,
        ample(octets),
    ]
}

/// Each field at and about its limit, with the others good.
fn each_field(random: &mut Random, calls: &mut Vec<WriteSpace>) {
    for base in [
        [0, 0, 42, 3, 5],
        [1, 1, 2_046, 0, 16_383],
        [0, 0, 2_047, 1, 0],
    ] {
        for (place, width) in WIDTHS.into_iter().enumerate() {
            for number in about_width(width) {
                let mut fields = base;
                fields[place] = number;
                let data = few_octets(random);
                let room = random.pick(&rooms(data.len()));
                calls.push(write(fields, data.clone(), room));
                calls.push(write(fields, vec![0x5A], HEADER + 1));
            }
        }
    }
}

/// Data of every length of interest with every room.
fn each_length(random: &mut Random, calls: &mut Vec<WriteSpace>) {
    for octets in data_lengths() {
        for room in rooms(octets) {
            let fields = good_fields(random);
            calls.push(write(fields, random.octets(octets), room));
        }
    }
}

/// Every ground for a refusal with every other.
fn every_grounds(random: &mut Random, calls: &mut Vec<WriteSpace>) {
    for over in 0..32 {
        for idle in [false, true] {
            let mut fields = good_fields(random);
            if idle {
                (fields[1], fields[2]) = (1, 2_047);
            }
            for (place, width) in WIDTHS.into_iter().enumerate() {
                // One bit more than the field has: cut back, it is good.
                fields[place] += ((over >> place) & 1) << width;
            }
            for octets in [0, 1, MOST_DATA + 1] {
                for room in [0, HEADER + octets - 1, HEADER + octets] {
                    calls.push(write(fields, random.octets(octets), room));
                }
            }
        }
    }
}

fn chance(random: &mut Random, calls: &mut Vec<WriteSpace>) {
    for _ in 0..20_000 {
        let mut fields = WIDTHS.map(|width| field(random, width));
        if random.one_in(12) {
            fields[2] = 2_047;
        }
        let data = few_octets(random);
        let needed = HEADER + data.len();
        let any = random.between(0, needed + 20);
        let near = random.pick(&rooms(data.len()));
        let room = random.pick(&[needed, needed, near, any]);
        calls.push(write(fields, data, room));
    }
}

fn good_fields(random: &mut Random) -> [u32; 5] {
    let mut fields = WIDTHS.map(|width| random.below(1 << width));
    if fields[2] == 2_047 {
        fields[1] = 0;
    }
    fields
}

fn write(fields: [u32; 5], data: Vec<u8>, room: usize) -> WriteSpace {
    let head = SpaceHead::new(fields);
    WriteSpace { head, data, room }
}
