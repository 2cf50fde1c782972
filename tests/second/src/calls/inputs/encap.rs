//! Calls that write Encapsulation Packets.

use super::{about_width, ample, data_lengths, few_octets, field};
use crate::calls::functions::write_encap::WriteEncap;
use crate::random::Random;
use crate::reader::EXTENDED_PROTOCOL;
use crate::writer::EncapFields;

/// Bits of protocol ID, user field and extension.
const WIDTHS: [u32; 3] = [3, 4, 4];
const LONGEST_HEADER: usize = 8;

pub fn calls() -> Vec<WriteEncap> {
    let mut random = Random::new(22);
    let mut calls = Vec::new();
    every_fields(&mut random, &mut calls);
    each_field(&mut random, &mut calls);
    each_length(&mut random, &mut calls);
    longest_contents(&mut random, &mut calls);
    chance(&mut random, &mut calls);
    calls
}

/// Every protocol with every user field and extension, one over the limit of
/// each, with and without content: so each two grounds for a refusal meet.
fn every_fields(random: &mut Random, calls: &mut Vec<WriteEncap>) {
    for number in 0..9 * 17 * 17 {
        let fields = [number % 9, number / 9 % 17, number / 9 / 17];
        for octets in [0, random.between(1, 4)] {
            let content = random.octets(octets);
            calls.push(write(fields, content.clone(), octets + LONGEST_HEADER));
            let room = random.between(0, octets + LONGEST_HEADER);
            calls.push(write(fields, content, room));
        }
    }
}

/// Each field at and about its limit, with the others good.
fn each_field(random: &mut Random, calls: &mut Vec<WriteEncap>) {
    for base in [[2, 0, 0], [6, 9, 3], [0, 0, 0]] {
        for (place, width) in WIDTHS.into_iter().enumerate() {
            for number in about_width(width) {
                let mut fields = base;
                fields[place] = number;
                let content = few_octets(random);
                let room = content.len() + random.between(0, LONGEST_HEADER);
                calls.push(write(fields, content, room));
            }
        }
    }
}

/// Content of every length of interest. The rooms are those that each header
/// needs, with one octet less and more, so no header is taken for granted.
fn each_length(random: &mut Random, calls: &mut Vec<WriteEncap>) {
    let heads = [
        [0, 0, 0],
        [2, 0, 0],
        [7, 5, 0],
        [6, 0, 0],
        [6, 15, 15],
        // These are refused, also where the content is too long.
        [2, 0, 3],
        [8, 0, 0],
        [2, 16, 3],
    ];
    for octets in data_lengths() {
        for fields in heads {
            let headers = 0..=LONGEST_HEADER + 1;
            let rooms = headers.chain([1_000]).map(|more| octets + more);
            for room in rooms.chain([0, ample(octets + LONGEST_HEADER)]) {
                calls.push(write(fields, random.octets(octets), room));
            }
        }
    }
}

/// Every protocol about the longest contents, with and without a user field.
fn longest_contents(random: &mut Random, calls: &mut Vec<WriteEncap>) {
    for octets in 65_530..=65_535 {
        for bits in 0..16 {
            let fields = [bits & 7, (bits >> 3) * 9, 0];
            for header in [3, 4, 7, 8, 9] {
                calls.push(write(fields, random.octets(octets), octets + header));
            }
        }
    }
}

fn chance(random: &mut Random, calls: &mut Vec<WriteEncap>) {
    for _ in 0..20_000 {
        let mut fields = WIDTHS.map(|width| field(random, width));
        match random.below(4) {
            0 => fields[0] = EXTENDED_PROTOCOL,
            1 => fields[2] = 0,
            2 => fields = [random.below(8), 0, 0],
            _ => {}
        }
        let content = few_octets(random);
        let most = content.len() + LONGEST_HEADER;
        let any = random.between(0, most + 20);
        let near = most - random.between(0, LONGEST_HEADER);
        let room = random.pick(&[most, near, any, most + 1_000]);
        calls.push(write(fields, content, room));
    }
}

fn write(fields: [u32; 3], content: Vec<u8>, room: usize) -> WriteEncap {
    let fields = EncapFields::new(fields);
    WriteEncap {
        fields,
        content,
        room,
    }
}
