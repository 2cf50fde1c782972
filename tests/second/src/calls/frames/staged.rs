//! Calls made up by themselves: a piece of some packet lies in the buffer, and
//! the field goes on with it, rightly or nearly so.

use super::call::{check, FrameCall};
use crate::calls::checker::Checker;
use crate::forge::{EncapHead, SpaceHead};
use crate::frames::{
    Frame, Frames, BUFFER_OCTETS, FIELD_OCTETS, IDLE_ONLY, LEAST_OUTPUT, LONGEST_FIELD,
    LONGEST_FRAMED, LONGEST_PIECE, NO_PACKET,
};
use crate::inputs::packets;
use crate::random::Random;

pub const STAGED: &str = "frames made up by themselves";

const NUMBER: u64 = 12_000;

pub fn calls(checker: &mut Checker<'_>) -> Result<(), String> {
    for turn in 0..NUMBER {
        let mut random = Random::new(5_000_000 + turn);
        let about = |fault| format!("made up, turn {turn}\n{fault}");
        make(checker, &mut random).map_err(about)?;
        checker.meet(STAGED);
    }
    Ok(())
}

fn make(checker: &mut Checker<'_>, random: &mut Random) -> Result<(), String> {
    let packet = packet(random);
    // As much of the packet as a field can end, or a little more.
    let most = packet.len().min(LONGEST_FIELD);
    let all = random.between(0, most);
    let lead = random.pick(&[1, 8, all, all]).min(most);
    let piece = (packet.len() - lead).min(LONGEST_PIECE);
    let mut buffer = random.octets(BUFFER_OCTETS);
    buffer[..piece].copy_from_slice(&packet[..piece]);
    let (pointer, field) = field(random, &packet[piece..]);
    let count = random.below(256);
    let before = (count as u8).wrapping_sub(random.pick(&[1, 1, 1, 1, 1, 1, 2, 0]));
    let call = FrameCall {
        state: Frames {
            started: !random.one_in(6),
            count: before,
            piece,
        },
        frame: Frame {
            count,
            pointer,
            field: &field,
        },
        buffer: &buffer,
        room: LEAST_OUTPUT,
    };
    check(checker, &call).map(|_| ())
}

/// Short ones of every kind, good and wrong, and such as are about the longest
/// that come out.
fn packet(random: &mut Random) -> Vec<u8> {
    let any = random.between(9, 3_000);
    let near = random.between(LONGEST_FRAMED - 3, LONGEST_FRAMED + 2);
    let near = random.pick(&[near, LONGEST_FRAMED]);
    let over = random.between(LONGEST_FRAMED, LONGEST_FRAMED + LONGEST_FIELD);
    let wrong = packets::wrong_packets();
    match random.below(9) {
        0..=2 => packets::packet(random),
        3 => wrong[random.between(0, wrong.len() - 1)].clone(),
        4..=6 => long_packet(random, near),
        7 => long_packet(random, over),
        _ => long_packet(random, any),
    }
}

fn long_packet(random: &mut Random, octets: usize) -> Vec<u8> {
    let space = SpaceHead::new([1, 1, 42, random.below(4), random.below(16_384)]);
    let encap = EncapHead {
        protocol: random.pick(&[0, 6]),
        length_of_length: random.pick(&[2, 3]),
        user: random.below(16),
        ..EncapHead::default()
    };
    let data = random.octets(octets);
    match random.one_in(2) {
        true => space.with(&data[6..]),
        false => encap.with(&data[encap.octets()..]),
    }
}

/// The packet's end, one octet more or less of it, or none, then packets; and a
/// pointer that is right, or off by one, or any other.
fn field(random: &mut Random, end: &[u8]) -> (u32, Vec<u8>) {
    let mut field = end.to_vec();
    match random.below(12) {
        0 => field.truncate(end.len().saturating_sub(1)),
        1 => field.push(random.octet()),
        2 => field.clear(),
        _ => (),
    }
    field.truncate(LONGEST_FIELD);
    if FIELD_OCTETS.contains(&field.len()) && random.one_in(2) {
        return whole_field(random, field);
    }
    let right = field.len() as u32;
    let few = random.between(1, 6);
    field.extend((0..few).flat_map(|_| packets::packet(random)));
    field.extend([0xE0; 8]);
    let cut = random.between(0, 9);
    field.truncate((field.len() - cut).clamp(*FIELD_OCTETS.start(), LONGEST_FIELD));
    let last = field.len() as u32 - 1;
    let any = random.below(last);
    let off = random.pick(&[right.saturating_sub(1), right + 1, 0, any]);
    let named = random.pick(&[IDLE_ONLY, NO_PACKET]);
    let (right, off) = (right.min(last), off.min(last));
    let pointer = random.pick(&[right, right, right, right, off, off, named]);
    (pointer, field)
}

/// A field in which no packet begins: all of these octets, or not all.
fn whole_field(random: &mut Random, mut field: Vec<u8>) -> (u32, Vec<u8>) {
    let (shortest, all) = (*FIELD_OCTETS.start(), field.len());
    let middle = random.between(shortest, all);
    let less = (all - 1).max(shortest);
    field.truncate(random.pick(&[all, less, less, middle]));
    (NO_PACKET, field)
}
