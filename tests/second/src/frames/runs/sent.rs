//! Recordings of which the order promises what comes out: packets cut into
//! fields with right pointers, and frames lost, never more than 254 in a row.

use super::Made;
use crate::forge::{EncapHead, SpaceHead};
use crate::frames::file::{laid, FileFrame};
use crate::frames::recording::{Recording, Style};
use crate::frames::LONGEST_FRAMED;
use crate::inputs::packets;
use crate::random::Random;

/// The most frames that may be lost in a row.
pub const MOST_LOST: usize = 254;

const ANY_FIELDS: Style = Style {
    fields: [8, 300],
    even: 4,
    idle: 3,
};
const SHORT_FIELDS: Style = Style {
    fields: [8, 14],
    even: 5,
    idle: 6,
};
const LONG_FIELDS: Style = Style {
    fields: [1_900, 2_046],
    even: 4,
    idle: 3,
};

pub fn any_packets(random: &mut Random, number: usize) -> Vec<Vec<u8>> {
    (0..number).map(|_| packets::packet(random)).collect()
}

/// A packet of so many octets in all, which are at least 9.
pub fn packet_of(random: &mut Random, octets: usize) -> Vec<u8> {
    let space = SpaceHead::new([0, 0, 42, random.below(4), random.below(16_384)]);
    let encap = EncapHead {
        protocol: random.pick(&[0, 2, 6]),
        length_of_length: random.pick(&[2, 3]),
        ..EncapHead::default()
    };
    let content = random.octets(octets);
    match random.one_in(2) {
        true => space.with(&content[6..]),
        false => encap.with(&content[encap.octets()..]),
    }
}

/// A recording of some packets in fields of any length.
pub fn recording(random: &mut Random) -> Recording {
    let number = random.between(3, 60);
    let packets = any_packets(random, number);
    let style = random.pick(&[ANY_FIELDS, ANY_FIELDS, SHORT_FIELDS, LONG_FIELDS]);
    Recording::new(random, packets, &style)
}

/// Which frames come: one in so many is lost, alone or with some after it.
pub fn losses(random: &mut Random, frames: usize, chances: u32) -> Vec<bool> {
    let mut received = Vec::new();
    while received.len() < frames {
        if random.one_in(chances) {
            let lost = random.pick(&[1, 1, 2, 5]);
            received.resize(received.len() + lost, false);
        }
        // So that rows of lost frames don't grow together.
        received.push(true);
    }
    received.truncate(frames);
    received
}

pub fn came(frames: &[FileFrame], received: &[bool]) -> Vec<FileFrame> {
    let pairs = frames.iter().zip(received);
    let came = pairs.filter_map(|(frame, received)| received.then_some(frame));
    came.cloned().collect()
}

fn made(recording: &Recording, received: &[bool]) -> Made {
    let frames = came(&recording.frames, received);
    (laid(&frames), Some(recording.promised(received)))
}

fn made_with_losses(random: &mut Random, recording: &Recording) -> Made {
    let chances = random.pick(&[2, 5, 20, 20]);
    let received = losses(random, recording.frames.len(), chances);
    made(recording, &received)
}

pub fn whole(seed: u64, _: u64) -> Made {
    let random = &mut Random::new(seed);
    let recording = recording(random);
    made(&recording, &vec![true; recording.frames.len()])
}

pub fn lossy(seed: u64, _: u64) -> Made {
    let random = &mut Random::new(seed);
    let recording = recording(random);
    made_with_losses(random, &recording)
}

/// Every header is cut at every place sooner or later.
pub fn short_fields(seed: u64, _: u64) -> Made {
    let random = &mut Random::new(seed);
    let number = random.between(10, 60);
    let packets = any_packets(random, number);
    let recording = Recording::new(random, packets, &SHORT_FIELDS);
    made_with_losses(random, &recording)
}

pub fn long_fields(seed: u64, _: u64) -> Made {
    let random = &mut Random::new(seed);
    let number = random.between(100, 400);
    let packets = any_packets(random, number);
    let recording = Recording::new(random, packets, &LONG_FIELDS);
    made_with_losses(random, &recording)
}

/// Packets up to the longest that come out, with few short ones between.
pub fn long_packets(seed: u64, turn: u64) -> Made {
    let random = &mut Random::new(seed);
    let mut packets = Vec::new();
    for _ in 0..random.between(2, 8) {
        let any = random.between(1_000, LONGEST_FRAMED);
        let octets = random.pick(&[LONGEST_FRAMED, LONGEST_FRAMED - 1, any]);
        packets.push(packet_of(random, octets));
        let few = random.between(0, 3);
        packets.extend(any_packets(random, few));
    }
    let style = [LONG_FIELDS, ANY_FIELDS][(turn % 2) as usize];
    let recording = Recording::new(random, packets, &style);
    let few = random.pick(&[10, 40]);
    let received = losses(random, recording.frames.len(), few);
    made(&recording, &received)
}

/// Some hundreds of short frames, such that rows of any length can be lost.
pub fn long_recording(random: &mut Random) -> Recording {
    let style = Style {
        fields: [8, 10],
        even: 3,
        idle: 8,
    };
    let packets = any_packets(random, 700);
    Recording::new(random, packets, &style)
}

/// Rows of so many frames are lost, with some received between them.
pub fn rows_of(random: &mut Random, frames: usize, rows: &[usize]) -> Vec<bool> {
    let mut received = Vec::new();
    while received.len() < frames {
        let between = random.between(1, 6);
        received.resize(received.len() + between, true);
        received.resize(received.len() + random.pick(rows), false);
    }
    received.truncate(frames);
    received
}

pub fn rows(seed: u64, _: u64) -> Made {
    let random = &mut Random::new(seed);
    let recording = long_recording(random);
    let any = random.between(1, MOST_LOST);
    let rows = [any, MOST_LOST - 1, MOST_LOST];
    let received = rows_of(random, recording.frames.len(), &rows);
    made(&recording, &received)
}

/// Received frames come again directly after themselves, some several times.
pub fn repeated(seed: u64, _: u64) -> Made {
    let random = &mut Random::new(seed);
    let recording = recording(random);
    let received = losses(random, recording.frames.len(), 8);
    let mut frames = Vec::new();
    for frame in came(&recording.frames, &received) {
        let times = random.pick(&[1, 1, 1, 2, 4]);
        frames.extend(vec![frame; times]);
    }
    (laid(&frames), Some(recording.promised(&received)))
}

/// What is refused changes nothing, so the promise holds of the others.
pub fn refused_between(seed: u64, _: u64) -> Made {
    let random = &mut Random::new(seed);
    let recording = recording(random);
    let received = losses(random, recording.frames.len(), 8);
    let mut frames = Vec::new();
    for frame in came(&recording.frames, &received) {
        if random.one_in(4) {
            frames.push(refused(random, &frame));
        }
        frames.push(frame);
    }
    (laid(&frames), Some(recording.promised(&received)))
}

/// The frame, with one thing or with several such that it is refused.
pub fn refused(random: &mut Random, frame: &FileFrame) -> FileFrame {
    let mut wrong = frame.clone();
    for _ in 0..random.pick(&[1, 1, 1, 2]) {
        match random.below(4) {
            0 => wrong.field.truncate(random.between(0, 7)),
            1 => wrong
                .field
                .resize(random.pick(&[2_047, 2_047, 2_048, 5_000]), 0xE0),
            2 => wrong.count |= random.pick(&[1, 2, 128, 255]) << 8,
            _ => wrong.pointer = past_the_end(random, frame),
        }
    }
    wrong
}

fn past_the_end(random: &mut Random, frame: &FileFrame) -> u16 {
    let end = frame.field.len() as u16;
    match end < 2_045 {
        true => random.pick(&[end, end, end + 1, 2_045, 2_048, 65_535]),
        // The next ones are no offsets.
        false => random.pick(&[2_048, 2_049, 4_095, 65_535]),
    }
}
