//! Recordings with faults: of what comes out of them nothing is promised, but
//! two programs must agree on it.

use super::sent::{
    any_packets, came, long_recording, losses, packet_of, recording, refused, rows_of,
};
use super::Made;
use crate::frames::file::{laid, FileFrame};
use crate::frames::recording::{Recording, Style};
use crate::frames::{IDLE_ONLY, LONGEST_FRAMED, NO_PACKET};
use crate::inputs::{chance, packets};
use crate::random::Random;

const FIELDS: Style = Style {
    fields: [8, 400],
    even: 4,
    idle: 4,
};

fn unpromised(frames: &[FileFrame]) -> Made {
    (laid(frames), None)
}

/// Rows of 255 and more: the next frame's count is that of a repeat, or in step.
fn far(random: &mut Random) -> (Recording, Vec<bool>) {
    let recording = long_recording(random);
    let rows = [255, 255, 256, 257, 511, 512];
    let received = rows_of(random, recording.frames.len(), &rows);
    (recording, received)
}

pub fn far_rows(seed: u64, _: u64) -> Made {
    let random = &mut Random::new(seed);
    let (recording, received) = far(random);
    unpromised(&came(&recording.frames, &received))
}

/// The packets that lie wholly in what was received of such a run.
#[cfg(test)]
pub fn hoped(seed: u64) -> Vec<u8> {
    let (recording, received) = far(&mut Random::new(seed));
    recording.promised(&received)
}

/// Frames with idle data only anywhere, with counts as if they had been sent.
pub fn idle_inside(seed: u64, _: u64) -> Made {
    let random = &mut Random::new(seed);
    let recording = recording(random);
    let first = recording.frames[0].count;
    let mut frames = Vec::new();
    for frame in recording.frames {
        if random.one_in(5) {
            frames.push(FileFrame {
                pointer: IDLE_ONLY as u16,
                ..frame.clone()
            });
        }
        frames.push(frame);
    }
    for (place, frame) in frames.iter_mut().enumerate() {
        frame.count = (first + place as u16) % 256;
    }
    let received = losses(random, frames.len(), 30);
    unpromised(&came(&frames, &received))
}

/// Packets of 8,193 octets and more, among those that are not too long.
pub fn too_long_packets(seed: u64, _: u64) -> Made {
    let random = &mut Random::new(seed);
    let mut packets = Vec::new();
    for _ in 0..random.between(2, 6) {
        let any = random.between(LONGEST_FRAMED, 20_000);
        let over = LONGEST_FRAMED + 1;
        let octets = random.pick(&[over, over, LONGEST_FRAMED, any]);
        packets.push(packet_of(random, octets));
        let few = random.between(0, 4);
        packets.extend(any_packets(random, few));
    }
    let long = Style {
        fields: [1_000, 2_046],
        ..FIELDS
    };
    let style = random.pick(&[long, FIELDS]);
    let recording = Recording::new(random, packets, &style);
    unpromised(&recording.frames)
}

/// Packets that the reader refuses, wherever they are cut.
pub fn wrong_packets(seed: u64, _: u64) -> Made {
    let random = &mut Random::new(seed);
    let wrong = packets::wrong_packets();
    let mut packets = Vec::new();
    for _ in 0..random.between(4, 30) {
        let few = random.between(1, 6);
        packets.extend(any_packets(random, few));
        packets.push(wrong[random.between(0, wrong.len() - 1)].clone());
    }
    let style = Style {
        fields: random.pick(&[[8, 30], [8, 200]]),
        ..FIELDS
    };
    let recording = Recording::new(random, packets, &style);
    unpromised(&recording.frames)
}

/// Good fields, with pointers that are wrong by one, by some or altogether, with
/// other counts, and with frames that are refused.
pub fn wrong_heads(seed: u64, _: u64) -> Made {
    let random = &mut Random::new(seed);
    let mut frames = recording(random).frames;
    for frame in &mut frames {
        match random.below(6) {
            0 => frame.pointer = wrong_pointer(random, frame),
            1 if random.one_in(2) => frame.count = random.below(256) as u16,
            2 if random.one_in(4) => *frame = refused(random, frame),
            _ => (),
        }
    }
    unpromised(&frames)
}

fn wrong_pointer(random: &mut Random, frame: &FileFrame) -> u16 {
    let last = frame.field.len() as u16 - 1;
    let any = random.between(0, last.into()) as u16;
    let near = [1, 2].map(|by| frame.pointer.min(last).saturating_sub(by));
    let ends = [0, last, IDLE_ONLY as u16, NO_PACKET as u16];
    let after = (frame.pointer + 1).min(last);
    random.pick(&[
        near[0], near[1], after, after, ends[0], ends[1], ends[2], ends[3], any,
    ])
}

/// Octets of the fields are others than were sent.
pub fn damaged(seed: u64, _: u64) -> Made {
    let random = &mut Random::new(seed);
    let mut frames = recording(random).frames;
    for frame in &mut frames {
        if random.one_in(3) {
            chance::damage(random, &mut frame.field);
        }
    }
    let received = losses(random, frames.len(), 30);
    unpromised(&came(&frames, &received))
}

/// Fields of any octets, with any pointers, in step and not.
pub fn noise(seed: u64, _: u64) -> Made {
    let random = &mut Random::new(seed);
    let mut frames = Vec::new();
    for place in 0..random.between(5, 60) {
        let octets = random.between(8, 80);
        let field: Vec<u8> = (0..octets).map(|_| leaning(random)).collect();
        let any = random.between(0, octets - 1) as u16;
        frames.push(FileFrame {
            count: (place as u16 + u16::from(random.one_in(9))) % 256,
            pointer: random.pick(&[0, 0, 1, any, IDLE_ONLY as u16, NO_PACKET as u16]),
            field,
        });
    }
    unpromised(&frames)
}

/// Plain noise would nearly always be refused at once for its version.
fn leaning(random: &mut Random) -> u8 {
    let (any, few) = (random.octet(), random.between(0, 12) as u8);
    random.pick(&[0, 0, 0, few, few, 0xE0 | any, 0xE1, any])
}
