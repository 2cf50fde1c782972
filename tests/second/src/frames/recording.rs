//! A sender: packets that lie one after another are cut into the fields of
//! frames; and what must come out of those that are received.

use super::file::FileFrame;
use super::{FIELD_OCTETS, IDLE_ONLY, LONGEST_FIELD, NO_PACKET};
use crate::random::Random;

/// How packets are cut.
#[derive(Clone, Copy)]
pub struct Style {
    /// The shortest and the longest field.
    pub fields: [usize; 2],
    /// One in so many fields ends with a packet, where one ends near enough.
    pub even: u32,
    /// Where a field begins with a packet, one in so many times frames with
    /// idle data only come before it.
    pub idle: u32,
}

pub struct Recording {
    pub frames: Vec<FileFrame>,
    packets: Vec<Sent>,
}

/// A packet, with the first and the last frame that have octets of it.
struct Sent {
    octets: Vec<u8>,
    first: usize,
    last: usize,
}

impl Recording {
    /// These packets, and idle ones of an octet that fill the last field.
    pub fn new(random: &mut Random, mut packets: Vec<Vec<u8>>, style: &Style) -> Self {
        let lengths = lengths(random, &mut packets, style);
        let starts: Vec<usize> = starts(&packets).collect();
        let stream = packets.concat();
        let mut frames = Vec::new();
        // By octet: the frame that has it.
        let mut holders = Vec::new();
        for length in lengths {
            let at = holders.len();
            if starts.binary_search(&at).is_ok() && random.one_in(style.idle) {
                idle_frames(random, &mut frames);
            }
            holders.resize(at + length, frames.len());
            let pointer = pointer(&starts, at, length);
            frames.push(FileFrame {
                count: 0,
                pointer: pointer as u16,
                field: stream[at..at + length].to_vec(),
            });
        }
        number(random, &mut frames);
        let sent = |(octets, start): (Vec<u8>, usize)| Sent {
            first: holders[start],
            last: holders[start + octets.len() - 1],
            octets,
        };
        let packets = packets.into_iter().zip(starts).map(sent).collect();
        Recording { frames, packets }
    }

    /// The packets that lie wholly in received frames, one after another.
    pub fn promised(&self, received: &[bool]) -> Vec<u8> {
        let whole = |sent: &&Sent| received[sent.first..=sent.last].iter().all(|came| *came);
        let packets = self.packets.iter().filter(whole);
        packets.flat_map(|sent| &sent.octets).copied().collect()
    }
}

fn starts(packets: &[Vec<u8>]) -> impl Iterator<Item = usize> + '_ {
    packets.iter().scan(0, |end, packet| {
        let start = *end;
        *end += packet.len();
        Some(start)
    })
}

/// Where the first packet begins that begins in this field.
fn pointer(starts: &[usize], at: usize, length: usize) -> u32 {
    let first = starts[starts.partition_point(|start| *start < at)..].first();
    match first {
        Some(start) if *start < at + length => (start - at) as u32,
        _ => NO_PACKET,
    }
}

/// The fields' lengths, which are those of all packets together.
fn lengths(random: &mut Random, packets: &mut Vec<Vec<u8>>, style: &Style) -> Vec<usize> {
    let ends: Vec<usize> = starts(packets).skip(1).collect();
    let total = packets.iter().map(Vec::len).sum();
    let (mut lengths, mut at) = (Vec::new(), 0);
    while at < total {
        let mut length = random.between(style.fields[0], style.fields[1]);
        let near = at + FIELD_OCTETS.start()..=at + LONGEST_FIELD;
        let end = ends.get(ends.partition_point(|end| end < near.start()));
        match end {
            Some(end) if near.contains(end) && random.one_in(style.even) => length = end - at,
            _ => (),
        }
        let rest = total - at;
        if rest < length && FIELD_OCTETS.contains(&rest) && random.one_in(2) {
            length = rest;
        }
        let lacking = length.saturating_sub(rest);
        packets.extend((0..lacking).map(|_| vec![0xE0]));
        lengths.push(length);
        at += length;
    }
    lengths
}

/// What an idle-only field holds is of no matter.
fn idle_frames(random: &mut Random, frames: &mut Vec<FileFrame>) {
    for _ in 0..random.between(1, 3) {
        let octets = random.pick(&[8, 9, 40, LONGEST_FIELD]);
        frames.push(FileFrame {
            count: 0,
            pointer: IDLE_ONLY as u16,
            field: random.octets(octets),
        });
    }
}

/// Counts from any start on.
fn number(random: &mut Random, frames: &mut [FileFrame]) {
    let any = random.below(256) as usize;
    let first = random.pick(&[0, 250, 255, any]);
    for (place, frame) in frames.iter_mut().enumerate() {
        frame.count = ((first + place) % 256) as u16;
    }
}

#[cfg(test)]
mod tests {
    use super::*;
    use crate::hex;
    use crate::inputs::packets;

    const STYLE: Style = Style {
        fields: [8, 60],
        even: 4,
        idle: 2,
    };

    fn recording(seed: u64) -> (Recording, Vec<u8>) {
        let mut random = Random::new(seed);
        let packets: Vec<Vec<u8>> = (0..30).map(|_| packets::packet(&mut random)).collect();
        let octets = packets.concat();
        (Recording::new(&mut random, packets, &STYLE), octets)
    }

    /// The pointer found the slow way, by looking for every packet.
    #[test]
    fn fields_hold_the_packets_with_right_pointers() {
        for seed in 0..200 {
            let (recording, octets) = recording(seed);
            let sent = recording
                .frames
                .iter()
                .filter(|frame| frame.pointer != 2_046);
            let fields: Vec<u8> = sent.clone().flat_map(|frame| frame.field.clone()).collect();
            assert!(fields.starts_with(&octets));
            assert!(fields[octets.len()..].iter().all(|octet| *octet == 0xE0));
            let mut begins = vec![false; fields.len()];
            let starts = crate::walk::walk(&fields).map(|(offset, _)| offset);
            starts.for_each(|start| begins[start] = true);
            let mut at = 0;
            for frame in sent {
                let length = frame.field.len();
                let first = begins[at..at + length].iter().position(|begins| *begins);
                assert_eq!(first.unwrap_or(2_047), usize::from(frame.pointer));
                assert!(FIELD_OCTETS.contains(&length));
                at += length;
            }
        }
    }

    #[test]
    fn counts_rise_and_idle_frames_stand_between_packets() {
        let mut idle = 0;
        for seed in 0..200 {
            let (recording, _) = recording(seed);
            for pair in recording.frames.windows(2) {
                assert_eq!(pair[1].count, (pair[0].count + 1) % 256);
                let after_idle = pair[0].pointer == 2_046 && pair[1].pointer != 2_046;
                assert!(!after_idle || pair[1].pointer == 0);
                idle += usize::from(after_idle);
            }
        }
        assert!(idle > 100, "only {idle} idle frames");
    }

    #[test]
    fn promises_what_lies_wholly_in_received_frames() {
        let packets = [
            "E0",
            "00 2A C0 05 00 09 00 01 02 03 04 05 06 07 08 09",
            "E1 02",
        ];
        let packets: Vec<Vec<u8>> = packets.iter().map(|text| hex::octets(text)).collect();
        let style = Style {
            fields: [8, 8],
            even: u32::MAX,
            idle: u32::MAX,
        };
        let recording = Recording::new(&mut Random::new(1), packets, &style);
        let pointers: Vec<u16> = recording.frames.iter().map(|frame| frame.pointer).collect();
        assert_eq!(pointers, [0, 2_047, 1]);
        let promised = |received: [bool; 3]| hex::text(&recording.promised(&received));
        assert_eq!(promised([true, false, true]), "e0 e1 02 e0 e0 e0 e0 e0");
        assert_eq!(promised([true, true, false]), "e0");
        assert_eq!(promised([false, true, true]), "e1 02 e0 e0 e0 e0 e0");
        assert_eq!(promised([true; 3]).len(), 3 * 24 - 1);
    }
}
