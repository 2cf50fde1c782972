//! A lane that takes as many packets as it can, from its opening on.

use super::call::{Deed, LaneCall};
use super::play::Play;
use crate::calls::checker::Checker;
use crate::calls::structs::REPEAT;
use crate::forge::SpaceHead;
use crate::lanes::{Settings, COUNTS};
use crate::record::{MOST_PACKETS, RECORD_OCTETS};

pub const PACKETS: &str = "packets to a lane until it was full";

const LANE: usize = 6;
const APID: u32 = 1_365;

/// Its share leaves the lane one block.
const OTHER_LANE: usize = 2;

/// Each of these is asked when the lane is full, often enough to count.
const TIMES: u32 = 60;

pub fn fill(checker: &mut Checker<'_>) -> Result<(), String> {
    let mut play = Play::begin(checker, 31)?;
    let settings = Settings::new(65_535, APID as u16, [0, 0, 2]);
    play.make(&call(Deed::Open(settings), 0))?;
    let other = call(Deed::Open(Settings::new(7, 42, [0, 63, 63])), 0);
    play.make(&LaneCall {
        lane: OTHER_LANE,
        ..other
    })?;
    let mut count = 16_000;
    for packet in 0..MOST_PACKETS {
        // Now and then packets are missing, and a group is open at the end.
        let flags = match packet % 8 {
            5 => 1,
            6 => 0,
            7 if packet + 1 < MOST_PACKETS => 2,
            7 => 1,
            _ => 3,
        };
        count = (count + if packet % 1_000 == 999 { 16_383 } else { 1 }) % COUNTS;
        let (kind, refusal) = send(&mut play, flags, count, 3)?;
        assert!(refusal == 0 && kind != REPEAT, "packet {packet}");
        play.checker.meet(PACKETS);
    }
    when_full(&mut play, count)
}

/// The last packet is still a repeat. Any other is refused 18, also one that
/// would be over the cap or the pool or lack output, and the lane can be closed.
fn when_full(play: &mut Play<'_, '_>, last: u32) -> Result<(), String> {
    for step in 1..=TIMES {
        let (kind, refusal) = send(play, 3, last, 0)?;
        assert_eq!((kind, refusal), (REPEAT, 0));
        for (flags, octets) in [(3, 1), (3, 9), (1, 513), (1, 257), (0, 300), (2, 1)] {
            let count = (last + step) % COUNTS;
            let head = SpaceHead::new([0, 0, APID, flags, count]);
            let octets = head.with(&play.random.octets(octets));
            play.aside(&call(Deed::Packet(&octets), 2))?;
            let (answer, _) = play.make(&call(Deed::Packet(&octets), 2))?;
            assert_eq!(answer.refusal, 18);
        }
    }
    let (closed, _) = play.make(&call(Deed::Close, RECORD_OCTETS))?;
    assert_eq!(closed.refusal, 0);
    Ok(())
}

/// The kind of the answer and the refusal. A group with its last packet has
/// three octets.
fn send(play: &mut Play<'_, '_>, flags: u32, count: u32, room: usize) -> Result<(u8, u8), String> {
    let octets = SpaceHead::new([0, 0, APID, flags, count]).with(&[count as u8]);
    let (answer, _) = play.make(&call(Deed::Packet(&octets), room))?;
    Ok((answer.kind, answer.refusal))
}

fn call(deed: Deed<'_>, room: usize) -> LaneCall<'_> {
    LaneCall {
        lane: LANE,
        deed,
        room,
    }
}
