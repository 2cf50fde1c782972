use super::*;
use crate::forge::SpaceHead;
use crate::hex;
use crate::reader::Fault;
use crate::record::MOST_PACKETS;

/// Lanes with their pool, and an output of which a call uses what it is given.
struct Desk {
    lanes: Lanes,
    pool: Vec<u8>,
    output: Vec<u8>,
}

fn desk() -> Desk {
    Desk {
        lanes: Lanes::fresh(),
        pool: vec![0; POOL_OCTETS],
        output: vec![0xA5; 90_000],
    }
}

fn kept(missing: u32) -> Step {
    let gave_up = false;
    Step { missing, gave_up }
}

fn gave_up(missing: u32) -> Step {
    let gave_up = true;
    Step { missing, gave_up }
}

/// The answer to a packet that is refused without a place.
fn refused(number: u8) -> Result<Answer, LaneRefusal> {
    Err(Refusal(number).into())
}

impl Desk {
    fn opened(mut self, lane: u8, numbers: [u8; 3]) -> Self {
        let settings = Settings::new(7, 42, numbers);
        assert_eq!(self.lanes.open(lane, settings, &self.pool), Ok(()));
        self
    }

    /// Sends octets to lane 0, with so much space.
    fn send(&mut self, octets: &[u8], space: usize) -> Result<Answer, LaneRefusal> {
        let output = &mut self.output[..space];
        self.lanes.packet(0, octets, &mut self.pool, output)
    }

    /// Sends a plain packet for APID 42 to a lane, with all the space.
    fn plain(
        &mut self,
        lane: u8,
        flags: u32,
        count: u32,
        data: &[u8],
    ) -> Result<Answer, LaneRefusal> {
        let octets = SpaceHead::new([0, 0, 42, flags, count]).with(data);
        self.lanes
            .packet(lane, &octets, &mut self.pool, &mut self.output)
    }

    fn closes(&mut self, lane: u8, tallies: [u32; 4]) {
        let expected = crate::record::Record::new(7, 42, tallies);
        assert_eq!(self.lanes.close(lane, &self.pool, &mut self.output), Ok(()));
        assert_eq!(self.output[..20], expected.laid());
    }

    fn blocks(&self, lane: u8) -> Vec<usize> {
        let group = self.lanes.lane(lane).and_then(|lane| lane.group.as_ref());
        group.expect("a group is open").blocks.clone()
    }

    /// Whether every open group lies in the pool as the lane has it.
    fn pool_agrees(&self) -> bool {
        let groups = self
            .lanes
            .open_lanes()
            .filter_map(|lane| lane.group.as_ref());
        groups.into_iter().all(|group| {
            let places = 0..group.octets.len();
            let lies = |k: usize| self.pool[group.blocks[k / 256] * 256 + k % 256];
            places.map(lies).eq(group.octets.iter().copied())
        })
    }
}

#[test]
fn a_group_becomes_a_unit() {
    let mut desk = desk().opened(0, [0, 0, 4]);
    assert_eq!(
        desk.plain(0, 1, 16_382, &[1; 300]),
        Ok(Answer::Held(kept(0)))
    );
    assert_eq!(
        desk.plain(0, 0, 16_383, &[2; 300]),
        Ok(Answer::Held(kept(0)))
    );
    assert_eq!(desk.blocks(0), [0, 1, 2]);
    assert!(desk.pool_agrees());
    assert_eq!(desk.plain(0, 2, 0, &[3]), Ok(Answer::Unit(kept(0), 601)));
    let unit = [&[1; 300][..], &[2; 300], &[3]].concat();
    assert_eq!(desk.output[..601], unit);
    assert_eq!(desk.output[601], 0xA5);
    desk.closes(0, [1, 3, 0, 0]);
}

#[test]
fn a_first_count_of_0_is_no_repeat() {
    let mut desk = desk().opened(0, [0, 0, 0]);
    assert_eq!(desk.plain(0, 3, 0, &[1]), Ok(Answer::Unit(kept(0), 1)));
    assert_eq!(desk.plain(0, 3, 0, &[1]), Ok(Answer::Repeat));
    assert_eq!(desk.plain(0, 3, 4, &[1]), Ok(Answer::Unit(kept(3), 1)));
    desk.closes(0, [2, 2, 3, 0]);
}

#[test]
fn groups_given_up() {
    let mut desk = desk().opened(0, [0, 0, 4]);
    assert_eq!(desk.plain(0, 1, 5, &[1]), Ok(Answer::Held(kept(0))));
    assert_eq!(desk.plain(0, 1, 6, &[2]), Ok(Answer::Held(gave_up(0))));
    assert_eq!(desk.plain(0, 3, 7, &[3]), Ok(Answer::Unit(gave_up(0), 1)));
    assert_eq!(desk.plain(0, 2, 8, &[4]), Ok(Answer::Stray(kept(0))));
    assert_eq!(desk.plain(0, 1, 9, &[5]), Ok(Answer::Held(kept(0))));
    assert_eq!(desk.plain(0, 2, 11, &[6]), Ok(Answer::Stray(gave_up(1))));
    assert_eq!(desk.plain(0, 1, 12, &[7]), Ok(Answer::Held(kept(0))));
    desk.closes(0, [1, 7, 1, 4]);
    assert!(desk.lanes.lane(0).is_none());
}

#[test]
fn lanes_of_the_papers_case() {
    let mut desk = desk().opened(0, [0, 20, 40]).opened(1, [0, 20, 64]);
    assert_eq!(
        desk.plain(1, 1, 0, &[9; 44 * 256]),
        Ok(Answer::Held(kept(0)))
    );
    assert_eq!(desk.plain(1, 0, 1, &[9]), refused(27));
    assert_eq!(
        desk.plain(0, 1, 0, &[8; 20 * 256]),
        Ok(Answer::Held(kept(0)))
    );
    assert_eq!(desk.plain(0, 0, 1, &[8]), refused(27));
    assert_eq!(desk.lanes.blocks_held().len(), 64);
}

/// Lane 0, whose cap is 2, finds one block beside the share of lane 1.
fn one_block_left() -> Desk {
    desk().opened(0, [0, 1, 2]).opened(1, [0, 63, 63])
}

#[test]
fn over_the_cap_and_over_the_pool() {
    let mut desk = one_block_left();
    assert_eq!(desk.plain(0, 1, 0, &[1; 257]), refused(27));
    // Three blocks are too many for the cap and for the pool: the cap is told.
    assert_eq!(desk.plain(0, 1, 0, &[1; 513]), refused(19));
    desk.closes(1, [0; 4]);
    // That the other lane is gone helps only against the second cause.
    assert_eq!(desk.plain(0, 1, 0, &[1; 513]), refused(19));
    assert_eq!(desk.plain(0, 1, 0, &[1; 257]), Ok(Answer::Held(kept(0))));
    desk.closes(0, [0, 1, 0, 1]);
}

#[test]
fn blocks_beyond_a_share_are_in_the_way_while_they_are_held() {
    let mut desk = desk().opened(0, [0, 0, 64]).opened(1, [0, 1, 64]);
    assert_eq!(desk.plain(1, 1, 0, &[1; 257]), Ok(Answer::Held(kept(0))));
    let long = [2; 63 * 256];
    assert_eq!(desk.plain(0, 1, 9, &long), refused(27));
    assert_eq!(desk.plain(1, 2, 1, &[1]), Ok(Answer::Unit(kept(0), 258)));
    assert_eq!(desk.plain(0, 1, 9, &long), Ok(Answer::Held(kept(0))));
    // The group that is to be given up isn't in its own lane's way.
    assert_eq!(desk.plain(0, 1, 10, &long), Ok(Answer::Held(gave_up(0))));
}

#[test]
fn alone_in_the_pool_only_the_cap_is_told() {
    let mut desk = desk().opened(0, [0, 0, 64]);
    assert_eq!(desk.plain(0, 1, 0, &[1; 64 * 256 + 1]), refused(19));
    assert_eq!(
        desk.plain(0, 1, 0, &[1; 64 * 256]),
        Ok(Answer::Held(kept(0)))
    );
    assert_eq!(desk.plain(0, 0, 1, &[1]), refused(19));
}

#[test]
fn only_what_would_be_held_can_lack_room() {
    let mut desk = one_block_left();
    let long = [1; 600];
    assert_eq!(desk.plain(0, 3, 0, &long), Ok(Answer::Unit(kept(0), 600)));
    assert_eq!(desk.plain(0, 0, 1, &long), Ok(Answer::Stray(kept(0))));
    assert_eq!(desk.plain(0, 2, 2, &long), Ok(Answer::Stray(kept(0))));
    assert_eq!(desk.plain(0, 1, 3, &[1]), Ok(Answer::Held(kept(0))));
    assert_eq!(desk.plain(0, 0, 5, &long), Ok(Answer::Stray(gave_up(1))));
    assert_eq!(desk.plain(0, 1, 6, &[1]), Ok(Answer::Held(kept(0))));
    assert_eq!(desk.plain(0, 2, 7, &long), Ok(Answer::Unit(kept(0), 601)));
}

#[test]
fn no_room_in_the_order_of_refusals() {
    let mut desk = one_block_left();
    let first = |apid, count, data: &[u8]| SpaceHead::new([0, 0, apid, 1, count]).with(data);
    assert_eq!(desk.send(&first(41, 0, &[1; 257]), 0), refused(15));
    assert_eq!(desk.send(&first(42, 0, &[1; 257]), 0), refused(27));
    assert_eq!(
        desk.send(&first(42, 0, &[1; 256]), 0),
        Ok(Answer::Held(kept(0)))
    );
    assert_eq!(desk.send(&first(42, 0, &[1; 257]), 0), Ok(Answer::Repeat));
    assert_eq!(desk.send(&first(42, 0, &[1; 513]), 0), Ok(Answer::Repeat));
}

#[test]
fn a_full_lane_is_full_before_it_lacks_room() {
    let past = Past {
        packets: MOST_PACKETS,
        last: 9,
        ..Past::default()
    };
    let full = Lane::taken_over(Settings::new(7, 42, [0, 1, 2]), past, None);
    let other = Lane::new(Settings::new(7, 42, [0, 63, 63]));
    let lanes = Lanes::taken_over([(0, full), (1, other)].into_iter());
    let mut desk = Desk { lanes, ..desk() };
    assert_eq!(desk.plain(0, 1, 10, &[1; 257]), refused(18));
    assert_eq!(desk.plain(0, 1, 10, &[1; 513]), refused(18));
    assert_eq!(desk.plain(0, 1, 9, &[1; 257]), Ok(Answer::Repeat));
}

#[test]
fn without_room_the_old_group_stays() {
    let alone = desk().opened(0, [0, 0, 1]);
    for (mut desk, number) in [(alone, 19), (one_block_left(), 27)] {
        assert_eq!(desk.plain(0, 1, 0, &[1; 256]), Ok(Answer::Held(kept(0))));
        let before = desk.pool.clone();
        assert_eq!(desk.plain(0, 1, 7, &[2; 257]), refused(number));
        assert_eq!(desk.plain(0, 0, 1, &[2]), refused(number));
        assert_eq!(desk.pool, before);
        assert_eq!(desk.plain(0, 2, 1, &[3]), Ok(Answer::Unit(kept(0), 257)));
        desk.closes(0, [1, 2, 0, 0]);
    }
}

#[test]
fn without_output_a_packet_is_not_received() {
    let mut desk = desk().opened(0, [0, 0, 1]);
    let octets = SpaceHead::new([0, 0, 42, 3, 5]).with(&[1, 2]);
    assert_eq!(desk.send(&octets, 1), refused(20));
    assert_eq!(desk.output[..2], [0xA5, 0xA5]);
    assert_eq!(desk.send(&octets, 2), Ok(Answer::Unit(kept(0), 2)));
    assert_eq!(desk.send(&octets, 0), Ok(Answer::Repeat));
}

#[test]
fn blocks_freed_meanwhile_are_taken_first() {
    let mut desk = desk().opened(0, [0, 0, 8]).opened(1, [0, 0, 8]);
    assert_eq!(desk.plain(0, 1, 0, &[1; 600]), Ok(Answer::Held(kept(0))));
    assert_eq!(desk.plain(1, 1, 0, &[2; 200]), Ok(Answer::Held(kept(0))));
    assert_eq!(desk.plain(0, 2, 1, &[3]), Ok(Answer::Unit(kept(0), 601)));
    assert_eq!(desk.plain(1, 0, 1, &[4; 900]), Ok(Answer::Held(kept(0))));
    assert_eq!(desk.blocks(1), [3, 0, 1, 2, 4]);
    assert!(desk.pool_agrees());
    // Its own blocks count as free when the group that held them is given up.
    assert_eq!(desk.plain(1, 1, 2, &[5; 300]), Ok(Answer::Held(gave_up(0))));
    assert_eq!(desk.blocks(1), [0, 1]);
    assert_eq!(desk.pool[2 * 256], 4);
}

#[test]
fn an_empty_group_needs_no_block() {
    let mut desk = desk().opened(0, [2, 0, 0]);
    let with = |flags, count, data: &[u8]| SpaceHead::new([0, 1, 42, flags, count]).with(data);
    assert_eq!(
        desk.send(&with(1, 0, &[9, 9]), 0),
        Ok(Answer::Held(kept(0)))
    );
    assert_eq!(desk.blocks(0), []);
    assert_eq!(desk.send(&with(0, 1, &[9, 9, 1]), 0), refused(19));
    assert_eq!(
        desk.send(&with(0, 1, &[9, 9]), 0),
        Ok(Answer::Held(kept(0)))
    );
    assert_eq!(
        desk.send(&with(2, 2, &[9, 9]), 0),
        Ok(Answer::Unit(kept(0), 0))
    );
    assert_eq!(desk.send(&with(3, 3, &[9, 9, 1]), 0), refused(20));
}

#[test]
fn packets_that_are_not_the_lanes() {
    let mut desk = desk().opened(0, [2, 0, 0]);
    let packet = |fields, data: &[u8]| SpaceHead::new(fields).with(data);
    let cases = [
        (12, [packet([1, 1, 42, 3, 0], &[1, 2]), vec![0]].concat()),
        (12, vec![0xE0, 0xE0]),
        (13, vec![0xE0]),
        (14, packet([1, 0, 41, 3, 0], &[1])),
        (15, packet([0, 0, 41, 3, 0], &[1])),
        (15, packet([0, 0, 2_047, 3, 0], &[1])),
        (16, packet([0, 0, 42, 3, 0], &[1])),
        (17, packet([0, 1, 42, 3, 0], &[1])),
    ];
    for (number, octets) in cases {
        assert_eq!(desk.send(&octets, 90_000), refused(number));
    }
    let mut plain = self::desk().opened(0, [0, 0, 0]);
    let flagged = packet([0, 1, 42, 3, 0], &[1]);
    assert_eq!(plain.send(&flagged, 9), refused(16));
}

#[test]
fn packets_that_cannot_be_read() {
    let mut desk = desk().opened(0, [0, 0, 1]);
    let cases = [
        (1, 0, ""),
        (1, 2, "00 2A"),
        (1, 7, "00 2A C0 05 00 01 AA"),
        (2, 0, "20"),
        (3, 0, "0F FF C0 00 00 00 00"),
        (4, 1, "E9 01"),
        (4, 2, "EA 00 00 03"),
        (4, 4, "EB 00 00 00 00 00 00 07"),
        (5, 4, "EB 00 00 00 00 01 00 07"),
        (6, 0, "E9 02"),
        (7, 0, "F9 03 00"),
        (7, 1, "EA 13 00 05 55"),
        (7, 2, "EB 00 01 00 00 00 00 09 55"),
        (7, 3, "EB 00 00 01 00 00 00 09 55"),
    ];
    for (number, place, text) in cases {
        let unread = Err(LaneRefusal::Unread(Fault { number, place }));
        assert_eq!(desk.send(&hex::octets(text), 90_000), unread, "{text}");
    }
    // What stands before reading has no place.
    let cut = hex::octets("00 2A");
    let Desk { lanes, pool, .. } = &mut desk;
    assert_eq!(lanes.packet(1, &cut, pool, &mut []), refused(11));
    assert_eq!(lanes.packet(0, &cut, &mut pool[1..], &mut []), refused(24));
    desk.closes(0, [0; 4]);
}

#[test]
fn openings_in_their_order() {
    let mut desk = desk().opened(0, [0, 30, 64]);
    let illegal = Settings::new(7, 42, [64, 0, 0]);
    let too_much = Settings::new(7, 42, [0, 35, 64]);
    let fits = Settings::new(7, 42, [0, 34, 64]);
    let mut open = |lane, settings, octets: usize| {
        let pool = &vec![0; octets];
        desk.lanes.open(lane, settings, pool)
    };
    assert_eq!(open(9, illegal, 16_383), Err(Refusal(24)));
    assert_eq!(open(8, illegal, 16_384), Err(Refusal(11)));
    assert_eq!(open(0, illegal, 16_384), Err(Refusal(21)));
    assert_eq!(open(1, illegal, 16_384), Err(Refusal(22)));
    assert_eq!(open(1, too_much, 16_384), Err(Refusal(23)));
    assert_eq!(open(1, fits, 16_384), Ok(()));
}

#[test]
fn held_blocks_stand_against_an_opening() {
    let mut desk = desk().opened(0, [0, 10, 64]);
    assert_eq!(
        desk.plain(0, 1, 0, &[1; 30 * 256 + 1]),
        Ok(Answer::Held(kept(0)))
    );
    let with_share = |share| Settings::new(7, 42, [0, share, 64]);
    assert_eq!(
        desk.lanes.open(1, with_share(34), &desk.pool),
        Err(Refusal(23))
    );
    assert_eq!(desk.lanes.open(1, with_share(33), &desk.pool), Ok(()));
}

#[test]
fn closings_in_their_order() {
    let mut desk = desk().opened(0, [0, 0, 0]);
    let mut output = [0xA5; 20];
    let Desk { lanes, pool, .. } = &mut desk;
    assert_eq!(
        lanes.close(9, &pool[1..], &mut output[1..]),
        Err(Refusal(24))
    );
    assert_eq!(lanes.close(1, pool, &mut output[1..]), Err(Refusal(11)));
    assert_eq!(lanes.close(0, pool, &mut output[1..]), Err(Refusal(9)));
    assert_eq!(output, [0xA5; 20]);
    assert_eq!(lanes.close(0, pool, &mut output), Ok(()));
    assert_eq!(lanes.close(0, pool, &mut output), Err(Refusal(11)));
}
