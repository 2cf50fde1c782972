//! This program's lanes as a state's numbers, and back.
//!
//! The lanes keep their groups' octets and blocks in lists; a state has only
//! marks, and the octets lie in the pool.

use crate::calls::structs::{LaneNumbers, StateNumbers, FREE};
use crate::lanes::{Group, Lane, Lanes, Past, BLOCKS, BLOCK_OCTETS, LANES};

/// The state after a call. A lane that was closed before and after it stays as
/// it was, whatever numbers it had; one that was closed by it is all 0.
pub fn state(before: &StateNumbers, lanes: &Lanes) -> StateNumbers {
    let mut after = *before;
    after.marks = [FREE; BLOCKS];
    for number in 0..LANES {
        let place = &mut after.lanes[usize::from(number)];
        let Some(lane) = lanes.lane(number) else {
            if place.opened == 1 {
                *place = LaneNumbers::default();
            }
            continue;
        };
        *place = numbers(lane);
        let blocks = lane.group.iter().flat_map(|group| &group.blocks);
        for (at, block) in blocks.enumerate() {
            after.marks[*block] = (usize::from(number) * BLOCKS + at) as u16;
        }
    }
    after
}

fn numbers(lane: &Lane) -> LaneNumbers {
    let past = lane.past();
    let octets = lane.group.as_ref().map_or(0, |group| group.octets.len());
    LaneNumbers {
        opened: 1,
        settings: lane.settings.into(),
        units: past.units,
        packets: past.packets,
        missing: past.missing,
        broken: past.broken,
        last: past.last as u16,
        grouped: u8::from(lane.group.is_some()),
        octets: octets as u16,
    }
}

/// The lanes that a sound state notes, with this pool.
pub fn lanes(state: &StateNumbers, pool: &[u8]) -> Lanes {
    let open = (0..LANES).filter(|number| state.lanes[usize::from(*number)].opened == 1);
    Lanes::taken_over(open.map(|number| (number, lane(state, number.into(), pool))))
}

fn lane(state: &StateNumbers, number: usize, pool: &[u8]) -> Lane {
    let numbers = &state.lanes[number];
    let past = Past {
        units: numbers.units,
        packets: numbers.packets,
        missing: numbers.missing,
        broken: numbers.broken,
        last: numbers.last.into(),
    };
    let group = (numbers.grouped == 1).then(|| group(state, number, pool));
    Lane::taken_over(numbers.settings.into(), past, group)
}

fn group(state: &StateNumbers, number: usize, pool: &[u8]) -> Group {
    let mut places: Vec<(usize, usize)> = state.places(number).collect();
    places.sort_by_key(|(_, place)| *place);
    let blocks: Vec<usize> = places.into_iter().map(|(block, _)| block).collect();
    let in_block = |block: &usize| &pool[block * BLOCK_OCTETS..][..BLOCK_OCTETS];
    let mut octets: Vec<u8> = blocks.iter().flat_map(in_block).copied().collect();
    octets.truncate(state.lanes[number].octets.into());
    Group { octets, blocks }
}

#[cfg(test)]
mod tests {
    use super::*;
    use crate::forge::SpaceHead;
    use crate::lanes::{Settings, POOL_OCTETS};

    fn send(lanes: &mut Lanes, lane: u8, head: [u32; 5], data: &[u8], pool: &mut [u8]) {
        let octets = SpaceHead::new(head).with(data);
        let answer = lanes.packet(lane, &octets, pool, &mut [0; 16]);
        assert!(answer.is_ok());
    }

    /// Lane 2 has a group of 260 octets in blocks 1 and 0, lane 5 an empty one.
    fn talked(pool: &mut [u8]) -> Lanes {
        let mut lanes = Lanes::fresh();
        for (lane, apid, numbers) in [(0, 40, [0, 0, 1]), (2, 42, [0, 1, 3]), (5, 45, [2, 0, 0])] {
            let opened = lanes.open(lane, Settings::new(7, apid, numbers), pool);
            assert!(opened.is_ok());
        }
        send(&mut lanes, 0, [0, 0, 40, 1, 0], &[9; 9], pool);
        send(&mut lanes, 2, [0, 0, 42, 3, 16_383], &[1], pool);
        send(&mut lanes, 2, [0, 0, 42, 1, 2], &[2; 256], pool);
        send(&mut lanes, 0, [0, 0, 40, 2, 1], &[9], pool);
        send(&mut lanes, 2, [0, 0, 42, 0, 3], &[3; 4], pool);
        send(&mut lanes, 5, [0, 1, 45, 1, 7], &[8; 2], pool);
        lanes
    }

    #[test]
    fn notes_lanes_as_numbers() {
        let mut pool = vec![0xEE; POOL_OCTETS];
        let noted = state(&StateNumbers::FRESH, &talked(&mut pool));
        let lane = &noted.lanes[2];
        let tallies = [lane.units, lane.packets, lane.missing, lane.broken];
        assert_eq!(tallies, [1, 3, 2, 0]);
        assert_eq!((lane.last, lane.grouped, lane.octets), (3, 1, 260));
        let empty = &noted.lanes[5];
        assert_eq!((empty.opened, empty.grouped, empty.octets), (1, 1, 0));
        assert_eq!(noted.marks[..3], [129, 128, FREE]);
        assert_eq!(noted.lanes[1], LaneNumbers::default());
    }

    #[test]
    fn both_ways() {
        let mut pool = vec![0xEE; POOL_OCTETS];
        let noted = state(&StateNumbers::FRESH, &talked(&mut pool));
        let again = lanes(&noted, &pool);
        assert_eq!(state(&noted, &again), noted);
        let group = again.lane(2).and_then(|lane| lane.group.as_ref());
        let octets = &group.expect("a group is open").octets;
        assert_eq!(octets[..], [&[2; 256][..], &[3; 4]].concat());
    }

    #[test]
    fn keeps_what_a_closed_lane_had_and_clears_a_lane_that_closes() {
        let mut before = StateNumbers::FRESH;
        before.lanes[1].last = 9;
        before.lanes[4].opened = 1;
        before.lanes[4].last = 9;
        let after = state(&before, &Lanes::fresh());
        assert_eq!(after.lanes[1], before.lanes[1]);
        assert_eq!(after.lanes[4], LaneNumbers::default());
    }
}
