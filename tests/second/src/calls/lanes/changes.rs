//! States with one number changed: some of them are still sound, most aren't.

use crate::calls::structs::{LaneNumbers, StateNumbers, FREE};
use crate::lanes::{BLOCKS, BLOCK_OCTETS, LANES};
use crate::random::Random;
use crate::record::{MOST_MISSING_A_STEP, MOST_PACKETS};

/// A number of a lane.
#[derive(Debug, Clone, Copy, PartialEq, Eq)]
pub enum Part {
    Opened,
    Station,
    Apid,
    Secondary,
    Share,
    Cap,
    Units,
    Packets,
    Missing,
    Broken,
    Last,
    Grouped,
    Octets,
}

pub const PARTS: [Part; 13] = [
    Part::Opened,
    Part::Station,
    Part::Apid,
    Part::Secondary,
    Part::Share,
    Part::Cap,
    Part::Units,
    Part::Packets,
    Part::Missing,
    Part::Broken,
    Part::Last,
    Part::Grouped,
    Part::Octets,
];

/// Where a number of a state stands.
#[derive(Debug, Clone, Copy, PartialEq, Eq)]
pub enum Place {
    Lane(usize, Part),
    Mark(usize),
}

/// Every place of a state.
pub fn places() -> impl Iterator<Item = Place> {
    let lanes = (0..usize::from(LANES)).flat_map(|lane| PARTS.map(|part| Place::Lane(lane, part)));
    lanes.chain((0..BLOCKS).map(Place::Mark))
}

/// Mostly a lane's, each of its numbers as often as any other.
pub fn any_place(random: &mut Random) -> Place {
    match random.below(4) {
        0 => Place::Mark(random.between(0, BLOCKS - 1)),
        _ => {
            let lane = random.below(LANES.into()) as usize;
            Place::Lane(lane, random.pick(&PARTS))
        }
    }
}

/// The state with another number there. One that is too wide is cut.
pub fn changed(state: &StateNumbers, place: Place, number: u32) -> StateNumbers {
    let mut state = *state;
    match place {
        Place::Lane(lane, part) => put(&mut state.lanes[lane], part, number),
        Place::Mark(block) => state.marks[block] = number as u16,
    }
    state
}

fn put(lane: &mut LaneNumbers, part: Part, number: u32) {
    let settings = &mut lane.settings;
    match part {
        Part::Opened => lane.opened = number as u8,
        Part::Station => settings.station = number as u16,
        Part::Apid => settings.apid = number as u16,
        Part::Secondary => settings.secondary = number as u8,
        Part::Share => settings.share = number as u8,
        Part::Cap => settings.cap = number as u8,
        Part::Units => lane.units = number,
        Part::Packets => lane.packets = number,
        Part::Missing => lane.missing = number,
        Part::Broken => lane.broken = number,
        Part::Last => lane.last = number as u16,
        Part::Grouped => lane.grouped = number as u8,
        Part::Octets => lane.octets = number as u16,
    }
}

/// Numbers about which it changes whether the state is sound, and the ends of
/// what the place can hold. The state itself need not be sound.
pub fn numbers(state: &StateNumbers, place: Place) -> Vec<u32> {
    match place {
        Place::Mark(block) => marks(state, block),
        Place::Lane(lane, part) => match part {
            // What C calls a bool is 0 or 1.
            Part::Opened => vec![1 - u32::from(state.lanes[lane].opened)],
            Part::Grouped => vec![1 - u32::from(state.lanes[lane].grouped)],
            Part::Last | Part::Octets => of_the_group(state, lane, part),
            Part::Units | Part::Packets | Part::Missing | Part::Broken => {
                of_the_tallies(&state.lanes[lane], part)
            }
            _ => of_the_settings(state, lane, part),
        },
    }
}

fn of_the_settings(state: &StateNumbers, number: usize, part: Part) -> Vec<u32> {
    let settings = &state.lanes[number].settings;
    let held = state.places(number).count() as u32;
    match part {
        Part::Station => vec![0, u32::from(settings.station) ^ 1, 65_535],
        Part::Apid => vec![0, 2_046, 2_047, 2_048, 65_535],
        Part::Secondary => vec![0, 62, 63, 64, 65, 128, 255],
        Part::Share => {
            let limits = [about(settings.cap.into()), about(left(state, number))];
            [&limits.concat()[..], &[0, 63, 64, 65, 255]].concat()
        }
        _ => {
            let limits = [about(settings.share.into()), about(held)];
            [&limits.concat()[..], &[0, 63, 64, 65, 128, 255]].concat()
        }
    }
}

fn of_the_tallies(lane: &LaneNumbers, part: Part) -> Vec<u32> {
    let group = u32::from(lane.grouped);
    let left_by = |other: u32| lane.packets.wrapping_sub(other).wrapping_sub(group);
    match part {
        Part::Units => tally(left_by(lane.broken)),
        Part::Broken => tally(left_by(lane.units)),
        Part::Missing => tally(most_missing(lane.packets)),
        _ => {
            let needed = lane.units.wrapping_add(lane.broken).wrapping_add(group);
            let steps = lane.missing.div_ceil(MOST_MISSING_A_STEP);
            [tally(needed), about(steps + 1), about(MOST_PACKETS)].concat()
        }
    }
}

fn of_the_group(state: &StateNumbers, number: usize, part: Part) -> Vec<u32> {
    let last = u32::from(state.lanes[number].last);
    let in_blocks = (state.places(number).count() * BLOCK_OCTETS) as u32;
    let in_one_less = in_blocks.saturating_sub(BLOCK_OCTETS as u32);
    match part {
        Part::Last => vec![0, 1, 8_192, 16_383, 16_384, 65_535, last ^ 1],
        _ => {
            let ends = [0, 1, 255, 256, 16_384, 16_385, 65_535];
            [&about(in_blocks)[..], &about(in_one_less), &ends].concat()
        }
    }
}

/// The blocks that this lane's share could come to.
fn left(state: &StateNumbers, number: usize) -> u32 {
    let others = (0..usize::from(LANES)).filter(|other| *other != number);
    let open = others.filter(|other| state.lanes[*other].opened == 1);
    let promised: usize = open
        .map(|other| {
            let share = usize::from(state.lanes[other].settings.share);
            state.places(other).count().max(share)
        })
        .sum();
    BLOCKS.saturating_sub(promised) as u32
}

fn most_missing(packets: u32) -> u32 {
    MOST_MISSING_A_STEP.wrapping_mul(packets.saturating_sub(1))
}

fn about(number: u32) -> Vec<u32> {
    vec![number.wrapping_sub(1), number, number.wrapping_add(1)]
}

/// About a number, and numbers whose sums with others wrap in 32 bits.
fn tally(number: u32) -> Vec<u32> {
    let ends = [0, 1, 1 << 31, u32::MAX - 1, u32::MAX];
    [&about(number)[..], &ends].concat()
}

/// For each lane the first place, its last and the one after, and the ends.
fn marks(state: &StateNumbers, block: usize) -> Vec<u32> {
    let mut numbers = vec![FREE.into(), u32::from(FREE) + 1, 1_024, 65_535];
    // Each block has two lanes of its own, so that all meet all in few steps.
    for lane in [block % 8, block / 8] {
        let held = state.places(lane).count();
        let first = lane * BLOCKS;
        let places = [0, held.saturating_sub(1), held.min(BLOCKS - 1), BLOCKS - 1];
        numbers.extend(places.map(|place| (first + place) as u32));
    }
    numbers
}

/// The marks of two blocks exchanged: a sound state stays sound, and the groups'
/// octets lie elsewhere.
pub fn exchanged(random: &mut Random, state: &StateNumbers) -> StateNumbers {
    let mut state = *state;
    let [one, other] = [(); 2].map(|()| random.between(0, BLOCKS - 1));
    state.marks.swap(one, other);
    state
}

#[cfg(test)]
mod tests {
    use super::*;

    /// Every number in the order of the places.
    fn all_numbers(state: &StateNumbers) -> Vec<u32> {
        let lanes = state.lanes.iter().flat_map(|lane| {
            let settings = &lane.settings;
            [
                lane.opened.into(),
                settings.station.into(),
                settings.apid.into(),
                settings.secondary.into(),
                settings.share.into(),
                settings.cap.into(),
                lane.units,
                lane.packets,
                lane.missing,
                lane.broken,
                lane.last.into(),
                lane.grouped.into(),
                lane.octets.into(),
            ]
        });
        lanes.chain(state.marks.map(u32::from)).collect()
    }

    #[test]
    fn each_place_is_changed_alone() {
        let fresh = StateNumbers::FRESH;
        let before = all_numbers(&fresh);
        assert_eq!(places().count(), before.len());
        for (at, place) in places().enumerate() {
            let mut after = all_numbers(&changed(&fresh, place, 77));
            assert_eq!(after[at], 77, "{place:?}");
            after[at] = before[at];
            assert_eq!(after, before, "{place:?}");
        }
    }

    #[test]
    fn numbers_to_either_side_of_the_limits() {
        let mut state = StateNumbers::FRESH;
        let lane = &mut state.lanes[2];
        (lane.opened, lane.grouped, lane.octets) = (1, 1, 300);
        (lane.packets, lane.units, lane.broken) = (9, 2, 3);
        (lane.settings.share, lane.settings.cap) = (1, 5);
        (state.marks[0], state.marks[1]) = (128, 129);
        state.lanes[4].opened = 1;
        state.lanes[4].settings.share = 40;
        let has = |part, wanted: &[u32]| {
            let numbers = numbers(&state, Place::Lane(2, part));
            let all = wanted.iter().all(|number| numbers.contains(number));
            assert!(all, "{part:?}: {numbers:?}");
        };
        has(Part::Share, &[5, 6, 24, 25]);
        has(Part::Cap, &[0, 1, 2, 64, 65]);
        has(Part::Units, &[5, 6, u32::MAX]);
        has(Part::Broken, &[6, 7, u32::MAX]);
        has(Part::Packets, &[5, 6, 262_144, 262_145]);
        has(Part::Missing, &[131_056, 131_057]);
        has(Part::Octets, &[256, 257, 512, 513]);
    }
}
