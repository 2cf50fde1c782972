//! When a state is sound, by the paper's sentence.
//!
//! Everything that speaks against a state is told, and not only whether
//! something does: so it can be counted how often each ground was the only one.

use crate::calls::structs::{LaneNumbers, StateNumbers, FREE};
use crate::lanes::{blocks_for, BLOCKS, COUNTS, LONGEST_SECONDARY};
use crate::record::{HIGHEST_APID, MOST_MISSING_A_STEP, MOST_PACKETS};

/// A ground against a state, in words.
pub type Ground = &'static str;

/// Each ground that one changed number of a sound state can be alone. For a
/// closed lane that is one of the paper's open points: what is said of the last
/// count and of the record holds of all eight.
pub const GROUNDS: [Ground; 27] = [
    "an open lane: APID over 2046",
    "an open lane: secondary length over 63",
    "an open lane: share over cap",
    "an open lane: cap over 64",
    "an open lane: last over 16383",
    "an open lane: packets over 262144",
    "an open lane: units and broken over packets",
    "an open lane: units, broken and the open group over packets",
    "an open lane: too many missing",
    "an open lane: missing without packets",
    "a group: more blocks than the cap",
    "a group: too few blocks",
    "a group: too many blocks",
    "a group: a place twice",
    "a group: a place beyond its blocks",
    "no group: octets",
    "no group: a block",
    "a closed lane: APID over 2046",
    "a closed lane: last over 16383",
    "a closed lane: packets over 262144",
    "a closed lane: units and broken over packets",
    "a closed lane: too many missing",
    "a closed lane: missing without packets",
    "a closed lane: a group",
    "a closed lane: octets",
    "a closed lane: a block",
    "a mark over 512",
];

/// It comes alone only where some lane's cap leaves room for a larger share.
pub const OVER_THE_POOL: Ground = "more than 64 blocks held or promised";

pub fn is_sound(state: &StateNumbers) -> bool {
    grounds(state).is_empty()
}

/// All that speaks against a state.
pub fn grounds(state: &StateNumbers) -> Vec<Ground> {
    let mut against = Vec::new();
    for (number, lane) in state.lanes.iter().enumerate() {
        let places: Vec<usize> = state.places(number).map(|(_, place)| place).collect();
        record(lane, &mut against);
        match (lane.opened == 1, lane.grouped == 1) {
            (false, _) => closed(lane, &places, &mut against),
            (true, false) => {
                settings(lane, &mut against);
                no_group(lane, &places, &mut against);
            }
            (true, true) => {
                settings(lane, &mut against);
                group(lane, &places, &mut against);
            }
        }
    }
    add_if(&mut against, OVER_THE_POOL, promised(state) > BLOCKS);
    let strange = state.marks.iter().any(|mark| *mark > FREE);
    add_if(&mut against, "a mark over 512", strange);
    against
}

fn add_if(against: &mut Vec<Ground>, ground: Ground, holds: bool) {
    if holds {
        against.push(ground);
    }
}

/// The larger of share and held blocks, over all open lanes.
fn promised(state: &StateNumbers) -> usize {
    let open = state.lanes.iter().enumerate();
    let open = open.filter(|(_, lane)| lane.opened == 1);
    open.map(|(number, lane)| {
        let held = state.places(number).count();
        held.max(lane.settings.share.into())
    })
    .sum()
}

/// The last count and the record, of which an open group is a broken one.
fn record(lane: &LaneNumbers, against: &mut Vec<Ground>) {
    let [units, packets, missing, broken] =
        [lane.units, lane.packets, lane.missing, lane.broken].map(u64::from);
    let with_group = units + broken + u64::from(lane.grouped);
    let most_missing = u64::from(MOST_MISSING_A_STEP) * packets.saturating_sub(1);
    let grounds = [
        lane.settings.apid > HIGHEST_APID,
        u32::from(lane.last) >= COUNTS,
        lane.packets > MOST_PACKETS,
        units + broken > packets,
        missing > most_missing && packets > 0,
        missing > 0 && packets == 0,
    ];
    for (place, holds) in grounds.into_iter().enumerate() {
        add_if(against, record_ground(lane, place), holds);
    }
    let only_with = units + broken <= packets && with_group > packets;
    let over = "an open lane: units, broken and the open group over packets";
    add_if(against, over, only_with && lane.opened == 1);
}

fn record_ground(lane: &LaneNumbers, place: usize) -> Ground {
    let open = [
        "an open lane: APID over 2046",
        "an open lane: last over 16383",
        "an open lane: packets over 262144",
        "an open lane: units and broken over packets",
        "an open lane: too many missing",
        "an open lane: missing without packets",
    ];
    let closed = [
        "a closed lane: APID over 2046",
        "a closed lane: last over 16383",
        "a closed lane: packets over 262144",
        "a closed lane: units and broken over packets",
        "a closed lane: too many missing",
        "a closed lane: missing without packets",
    ];
    match lane.opened {
        1 => open[place],
        _ => closed[place],
    }
}

/// Of an open lane, beside the APID, which is the record's too.
fn settings(lane: &LaneNumbers, against: &mut Vec<Ground>) {
    let settings = &lane.settings;
    let long = settings.secondary > LONGEST_SECONDARY;
    let over_cap = settings.share > settings.cap;
    let over_pool = usize::from(settings.cap) > BLOCKS;
    add_if(against, "an open lane: secondary length over 63", long);
    add_if(against, "an open lane: share over cap", over_cap);
    add_if(against, "an open lane: cap over 64", over_pool);
}

/// The places of an open group's blocks are 0 and on, each once, and as many as
/// its octets need.
fn group(lane: &LaneNumbers, places: &[usize], against: &mut Vec<Ground>) {
    let wanted = blocks_for(lane.octets.into());
    let once = |place: &usize| places.iter().filter(|other| *other == place).count() == 1;
    let over_cap = places.len() > lane.settings.cap.into();
    let each_once = places.iter().all(once);
    let beyond = places.iter().any(|place| *place >= places.len());
    let too_few = "a group: too few blocks";
    let too_many = "a group: too many blocks";
    add_if(against, "a group: more blocks than the cap", over_cap);
    add_if(against, too_few, places.len() < wanted);
    add_if(against, too_many, places.len() > wanted);
    add_if(against, "a group: a place twice", !each_once);
    let hole = each_once && beyond;
    add_if(against, "a group: a place beyond its blocks", hole);
}

fn no_group(lane: &LaneNumbers, places: &[usize], against: &mut Vec<Ground>) {
    add_if(against, "no group: octets", lane.octets > 0);
    add_if(against, "no group: a block", !places.is_empty());
}

fn closed(lane: &LaneNumbers, places: &[usize], against: &mut Vec<Ground>) {
    add_if(against, "a closed lane: a group", lane.grouped == 1);
    add_if(against, "a closed lane: octets", lane.octets > 0);
    add_if(against, "a closed lane: a block", !places.is_empty());
}

#[cfg(test)]
mod tests {
    use super::*;
    use crate::calls::structs::SettingsNumbers;

    /// Lane 1 has a group of 257 octets in blocks 5 and 3 and its cap reached;
    /// lane 2 is open, with tallies at their limits; the others are closed.
    fn state() -> StateNumbers {
        let mut state = StateNumbers::FRESH;
        let settings = |share, cap| SettingsNumbers {
            station: 65_535,
            apid: 2_046,
            secondary: 63,
            share,
            cap,
        };
        state.lanes[1] = LaneNumbers {
            opened: 1,
            settings: settings(2, 2),
            packets: 3,
            units: 1,
            broken: 1,
            missing: 2 * 16_382,
            last: 16_383,
            grouped: 1,
            octets: 257,
        };
        state.lanes[2] = LaneNumbers {
            opened: 1,
            settings: settings(62, 64),
            packets: 262_144,
            units: 262_144,
            missing: 4_294_426_626,
            ..LaneNumbers::default()
        };
        (state.marks[5], state.marks[3]) = (64, 65);
        state
    }

    fn against(change: impl FnOnce(&mut StateNumbers)) -> Vec<Ground> {
        let mut state = state();
        change(&mut state);
        grounds(&state)
    }

    #[test]
    fn states_at_the_limits_are_sound() {
        assert!(is_sound(&StateNumbers::FRESH));
        assert_eq!(against(|_| ()), [""; 0]);
        // A closed lane's station, secondary length, share and cap are free.
        let settings = SettingsNumbers {
            station: 1,
            apid: 2_046,
            secondary: 255,
            share: 255,
            cap: 0,
        };
        assert_eq!(against(|state| state.lanes[0].settings = settings), [""; 0]);
        assert_eq!(against(|state| state.lanes[0].last = 16_383), [""; 0]);
    }

    #[test]
    fn one_step_over_each_limit_of_an_open_lane() {
        let lane_1 = |change: fn(&mut LaneNumbers)| against(|state| change(&mut state.lanes[1]));
        let set = |change: fn(&mut SettingsNumbers)| {
            against(|state| change(&mut state.lanes[1].settings))
        };
        assert_eq!(set(|set| set.apid = 2_047), [GROUNDS[0]]);
        assert_eq!(set(|set| set.secondary = 64), [GROUNDS[1]]);
        assert_eq!(set(|set| set.share = 3), [GROUNDS[2], OVER_THE_POOL]);
        assert_eq!(set(|set| set.cap = 65), [GROUNDS[3]]);
        assert_eq!(lane_1(|lane| lane.last = 16_384), [GROUNDS[4]]);
        assert_eq!(lane_1(|lane| lane.packets = 262_145), [GROUNDS[5]]);
        assert_eq!(lane_1(|lane| lane.units = 3), [GROUNDS[6]]);
        assert_eq!(lane_1(|lane| lane.units = u32::MAX), [GROUNDS[6]]);
        assert_eq!(lane_1(|lane| lane.units = 2), [GROUNDS[7]]);
        assert_eq!(lane_1(|lane| lane.missing += 1), [GROUNDS[8]]);
        let share_63 = against(|state| state.lanes[2].settings.share = 63);
        assert_eq!(share_63, [OVER_THE_POOL]);
    }

    #[test]
    fn blocks_that_do_not_match() {
        let marks = |block: usize, mark| against(|state| state.marks[block] = mark);
        let octets = |octets| against(|state| state.lanes[1].octets = octets);
        assert_eq!(octets(256), ["a group: too many blocks"]);
        assert_eq!(octets(512), [""; 0]);
        assert_eq!(octets(513), ["a group: too few blocks"]);
        assert_eq!(octets(65_535), ["a group: too few blocks"]);
        assert_eq!(marks(5, 65), ["a group: a place twice"]);
        assert_eq!(marks(5, 66), ["a group: a place beyond its blocks"]);
        assert_eq!(marks(3, FREE), ["a group: too few blocks"]);
        assert_eq!(marks(0, 513), ["a mark over 512"]);
        assert_eq!(marks(0, 0), ["a closed lane: a block"]);
        assert_eq!(marks(0, 128), ["no group: a block"]);
        let octets = against(|state| state.lanes[2].octets = 1);
        assert_eq!(octets, ["no group: octets"]);
    }

    #[test]
    fn closed_lanes_with_something_left() {
        let lane_0 = |change: fn(&mut LaneNumbers)| against(|state| change(&mut state.lanes[0]));
        assert_eq!(lane_0(|lane| lane.grouped = 1), ["a closed lane: a group"]);
        assert_eq!(lane_0(|lane| lane.octets = 1), ["a closed lane: octets"]);
        assert_eq!(lane_0(|lane| lane.last = 16_384), [GROUNDS[18]]);
        assert_eq!(lane_0(|lane| lane.broken = 1), [GROUNDS[20]]);
        assert_eq!(lane_0(|lane| lane.missing = 1), [GROUNDS[22]]);
        assert_eq!(lane_0(|lane| lane.settings.apid = 2_047), [GROUNDS[17]]);
        let closed = against(|state| state.lanes[1].opened = 0);
        let left = [
            "a closed lane: a group",
            "a closed lane: octets",
            "a closed lane: a block",
        ];
        assert_eq!(closed, left);
    }
}
