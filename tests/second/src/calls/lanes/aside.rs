//! Calls beside a run: the run's next call, made before it with something
//! changed, on a copy of state and pool. The run goes on as if nothing had been.

use super::call::{Deed, LaneCall};
use super::changes::{self, Part, Place};
use super::checking::{check_by_value, check_soundness};
use crate::calls::checker::Checker;
use crate::calls::structs::StateNumbers;
use crate::lanes::POOL_OCTETS;
use crate::random::Random;
use crate::record::RECORD_OCTETS;

const OTHER_LANE: &str = "calls with a lane number over 7";
const OTHER_POOL: &str = "calls with a pool of another length";
const OTHER_ROOM: &str = "calls with an output of another length";
const STILL_SOUND: &str = "calls with a changed state that is sound";
const NOT_SOUND: &str = "calls with a changed state that isn't sound";
const EXCHANGED: &str = "calls with two blocks' marks exchanged";
const SEVERAL: &str = "calls with several causes for 24 or 11";

/// State and pool as the run's last call left them.
type Stand<'a> = (&'a StateNumbers, &'a [u8]);

/// Makes the call with one thing changed, or with several.
pub fn make(
    checker: &mut Checker<'_>,
    random: &mut Random,
    call: &LaneCall<'_>,
    stand: Stand<'_>,
) -> Result<(), String> {
    match random.below(10) {
        0 => other_lane(checker, random, call, stand),
        1 => other_pool(checker, random, call, stand),
        2..=4 => other_room(checker, random, call, stand),
        5 => exchanged(checker, random, call, stand),
        6 => several(checker, random, call, stand),
        _ => changed_state(checker, random, call, stand),
    }
}

/// Numbers over 7, most of them such as are the lane's if they are cut.
fn far(random: &mut Random, lane: usize) -> usize {
    let near = lane % 8;
    let bit = random.between(3, 63);
    let ends = [8, 255, 256, usize::MAX, usize::MAX - 7 + near];
    let end = random.pick(&ends);
    random.pick(&[near + (1 << bit), near + (1 << bit), near + 256, end])
}

fn other_lane(
    checker: &mut Checker<'_>,
    random: &mut Random,
    call: &LaneCall<'_>,
    stand: Stand<'_>,
) -> Result<(), String> {
    let lane = far(random, call.lane);
    let answer = check_by_value(checker, &LaneCall { lane, ..*call }, stand)?;
    assert_eq!(answer.refusal, 11, "no lane has this number");
    checker.meet(OTHER_LANE);
    Ok(())
}

/// The pool cut short or repeated.
fn any_pool(random: &mut Random, pool: &[u8]) -> Vec<u8> {
    let cut_to_16_bits = POOL_OCTETS + 65_536;
    let any = random.between(0, POOL_OCTETS - 1);
    let (less, more) = (POOL_OCTETS - 1, POOL_OCTETS + 1);
    let lengths = [
        0,
        1,
        256,
        less,
        less,
        more,
        more,
        32_768,
        cut_to_16_bits,
        any,
    ];
    let octets = random.pick(&lengths);
    pool.iter().copied().cycle().take(octets).collect()
}

fn other_pool(
    checker: &mut Checker<'_>,
    random: &mut Random,
    call: &LaneCall<'_>,
    (state, pool): Stand<'_>,
) -> Result<(), String> {
    let pool = any_pool(random, pool);
    let answer = check_by_value(checker, call, (state, &pool))?;
    assert_eq!(answer.refusal, 24, "the pool isn't of its length");
    checker.meet(OTHER_POOL);
    Ok(())
}

/// Outputs of no octets, about what is to be written, of lengths that would be
/// too short if they were cut to 16 bits, and about the longest unit.
fn any_room(random: &mut Random, call: &LaneCall<'_>, state: &StateNumbers) -> usize {
    let octets = match call.deed {
        Deed::Packet(packet) => {
            let lane = state.lanes.get(call.lane).copied().unwrap_or_default();
            let header = 6 + usize::from(lane.settings.secondary);
            let user = packet.len().saturating_sub(header);
            random.pick(&[user, user + usize::from(lane.octets)])
        }
        Deed::Open(_) | Deed::Close => RECORD_OCTETS,
    };
    let (less, more) = (octets.max(1) - 1, octets + 1);
    let any = random.between(0, more);
    let few = random.pick(&[0, 1, less, less, octets, octets, more, octets + 300, any]);
    let many = random.pick(&[65_535, 65_536, 65_536 + less, 81_919, 81_920, 81_921]);
    match random.below(16) {
        0 => many,
        _ => few,
    }
}

fn other_room(
    checker: &mut Checker<'_>,
    random: &mut Random,
    call: &LaneCall<'_>,
    stand: Stand<'_>,
) -> Result<(), String> {
    let room = any_room(random, call, stand.0);
    check_by_value(checker, &LaneCall { room, ..*call }, stand)?;
    checker.meet(OTHER_ROOM);
    Ok(())
}

/// One number changed; at times several, which may fit each other again.
fn any_changes(random: &mut Random, lane: usize, state: &StateNumbers) -> StateNumbers {
    let changes = random.pick(&[1, 1, 1, 1, 2, 3]);
    (0..changes).fold(*state, |state, _| any_change(random, lane, &state))
}

/// Mostly a number of the lane that is called.
fn any_change(random: &mut Random, lane: usize, state: &StateNumbers) -> StateNumbers {
    let place = match changes::any_place(random) {
        Place::Lane(_, part) if lane < 8 && random.one_in(2) => Place::Lane(lane, part),
        place => place,
    };
    let number = random.pick(&changes::numbers(state, place));
    changes::changed(state, place, number)
}

fn changed_state(
    checker: &mut Checker<'_>,
    random: &mut Random,
    call: &LaneCall<'_>,
    (state, pool): Stand<'_>,
) -> Result<(), String> {
    let state = any_changes(random, call.lane, state);
    let sound = check_soundness(checker, &state)?;
    let answer = check_by_value(checker, call, (&state, pool))?;
    assert_eq!(answer.refusal == 24, !sound, "24 for no other cause");
    checker.meet(if sound { STILL_SOUND } else { NOT_SOUND });
    Ok(())
}

fn exchanged(
    checker: &mut Checker<'_>,
    random: &mut Random,
    call: &LaneCall<'_>,
    (state, pool): Stand<'_>,
) -> Result<(), String> {
    let state = changes::exchanged(random, state);
    check_by_value(checker, call, (&state, pool))?;
    checker.meet(EXCHANGED);
    Ok(())
}

/// A lane number over 7, a state that may not be sound and another pool, two or
/// three of them at once: 24 comes before 11.
fn several(
    checker: &mut Checker<'_>,
    random: &mut Random,
    call: &LaneCall<'_>,
    (state, pool): Stand<'_>,
) -> Result<(), String> {
    let not = random.below(4);
    let lane = if not == 0 {
        call.lane
    } else {
        far(random, call.lane)
    };
    let changed = any_change(random, call.lane, state);
    let state = if not == 1 { state } else { &changed };
    let other = any_pool(random, pool);
    let pool = if not == 2 { pool } else { &other };
    check_by_value(checker, &LaneCall { lane, ..*call }, (state, pool))?;
    checker.meet(SEVERAL);
    Ok(())
}

/// Whether a state is sound with any of its numbers changed, one after another.
pub fn each_change(checker: &mut Checker<'_>, state: &StateNumbers) -> Result<(), String> {
    changes::places().try_for_each(|place| each_number(checker, state, place))?;
    // Lanes are all 0 when they were closed by a call. So that a closed lane
    // with other numbers is changed too, open ones are noted as closed.
    for lane in 0..state.lanes.len() {
        let closed = changes::changed(state, Place::Lane(lane, Part::Opened), 0);
        if check_soundness(checker, &closed)? {
            let mut parts = changes::PARTS.into_iter();
            parts.try_for_each(|part| each_number(checker, &closed, Place::Lane(lane, part)))?;
        }
    }
    Ok(())
}

fn each_number(
    checker: &mut Checker<'_>,
    state: &StateNumbers,
    place: Place,
) -> Result<(), String> {
    for number in changes::numbers(state, place) {
        let changed = changes::changed(state, place, number);
        let sound = check_soundness(checker, &changed)?;
        if let (Place::Lane(_, part), true) = (place, sound && changed != *state) {
            checker.meet(&still_sound(&part));
        }
    }
    Ok(())
}

fn still_sound(part: &Part) -> String {
    format!("{part:?} changed, and the state sound")
}

/// A line for each kind of change, or what was met too seldom.
pub fn summary(checker: &Checker<'_>) -> Result<String, String> {
    let kinds = [
        OTHER_LANE,
        OTHER_POOL,
        OTHER_ROOM,
        STILL_SOUND,
        NOT_SOUND,
        EXCHANGED,
        SEVERAL,
    ]
    .map(str::to_string);
    let parts = changes::PARTS.map(|part| still_sound(&part));
    let line = |thing: &String| Ok(format!("{thing}: {}\n", checker.often(thing)?));
    kinds.iter().chain(&parts).map(line).collect()
}
