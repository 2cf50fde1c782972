//! Wrong lanes. Most are this program's own with one thing done after them.

use super::{found, own};
use crate::calls::lanes::{full_lane, runs, sound};
use crate::calls::library::{Library, TakePacket};
use crate::calls::structs::{
    AnswerNumbers, ChangeNumbers, LaneNumbers, SettingsNumbers, StateNumbers, FREE, HELD, REPEAT,
    STRAY, UNIT,
};
use crate::lanes::{BLOCKS, BLOCK_OCTETS, POOL_OCTETS};
use std::slice;

fn taking(take_packet: TakePacket) -> Library {
    Library {
        take_packet,
        ..own::library()
    }
}

/// Own's answer to a packet that was sent to a lane, with a state, a pool and
/// an output.
type Take<'a> = &'a dyn Fn(StateNumbers, &mut [u8], &mut [u8]) -> AnswerNumbers;

/// A `take_packet` that is a function of own's, and of the state, the lane, the
/// pool and the output.
macro_rules! made_of_own {
    ($name:ident, $make:expr) => {
        unsafe extern "C" fn $name(
            state: StateNumbers,
            lane: usize,
            packet: *const u8,
            packet_length: usize,
            pool: *mut u8,
            pool_length: usize,
            output: *mut u8,
            room: usize,
        ) -> AnswerNumbers {
            let take = |state, pool: &mut [u8], output: &mut [u8]| {
                own::take_packet(
                    state,
                    lane,
                    packet,
                    packet_length,
                    pool.as_mut_ptr(),
                    pool.len(),
                    output.as_mut_ptr(),
                    output.len(),
                )
            };
            let pool = slice::from_raw_parts_mut(pool, pool_length);
            let output = slice::from_raw_parts_mut(output, room);
            let make: fn(Take<'_>, StateNumbers, usize, &mut [u8], &mut [u8]) -> _ = $make;
            make(&take, state, lane, pool, output)
        }
    };
}

/// A `take_packet` that hands own's answer to a function that spoils it, with
/// the state and lane before it, and with the pool and the output.
macro_rules! spoiled {
    ($name:ident, $spoil:expr) => {
        made_of_own!($name, |take, state, lane, pool, output| {
            let answer = take(state, pool, output);
            let spoil: fn(&StateNumbers, usize, AnswerNumbers, &mut [u8], &mut [u8]) -> _ = $spoil;
            spoil(&state, lane, answer, pool, output)
        });
    };
}

spoiled!(touches_the_octet_after, |_, _, answer, _, output| {
    if answer.kind == UNIT && answer.octets < output.len() {
        output[answer.octets] ^= 1;
    }
    answer
});

#[test]
fn a_touched_octet_after_the_unit() {
    let words = ["take_packet\n", " of output on: expected "];
    found(runs, taking(touches_the_octet_after), &words);
}

spoiled!(touches_the_pool, |_, _, answer, pool, _| {
    if answer.kind == UNIT {
        pool[POOL_OCTETS - 1] ^= 1;
    }
    answer
});

#[test]
fn a_unit_that_touches_the_pool() {
    let words = ["take_packet\n", "from octet 16383 of pool on: "];
    found(runs, taking(touches_the_pool), &words);
}

spoiled!(starts_anew, |_, _, answer, _, _| {
    match answer.refusal {
        0 => answer,
        refusal => AnswerNumbers::refused(refusal, &StateNumbers::FRESH),
    }
});

#[test]
fn a_refusal_that_forgets_the_state() {
    let words = [
        "take_packet\n",
        "lane 0: expected LaneNumbers { opened: 1, ",
    ];
    found(runs, taking(starts_anew), &words);
}

/// A refusal, with the lane's old group given up all the same.
fn freed(mut answer: AnswerNumbers, lane: usize) -> AnswerNumbers {
    let numbers = &mut answer.state.lanes[lane];
    if numbers.grouped == 1 {
        (numbers.grouped, numbers.octets) = (0, 0);
        numbers.broken += 1;
        let own = |mark: &&mut u16| usize::from(**mark) / BLOCKS == lane;
        let marks = answer.state.marks.iter_mut().filter(own);
        marks.for_each(|mark| *mark = FREE);
    }
    answer
}

spoiled!(frees_and_refuses_19, |_, lane, answer, _, _| {
    match answer.refusal {
        19 => freed(answer, lane),
        _ => answer,
    }
});

spoiled!(frees_and_refuses_27, |_, lane, answer, _, _| {
    match answer.refusal {
        27 => freed(answer, lane),
        _ => answer,
    }
});

#[test]
fn an_old_group_freed_and_the_new_one_refused() {
    let words = ["take_packet\n", "grouped: 1, ", "got ", "grouped: 0, "];
    found(runs, taking(frees_and_refuses_19), &words);
    found(runs, taking(frees_and_refuses_27), &words);
}

spoiled!(blames_the_cap_alone, |before, _, answer, _, _| {
    match answer.refusal {
        27 => AnswerNumbers::refused(19, before),
        _ => answer,
    }
});

spoiled!(blames_the_others_alone, |before, _, answer, _, _| {
    match answer.refusal {
        19 => AnswerNumbers::refused(27, before),
        _ => answer,
    }
});

// Over its cap, the lane is asked about as if that were the whole pool: where
// there is no room all the same, the sum alone is told.
made_of_own!(tests_the_sum_first, |take, state, lane, pool, output| {
    let answer = take(state, pool, output);
    if answer.refusal != 19 {
        return answer;
    }
    let mut uncapped = state;
    uncapped.lanes[lane].settings.cap = BLOCKS as u8;
    match take(uncapped, &mut pool.to_vec(), &mut output.to_vec()).refusal {
        0 => answer,
        _ => AnswerNumbers::refused(27, &state),
    }
});

#[test]
fn no_room_under_the_wrong_number() {
    let over_cap = "expected [19, 0, 0, 0, 0, 0], got [27, ";
    let over_pool = "expected [27, 0, 0, 0, 0, 0], got [19, ";
    let wrong = [
        (blames_the_cap_alone as _, over_pool),
        (blames_the_others_alone as _, over_cap),
        (tests_the_sum_first as _, over_cap),
    ];
    for (take_packet, word) in wrong {
        found(runs, taking(take_packet), &["take_packet\n", word]);
    }
}

spoiled!(drops_the_place, |_, _, mut answer, _, _| {
    answer.place = 0;
    answer
});

#[test]
fn a_place_that_the_lane_drops() {
    let words = ["take_packet\n", "place: expected [", ", 0, 0, 0, 0, 0]\n"];
    found(runs, taking(drops_the_place), &words);
}

spoiled!(places_what_it_takes, |_, _, mut answer, _, _| {
    if answer.refusal == 0 {
        answer.place = answer.octets;
    }
    answer
});

spoiled!(places_every_refusal, |_, _, mut answer, _, _| {
    if answer.refusal > 7 {
        answer.place = 1;
    }
    answer
});

#[test]
fn a_lane_that_tells_a_place_of_its_own() {
    let words = ["take_packet\n", "place: expected [0, 4, ", ", got [0, 4, "];
    found(runs, taking(places_what_it_takes), &words);
    let words = [
        "take_packet\n",
        ", 0, 0, 0, 0, 0], got [",
        ", 0, 0, 0, 0, 1]\n",
    ];
    found(runs, taking(places_every_refusal), &words);
}

/// The last block that was taken is the highest free one and not the lowest.
fn highest(before: &StateNumbers, mut answer: AnswerNumbers, pool: &mut [u8]) -> AnswerNumbers {
    let marks = &mut answer.state.marks;
    let taken = (0..BLOCKS).rfind(|block| before.marks[*block] == FREE && marks[*block] != FREE);
    let free = marks.iter().rposition(|mark| *mark == FREE);
    if let (HELD, Some(taken), Some(free)) = (answer.kind, taken, free) {
        marks.swap(taken, free);
        for octet in 0..BLOCK_OCTETS {
            pool.swap(taken * BLOCK_OCTETS + octet, free * BLOCK_OCTETS + octet);
        }
    }
    answer
}

spoiled!(takes_the_highest, |before, _, answer, pool, _| highest(
    before, answer, pool
));

#[test]
fn another_block_than_the_lowest() {
    let words = ["take_packet\n", "mark of block ", " of pool on: "];
    found(runs, taking(takes_the_highest), &words);
}

spoiled!(leaves_last, |before, lane, mut answer, _, _| {
    if answer.kind == STRAY {
        answer.state.lanes[lane].last = before.lanes[lane].last;
    }
    answer
});

#[test]
fn a_stray_that_does_not_count_as_last() {
    let words = ["take_packet\n", "expected LaneNumbers { ", " last: "];
    found(runs, taking(leaves_last), &words);
}

spoiled!(refuses_repeats, |before, lane, answer, _, _| {
    match answer.kind == REPEAT && before.lanes[lane].packets == 262_144 {
        true => AnswerNumbers::refused(18, before),
        false => answer,
    }
});

#[test]
fn a_full_lane_without_repeats() {
    let words = ["take_packet\n", "expected [0, 1, 0, 0, 0, 0], got [18, 0, "];
    found(full_lane, taking(refuses_repeats), &words);
}

/// The blocks of a lane's group as if it had taken them in rising order.
fn in_rising_order(mut state: StateNumbers, lane: usize) -> StateNumbers {
    let blocks: Vec<usize> = state.places(lane).map(|(block, _)| block).collect();
    for (place, block) in blocks.into_iter().enumerate() {
        state.marks[block] = (lane * BLOCKS + place) as u16;
    }
    state
}

unsafe extern "C" fn gathers_in_rising_order(
    state: StateNumbers,
    lane: usize,
    packet: *const u8,
    packet_length: usize,
    pool: *mut u8,
    pool_length: usize,
    output: *mut u8,
    room: usize,
) -> AnswerNumbers {
    let rising = match sound::is_sound(&state) {
        true => in_rising_order(state, lane),
        false => state,
    };
    let mut spare = vec![0; room];
    let answer = own::take_packet(
        state,
        lane,
        packet,
        packet_length,
        pool,
        pool_length,
        spare.as_mut_ptr(),
        room,
    );
    if answer.kind != UNIT {
        return answer;
    }
    own::take_packet(
        rising,
        lane,
        packet,
        packet_length,
        pool,
        pool_length,
        output,
        room,
    )
}

#[test]
fn a_group_gathered_in_another_order() {
    let words = ["take_packet\n", " of output on: expected "];
    found(runs, taking(gathers_in_rising_order), &words);
}

unsafe extern "C" fn cuts_the_number(
    state: StateNumbers,
    lane: usize,
    pool: *const u8,
    pool_length: usize,
    output: *mut u8,
    room: usize,
) -> ChangeNumbers {
    own::close_lane(state, lane as u8 as usize, pool, pool_length, output, room)
}

unsafe extern "C" fn takes_a_longer_pool(
    state: StateNumbers,
    lane: usize,
    pool: *const u8,
    pool_length: usize,
    output: *mut u8,
    room: usize,
) -> ChangeNumbers {
    let pool_length = pool_length.min(POOL_OCTETS);
    own::close_lane(state, lane, pool, pool_length, output, room)
}

unsafe extern "C" fn keeps_the_settings(
    state: StateNumbers,
    lane: usize,
    pool: *const u8,
    pool_length: usize,
    output: *mut u8,
    room: usize,
) -> ChangeNumbers {
    let mut change = own::close_lane(state, lane, pool, pool_length, output, room);
    if change.refusal == 0 {
        change.state.lanes[lane].settings = state.lanes[lane].settings;
    }
    change
}

unsafe extern "C" fn writes_what_fits(
    state: StateNumbers,
    lane: usize,
    pool: *const u8,
    pool_length: usize,
    output: *mut u8,
    room: usize,
) -> ChangeNumbers {
    let change = own::close_lane(state, lane, pool, pool_length, output, room);
    if change.refusal == 9 && room > 1 {
        let station = state.lanes[lane].settings.station;
        slice::from_raw_parts_mut(output, 2).copy_from_slice(&station.to_be_bytes());
    }
    change
}

#[test]
fn wrong_closings() {
    let closings = [
        (cuts_the_number as _, "expected [11, 0, 0, 0, 0, 0], got "),
        (
            takes_a_longer_pool as _,
            "expected [24, 0, 0, 0, 0, 0], got ",
        ),
        (
            keeps_the_settings as _,
            ": expected LaneNumbers { opened: 0, ",
        ),
        (
            writes_what_fits as _,
            "from octet 0 of output on: expected ",
        ),
    ];
    for (close_lane, word) in closings {
        let library = Library {
            close_lane,
            ..own::library()
        };
        found(runs, library, &["close_lane\n", word]);
    }
}

/// Sound by own lights, or unsound for this ground alone.
fn but_for(state: &StateNumbers, ground: sound::Ground) -> u8 {
    let grounds = sound::grounds(state);
    u8::from(grounds.iter().all(|against| *against == ground))
}

unsafe extern "C" fn forgets_the_open_group(state: StateNumbers) -> u8 {
    but_for(
        &state,
        "an open lane: units, broken and the open group over packets",
    )
}

unsafe extern "C" fn asks_open_lanes_alone(state: StateNumbers) -> u8 {
    but_for(&state, "a closed lane: last over 16383")
}

unsafe extern "C" fn asks_too_much(state: StateNumbers) -> u8 {
    let untouched = |lane: &LaneNumbers| lane.opened == 1 || *lane == LaneNumbers::default();
    own::is_sound(state) & u8::from(state.lanes.iter().all(untouched))
}

#[test]
fn wrong_soundness() {
    let tests = [
        (forgets_the_open_group as _, "expected 0, got 1\n"),
        (asks_open_lanes_alone as _, "expected 0, got 1\n"),
        (asks_too_much as _, "expected 1, got 0\n"),
    ];
    for (is_sound, word) in tests {
        let library = Library {
            is_sound,
            ..own::library()
        };
        found(runs, library, &["is_sound\n", word]);
    }
}

/// Gives back a state that it would rather have had.
unsafe extern "C" fn mends_the_state(
    state: StateNumbers,
    lane: usize,
    settings: SettingsNumbers,
    pool: *const u8,
    pool_length: usize,
) -> ChangeNumbers {
    let mut change = own::open_lane(state, lane, settings, pool, pool_length);
    let marks = change.state.marks.iter_mut();
    marks.for_each(|mark| *mark = FREE.min(*mark));
    change
}

unsafe extern "C" fn starts_with_block_0() -> StateNumbers {
    let mut state = StateNumbers::FRESH;
    state.marks = [0; BLOCKS];
    state
}

#[test]
fn a_mended_state_and_another_start() {
    let library = Library {
        open_lane: mends_the_state,
        ..own::library()
    };
    found(runs, library, &["open_lane\n", "mark of block ", "got 512"]);
    let library = Library {
        fresh_start: starts_with_block_0,
        ..own::library()
    };
    let words = ["fresh_start\n", "mark of block 0: expected 512, got 0\n"];
    found(runs, library, &words);
}
