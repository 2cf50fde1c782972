//! Checks single calls of the lanes, and keeps count of what they met.

use super::call::{by_value, Deed, LaneCall};
use super::sound::{self, GROUNDS, OVER_THE_POOL};
use crate::calls::checker::Checker;
use crate::calls::memory::Memory;
use crate::calls::structs::{AnswerNumbers, StateNumbers};
use crate::faults;
use crate::hex;

/// Every number that a function of the lanes can return. 25 isn't among those
/// of the closing: a sound state's tallies are possible.
const RETURNS: [(&str, &[u8]); 3] = [
    ("open_lane", &[0, 11, 21, 22, 23, 24]),
    (
        "take_packet",
        &[
            0, 1, 2, 3, 4, 5, 6, 7, 11, 12, 13, 14, 15, 16, 17, 18, 19, 20, 24, 27,
        ],
    ),
    ("close_lane", &[0, 9, 11, 24]),
];

const KINDS: [&str; 5] = ["none", "repeat", "stray", "held", "unit"];

/// Makes a call on such a state and pool. What is expected does to the memory
/// what the library should. Gives the answer with the memory after it, or how
/// the call differed.
pub fn check(
    checker: &mut Checker<'_>,
    call: &LaneCall<'_>,
    (state, pool): (&StateNumbers, &[u8]),
    expect: impl FnOnce(&mut Memory) -> AnswerNumbers,
) -> Result<(AnswerNumbers, Memory), String> {
    let mut memory = call.memory(checker.count_call(), state, pool);
    let mut expected = memory.clone();
    let should = expect(&mut expected);
    let came = call.make(checker.library(), state, &mut memory);
    let differences = [came.difference(&should), memory.difference(&expected)];
    if differences.iter().any(Option::is_some) {
        let differences = differences.into_iter().flatten().collect::<String>();
        return Err(described(call, state, pool) + &differences);
    }
    meet_answer(checker, call.function(), &came);
    if came.refusal != 24 {
        let sound = check_soundness(checker, &came.state)?;
        assert!(sound, "the call led to a state that isn't sound");
    }
    Ok((came, memory))
}

/// The same, with what this program's own lanes make of the numbers alone.
pub fn check_by_value(
    checker: &mut Checker<'_>,
    call: &LaneCall<'_>,
    (state, pool): (&StateNumbers, &[u8]),
) -> Result<AnswerNumbers, String> {
    let expect = |memory: &mut Memory| {
        let lent = memory.two_mut("pool", "output");
        by_value(state, (call.lane, &call.deed), lent)
    };
    check(checker, call, (state, pool), expect).map(|(answer, _)| answer)
}

/// Whether the state is sound, on which both must agree.
pub fn check_soundness(checker: &mut Checker<'_>, state: &StateNumbers) -> Result<bool, String> {
    let grounds = sound::grounds(state);
    let should = u8::from(grounds.is_empty());
    // SAFETY: the function is lent nothing.
    let came = unsafe { (checker.library().is_sound)(*state) };
    if came != should {
        return Err(format!(
            "is_sound\nexpected {should}, got {came}\nagainst it: {grounds:?}\n{state:?}\n"
        ));
    }
    match grounds[..] {
        [] => checker.meet(SOUND),
        [ground] => {
            checker.meet(NOT_SOUND);
            checker.meet(ground);
        }
        _ => checker.meet(NOT_SOUND),
    }
    Ok(grounds.is_empty())
}

const SOUND: &str = "is_sound that returns 1";
const NOT_SOUND: &str = "is_sound that returns 0";

fn meet_answer(checker: &mut Checker<'_>, function: &str, answer: &AnswerNumbers) {
    checker.meet(&returned(function, answer.refusal));
    if function == "take_packet" && answer.refusal == 0 {
        checker.meet(&kind(KINDS[usize::from(answer.kind)]));
    }
    if let Some(fault) = answer.fault() {
        checker.meet(&unread(faults::kind(&fault)));
    }
}

fn returned(function: &str, number: u8) -> String {
    format!("{function} that returns {number}")
}

fn kind(kind: &str) -> String {
    format!("take_packet that answers {kind}")
}

fn unread(kind: &str) -> String {
    format!("take_packet that refuses {kind}")
}

/// The call by all that it was given.
fn described(call: &LaneCall<'_>, state: &StateNumbers, pool: &[u8]) -> String {
    let given = match call.deed {
        Deed::Open(settings) => format!("{settings:?}\n"),
        Deed::Packet(octets) => format!("packet {}\n", hex::cut(octets)),
        Deed::Close => String::new(),
    };
    let (lane, room) = (call.lane, call.room);
    let open = state.lanes.iter().enumerate();
    let open = open.filter(|(_, lane)| lane.opened == 1);
    let lanes: String = open
        .map(|(number, lane)| format!("before, lane {number}: {lane:?}\n"))
        .collect();
    format!(
        "{}\nlane {lane}\n{given}pool of {} octets\noutput of {room} octets\n{lanes}",
        call.function(),
        pool.len()
    )
}

/// A line for each function, or what was met too seldom.
pub fn summary(checker: &Checker<'_>) -> Result<String, String> {
    let mut lines = String::new();
    for (function, numbers) in RETURNS {
        let mut calls = 0;
        let mut parts = Vec::new();
        for number in numbers {
            let times = checker.often(&returned(function, *number))?;
            calls += times;
            parts.push(format!("returned {number}: {times}"));
        }
        if function == "take_packet" {
            for name in &KINDS[1..] {
                parts.push(format!("{name}: {}", checker.often(&kind(name))?));
            }
            for kind in faults::KINDS {
                let times = checker.often(&unread(kind))?;
                parts.push(format!("refused {kind}: {times}"));
            }
        }
        lines += &format!("{function}: {calls} calls agree ({})\n", parts.join(", "));
    }
    Ok(lines + &soundness(checker)?)
}

fn soundness(checker: &Checker<'_>) -> Result<String, String> {
    let [sound, not] = [SOUND, NOT_SOUND].map(|thing| checker.often(thing));
    let (sound, not) = (sound?, not?);
    let mut lines = format!(
        "is_sound: {} calls agree (returned 1: {sound}, returned 0: {not})\n",
        sound + not
    );
    for ground in GROUNDS.into_iter().chain([OVER_THE_POOL]) {
        let times = checker.often(ground)?;
        lines += &format!("not sound for this alone, {ground}: {times}\n");
    }
    Ok(lines)
}
