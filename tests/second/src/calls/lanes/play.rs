//! Runs of calls from a fresh start, each call compared.

use super::aside;
use super::call::{by_lanes, Deed, LaneCall};
use super::checking::{check, check_soundness};
use crate::calls::checker::Checker;
use crate::calls::memory::Memory;
use crate::calls::structs::{AnswerNumbers, StateNumbers, HELD, REPEAT, STRAY};
use crate::lanes::{Lanes, Step, POOL_OCTETS};
use crate::random::Random;
use crate::record::{Record, RECORD_OCTETS};
use crate::replay::{Told, MOST_SPACE};
use crate::run_file::Call;
use crate::runs::met::Met;
use crate::runs::Run;

/// A run file may hold very many calls of one kind.
const MOST_CALLS: usize = 12_000;

/// A run file of more octets is one of those that are filled up.
const LONG_RUN: usize = 200_000;

/// After so many calls the lanes' lists are summed up.
const SUMMED_UP: usize = 64;

/// One run: the lanes of this program beside the library's state.
pub struct Play<'p, 'l> {
    pub checker: &'p mut Checker<'l>,
    pub random: Random,
    pub lanes: Lanes,
    pub state: StateNumbers,
    pub pool: Vec<u8>,
    calls: usize,
}

impl<'p, 'l> Play<'p, 'l> {
    /// What lies in the pool at the start doesn't matter, and is any octets.
    pub fn begin(checker: &'p mut Checker<'l>, seed: u64) -> Result<Self, String> {
        // SAFETY: the function takes nothing.
        let state = unsafe { (checker.library().fresh_start)() };
        if let Some(difference) = state.difference(&StateNumbers::FRESH) {
            return Err(format!("fresh_start\n{difference}"));
        }
        checker.meet(FRESH_START);
        check_soundness(checker, &state)?;
        let mut random = Random::new(seed);
        let pool = random.octets(POOL_OCTETS);
        Ok(Play {
            checker,
            random,
            lanes: Lanes::fresh(),
            state,
            pool,
            calls: 0,
        })
    }

    /// Makes a call, compares it, and goes on from what it left.
    pub fn make(&mut self, call: &LaneCall<'_>) -> Result<(AnswerNumbers, Memory), String> {
        let Play { lanes, state, .. } = self;
        let expect = |memory: &mut Memory| {
            let lent = memory.two_mut("pool", "output");
            by_lanes(lanes, (call.lane, &call.deed), state, lent)
        };
        let (answer, after) = check(self.checker, call, (state, &self.pool), expect)?;
        self.state = answer.state;
        self.pool.copy_from_slice(after.piece("pool"));
        self.calls += 1;
        if self.calls % SUMMED_UP == 0 {
            self.lanes.sum_up();
        }
        Ok((answer, after))
    }

    /// Makes a call of a run file, at times after asides.
    fn step(&mut self, call: &Call, chances: u32, met: &mut Met) -> Result<(), String> {
        let lane_call = made_of(call);
        if self.random.one_in(chances) {
            self.aside(&lane_call)?;
        }
        if self.random.one_in(chances * 100) {
            aside::each_change(self.checker, &self.state)?;
        }
        let (answer, after) = self.make(&lane_call)?;
        met.call(call, &told(call, &answer, &after), &self.lanes);
        self.checker.meet(CALLS);
        Ok(())
    }

    pub fn aside(&mut self, call: &LaneCall<'_>) -> Result<(), String> {
        let stand = (&self.state, &self.pool[..]);
        aside::make(self.checker, &mut self.random, call, stand)
    }
}

pub const FRESH_START: &str = "fresh starts";
pub const CALLS: &str = "calls in runs from a fresh start";

/// Plays a run file up to its end, or to what is no call.
pub fn play(checker: &mut Checker<'_>, run: &Run, met: &mut Met) -> Result<(), String> {
    let mut play = Play::begin(checker, run.seed)?;
    // The short runs are those in which much happens.
    let chances = if run.file.len() > LONG_RUN { 8 } else { 1 };
    let mut rest = &run.file[..];
    while let Ok((call, octets)) = Call::taken(rest) {
        rest = &rest[octets..];
        play.step(&call, chances, met)?;
        if play.calls == MOST_CALLS {
            break;
        }
    }
    met.next_run();
    Ok(())
}

fn made_of(call: &Call) -> LaneCall<'_> {
    let room = |space: u32| MOST_SPACE.min(space as usize);
    let (lane, deed, room) = match call {
        Call::Open { lane, settings } => (lane, Deed::Open(*settings), 0),
        Call::Packet {
            lane,
            space,
            octets,
        } => (lane, Deed::Packet(octets), room(*space)),
        Call::Close { lane, space } => (lane, Deed::Close, room(*space)),
    };
    LaneCall {
        lane: usize::from(*lane),
        deed,
        room,
    }
}

/// The answer as a replay has it.
fn told(call: &Call, answer: &AnswerNumbers, after: &Memory) -> Told {
    if let Some(fault) = answer.fault() {
        return Told::Unread(fault);
    }
    if answer.refusal > 0 {
        return Told::Refused(answer.refusal);
    }
    let step = Step {
        missing: answer.missing.into(),
        gave_up: answer.given_up == 1,
    };
    match (call, answer.kind) {
        (Call::Open { .. }, _) => Told::Opened,
        (Call::Close { .. }, _) => {
            Told::Closed(Record::taken(&after.piece("output")[..RECORD_OCTETS]))
        }
        (_, REPEAT) => Told::Repeat,
        (_, STRAY) => Told::Stray(step),
        (_, HELD) => Told::Held(step),
        // The unit itself was compared; nobody asks for its checksum here.
        _ => Told::Unit(step, answer.octets, 0),
    }
}
