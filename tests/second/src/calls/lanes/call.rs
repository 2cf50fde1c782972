//! One call of the lanes, by the library and by this program's own lanes.

use super::{noted, sound};
use crate::calls::library::Library;
use crate::calls::memory::{Memory, Piece};
use crate::calls::structs::{AnswerNumbers, StateNumbers, HELD, REPEAT, STRAY, UNIT};
use crate::lanes::{Answer, LaneRefusal, Lanes, Settings, Step, POOL_OCTETS};
use crate::reader::Refusal;

/// More than a block, so that one written behind the pool does no harm.
const LEAST_GUARD: usize = 320;

#[derive(Clone, Copy)]
pub enum Deed<'a> {
    Open(Settings),
    Packet(&'a [u8]),
    Close,
}

/// A call, but for the state and the pool, which the last call left.
#[derive(Clone, Copy)]
pub struct LaneCall<'a> {
    pub lane: usize,
    pub deed: Deed<'a>,
    /// The octets of the output. An opening has none.
    pub room: usize,
}

impl LaneCall<'_> {
    /// The function's name, without the prefix that all of them have.
    pub fn function(&self) -> &'static str {
        match self.deed {
            Deed::Open(_) => "open_lane",
            Deed::Packet(_) => "take_packet",
            Deed::Close => "close_lane",
        }
    }

    /// What is lent.
    pub fn memory(&self, call: usize, state: &StateNumbers, pool: &[u8]) -> Memory {
        let packet = match self.deed {
            Deed::Packet(octets) => octets,
            Deed::Open(_) | Deed::Close => &[],
        };
        let pieces = [
            Piece::Input("packet", packet),
            Piece::Input("pool", pool),
            Piece::Output("output", self.room),
        ];
        // A unit that is written in spite of a short output fits a guard.
        let group = state.lanes.get(self.lane).map_or(0, |lane| lane.octets);
        let guard = LEAST_GUARD + packet.len() + usize::from(group);
        Memory::with_guards(call, &pieces, guard)
    }

    /// Calls the library on the memory.
    pub fn make(
        &self,
        library: &Library,
        state: &StateNumbers,
        memory: &mut Memory,
    ) -> AnswerNumbers {
        let (packet, packet_length) = (memory.pointer("packet"), memory.piece("packet").len());
        let (pool, pool_length) = (memory.pointer("pool"), memory.piece("pool").len());
        let output = memory.pointer("output");
        let (state, lane, room) = (*state, self.lane, self.room);
        // SAFETY: the pieces are apart, as long as is told, and not null.
        unsafe {
            match self.deed {
                Deed::Open(settings) => {
                    (library.open_lane)(state, lane, settings.into(), pool, pool_length).into()
                }
                Deed::Packet(_) => (library.take_packet)(
                    state,
                    lane,
                    packet,
                    packet_length,
                    pool,
                    pool_length,
                    output,
                    room,
                ),
                Deed::Close => {
                    (library.close_lane)(state, lane, pool, pool_length, output, room).into()
                }
            }
        }
    }
}

/// What own lanes answer; they are changed, as are pool and output. The state
/// is the one that they stand for.
pub fn by_lanes(
    lanes: &mut Lanes,
    (lane, deed): (usize, &Deed<'_>),
    state: &StateNumbers,
    (pool, output): (&mut [u8], &mut [u8]),
) -> AnswerNumbers {
    // No number over 7 is a lane, so none is cut to one.
    let lane = u8::try_from(lane).unwrap_or(u8::MAX);
    let answer = match deed {
        Deed::Open(settings) => changed(lanes.open(lane, *settings, pool)),
        Deed::Packet(octets) => lanes.packet(lane, octets, pool, output).map(Some),
        Deed::Close => changed(lanes.close(lane, pool, output)),
    };
    match answer {
        Ok(told) => numbers(told, noted::state(state, lanes)),
        Err(LaneRefusal::Unread(fault)) => AnswerNumbers::unread(&fault, state),
        Err(LaneRefusal::Other(Refusal(number))) => AnswerNumbers::refused(number, state),
    }
}

/// An opening's or a closing's answer, which tells nothing of a packet.
fn changed(answer: Result<(), Refusal>) -> Result<Option<Answer>, LaneRefusal> {
    answer.map(|()| None).map_err(LaneRefusal::from)
}

/// The same by value, as the library has it: from the state's numbers alone.
pub fn by_value(
    state: &StateNumbers,
    call: (usize, &Deed<'_>),
    (pool, output): (&mut [u8], &mut [u8]),
) -> AnswerNumbers {
    if pool.len() != POOL_OCTETS || !sound::is_sound(state) {
        return AnswerNumbers::refused(24, state);
    }
    let mut lanes = noted::lanes(state, pool);
    by_lanes(&mut lanes, call, state, (pool, output))
}

fn numbers(told: Option<Answer>, state: StateNumbers) -> AnswerNumbers {
    let none = Step {
        missing: 0,
        gave_up: false,
    };
    let (kind, step, octets) = match told {
        None => (0, none, 0),
        Some(Answer::Repeat) => (REPEAT, none, 0),
        Some(Answer::Stray(step)) => (STRAY, step, 0),
        Some(Answer::Held(step)) => (HELD, step, 0),
        Some(Answer::Unit(step, octets)) => (UNIT, step, octets),
    };
    AnswerNumbers {
        refusal: 0,
        kind,
        given_up: step.gave_up.into(),
        missing: step.missing as u16,
        octets,
        place: 0,
        state,
    }
}

#[cfg(test)]
mod tests {
    use super::*;
    use crate::hex;
    use crate::reader::Fault;

    fn opened() -> (StateNumbers, Vec<u8>) {
        let mut pool = vec![0xEE; POOL_OCTETS];
        let deed = Deed::Open(Settings::new(7, 42, [0, 0, 1]));
        let change = by_value(&StateNumbers::FRESH, (3, &deed), (&mut pool, &mut []));
        assert_eq!(change.numbers(), [0; 6]);
        (change.state, pool)
    }

    #[test]
    fn the_papers_packet_by_value() {
        let (state, mut pool) = opened();
        let octets = hex::octets("00 2A C0 05 00 01 AA BB");
        let call = (3, &Deed::Packet(&octets));
        let mut output = [0; 3];
        let short = by_value(&state, call, (&mut pool, &mut output[..1]));
        assert_eq!(short, AnswerNumbers::refused(20, &state));
        let answer = by_value(&state, call, (&mut pool, &mut output));
        assert_eq!(answer.numbers(), [0, UNIT.into(), 0, 0, 2, 0]);
        assert_eq!(output, [0xAA, 0xBB, 0]);
        assert_eq!(answer.state.lanes[3].units, 1);
        let again = by_value(&answer.state, call, (&mut pool, &mut []));
        assert_eq!(again.numbers(), [0, REPEAT.into(), 0, 0, 0, 0]);
    }

    #[test]
    fn only_a_packet_that_cannot_be_read_has_a_place() {
        let (state, mut pool) = opened();
        let mut answer = |lane, text: &str| {
            let octets = hex::octets(text);
            let call = (lane, &Deed::Packet(&octets));
            by_value(&state, call, (&mut pool, &mut []))
        };
        for (text, number, place) in [("00 2A", 1, 2), ("EA 13 00 05 55", 7, 1), ("20", 2, 0)] {
            let fault = Fault { number, place };
            assert_eq!(answer(3, text), AnswerNumbers::unread(&fault, &state));
        }
        assert_eq!(answer(2, "00 2A"), AnswerNumbers::refused(11, &state));
        assert_eq!(answer(3, "E0"), AnswerNumbers::refused(13, &state));
    }

    #[test]
    fn another_pool_and_a_state_that_is_not_sound_come_before_the_lane() {
        let (mut state, mut pool) = opened();
        let close = |state: &StateNumbers, pool: &mut [u8], lane| {
            by_value(state, (lane, &Deed::Close), (pool, &mut [0; 20])).refusal
        };
        assert_eq!(close(&state, &mut pool, 3), 0);
        assert_eq!(close(&state, &mut pool, 3 + 256), 11);
        assert_eq!(close(&state, &mut pool[1..], usize::MAX), 24);
        state.lanes[0].octets = 1;
        assert_eq!(close(&state, &mut pool, usize::MAX), 24);
    }
}
