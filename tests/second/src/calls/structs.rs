//! The structs that go in and out of the lanes' functions by value, laid out as
//! C lays them out.
//!
//! What C calls a bool is an octet here: a library that gave back another
//! octet than 0 or 1 would be found out, and not believed.

use crate::lanes::{Settings, BLOCKS, LANES};
use crate::reader::{Fault, FAULTS};

/// The mark of a block that no lane holds.
pub const FREE: u16 = 512;

/// What a packet is answered.
pub const REFUSED: u8 = 0;
pub const REPEAT: u8 = 1;
pub const STRAY: u8 = 2;
pub const HELD: u8 = 3;
pub const UNIT: u8 = 4;

#[repr(C)]
#[derive(Debug, Clone, Copy, Default, PartialEq, Eq)]
pub struct SettingsNumbers {
    pub station: u16,
    pub apid: u16,
    pub secondary: u8,
    pub share: u8,
    pub cap: u8,
}

#[repr(C)]
#[derive(Debug, Clone, Copy, Default, PartialEq, Eq)]
pub struct LaneNumbers {
    pub opened: u8,
    pub settings: SettingsNumbers,
    pub units: u32,
    pub packets: u32,
    pub missing: u32,
    pub broken: u32,
    pub last: u16,
    pub grouped: u8,
    pub octets: u16,
}

#[repr(C)]
#[derive(Debug, Clone, Copy, PartialEq, Eq)]
pub struct StateNumbers {
    pub lanes: [LaneNumbers; LANES as usize],
    /// By block: whose it is, as lane x 64 + place in the lane's group.
    pub marks: [u16; BLOCKS],
}

/// What an opening or a closing gives back.
#[repr(C)]
#[derive(Debug, Clone, Copy, PartialEq, Eq)]
pub struct ChangeNumbers {
    pub refusal: u8,
    pub state: StateNumbers,
}

/// What a packet gives back.
#[repr(C)]
#[derive(Debug, Clone, Copy, PartialEq, Eq)]
pub struct AnswerNumbers {
    pub refusal: u8,
    pub kind: u8,
    pub given_up: u8,
    pub missing: u16,
    pub octets: usize,
    /// 0 where there is none.
    pub place: usize,
    pub state: StateNumbers,
}

impl From<Settings> for SettingsNumbers {
    fn from(settings: Settings) -> Self {
        SettingsNumbers {
            station: settings.station,
            apid: settings.apid,
            secondary: settings.secondary,
            share: settings.share,
            cap: settings.cap,
        }
    }
}

impl From<SettingsNumbers> for Settings {
    fn from(numbers: SettingsNumbers) -> Self {
        let rest = [numbers.secondary, numbers.share, numbers.cap];
        Settings::new(numbers.station, numbers.apid, rest)
    }
}

impl StateNumbers {
    /// Eight closed lanes, which are all 0, and free blocks.
    pub const FRESH: StateNumbers = StateNumbers {
        lanes: [LaneNumbers {
            opened: 0,
            settings: SettingsNumbers {
                station: 0,
                apid: 0,
                secondary: 0,
                share: 0,
                cap: 0,
            },
            units: 0,
            packets: 0,
            missing: 0,
            broken: 0,
            last: 0,
            grouped: 0,
            octets: 0,
        }; LANES as usize],
        marks: [FREE; BLOCKS],
    };

    /// The blocks that bear a lane's mark, each with its place in the group.
    pub fn places(&self, lane: usize) -> impl Iterator<Item = (usize, usize)> + '_ {
        let marks = self.marks.iter().copied().enumerate();
        let own = marks.filter(move |(_, mark)| usize::from(*mark) / BLOCKS == lane);
        own.map(|(block, mark)| (block, usize::from(mark) % BLOCKS))
    }

    /// Tells the first number that isn't as expected.
    pub fn difference(&self, expected: &StateNumbers) -> Option<String> {
        for (lane, (came, should)) in self.lanes.iter().zip(&expected.lanes).enumerate() {
            if came != should {
                return Some(format!("lane {lane}: expected {should:?}\ngot {came:?}\n"));
            }
        }
        let mut pairs = self.marks.iter().zip(&expected.marks).enumerate();
        let (block, (came, should)) = pairs.find(|(_, (came, should))| came != should)?;
        Some(format!(
            "mark of block {block}: expected {should}, got {came}\n"
        ))
    }
}

impl AnswerNumbers {
    /// A refusal, which gives back the state as it was handed in.
    pub fn refused(refusal: u8, state: &StateNumbers) -> Self {
        AnswerNumbers {
            refusal,
            kind: REFUSED,
            given_up: 0,
            missing: 0,
            octets: 0,
            place: 0,
            state: *state,
        }
    }

    /// A packet that can't be read, which is told with its place.
    pub fn unread(fault: &Fault, state: &StateNumbers) -> Self {
        AnswerNumbers {
            place: fault.place,
            ..AnswerNumbers::refused(fault.number, state)
        }
    }

    /// Why the packet can't be read, if that is why it is refused.
    pub fn fault(&self) -> Option<Fault> {
        let (number, place) = (self.refusal, self.place);
        FAULTS.contains(&number).then_some(Fault { number, place })
    }

    /// All numbers but the state.
    pub fn numbers(&self) -> [usize; 6] {
        [
            self.refusal.into(),
            self.kind.into(),
            self.given_up.into(),
            self.missing.into(),
            self.octets,
            self.place,
        ]
    }

    /// Tells how this isn't as expected.
    pub fn difference(&self, expected: &AnswerNumbers) -> Option<String> {
        let (came, should) = (self.numbers(), expected.numbers());
        if came != should {
            let names = "refusal, kind, given up, missing, octets, place";
            return Some(format!("{names}: expected {should:?}, got {came:?}\n"));
        }
        self.state.difference(&expected.state)
    }
}

/// As a packet's answer that tells nothing beside the refusal.
impl From<ChangeNumbers> for AnswerNumbers {
    fn from(change: ChangeNumbers) -> Self {
        AnswerNumbers::refused(change.refusal, &change.state)
    }
}

impl From<AnswerNumbers> for ChangeNumbers {
    fn from(answer: AnswerNumbers) -> Self {
        ChangeNumbers {
            refusal: answer.refusal,
            state: answer.state,
        }
    }
}

#[cfg(test)]
mod tests {
    use super::*;
    use std::mem::{offset_of, size_of};

    #[test]
    fn laid_out_as_c_lays_them_out() {
        assert_eq!(size_of::<SettingsNumbers>(), 8);
        assert_eq!(offset_of!(LaneNumbers, settings), 2);
        assert_eq!(offset_of!(LaneNumbers, units), 12);
        assert_eq!(offset_of!(LaneNumbers, last), 28);
        assert_eq!(offset_of!(LaneNumbers, grouped), 30);
        assert_eq!(offset_of!(LaneNumbers, octets), 32);
        assert_eq!(size_of::<LaneNumbers>(), 36);
        assert_eq!(size_of::<StateNumbers>(), 416);
        assert_eq!(offset_of!(ChangeNumbers, state), 4);
        assert_eq!(offset_of!(AnswerNumbers, octets), 8);
        assert_eq!(offset_of!(AnswerNumbers, place), 16);
        assert_eq!(offset_of!(AnswerNumbers, state), 24);
        assert_eq!(size_of::<AnswerNumbers>(), 440);
    }

    #[test]
    fn only_what_cannot_be_read_has_a_fault() {
        let fault = |number, place| Fault { number, place };
        let state = StateNumbers::FRESH;
        for number in FAULTS {
            let unread = AnswerNumbers::unread(&fault(number, 3), &state);
            assert_eq!(unread.numbers(), [number.into(), 0, 0, 0, 0, 3]);
            assert_eq!(unread.fault(), Some(fault(number, 3)));
        }
        for number in [0, 8, 11, 27] {
            assert_eq!(AnswerNumbers::refused(number, &state).fault(), None);
        }
    }

    #[test]
    fn tells_what_differs() {
        let fresh = StateNumbers::FRESH;
        assert_eq!(fresh.difference(&fresh), None);
        let mut other = fresh;
        other.marks[7] = 65;
        let told = other.difference(&fresh).expect("a mark differs");
        assert_eq!(told, "mark of block 7: expected 512, got 65\n");
        other.lanes[3].octets = 9;
        let told = other.difference(&fresh).expect("a lane differs");
        assert!(told.starts_with("lane 3: expected ") && told.contains("octets: 9"));
    }

    #[test]
    fn blocks_by_their_places() {
        let mut state = StateNumbers::FRESH;
        (state.marks[2], state.marks[9], state.marks[63]) = (65, 64, 511);
        let places = |lane| state.places(lane).collect::<Vec<_>>();
        assert_eq!(places(0), []);
        assert_eq!(places(1), [(2, 1), (9, 0)]);
        assert_eq!(places(7), [(63, 63)]);
    }
}
