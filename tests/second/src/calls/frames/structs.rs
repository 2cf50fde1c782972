//! The structs that go in and out of the frames' functions by value, laid out as
//! C lays them out. What C calls a bool is an octet here.

use crate::frames::{Answer, Frames};
use crate::reader::Refusal;

/// What a frame is answered.
pub const REFUSED: u8 = 0;
pub const REPEAT: u8 = 1;
pub const TAKEN: u8 = 2;

#[repr(C)]
#[derive(Debug, Clone, Copy, Default, PartialEq, Eq)]
pub struct FramesNumbers {
    pub started: u8,
    pub count: u8,
    pub piece: usize,
}

#[repr(C)]
#[derive(Debug, Clone, Copy, PartialEq, Eq)]
pub struct FramedNumbers {
    pub refusal: u8,
    pub kind: u8,
    pub given_up: u8,
    pub dropped: u8,
    pub packets: usize,
    pub octets: usize,
    pub state: FramesNumbers,
}

impl From<Frames> for FramesNumbers {
    fn from(frames: Frames) -> Self {
        FramesNumbers {
            started: frames.started.into(),
            count: frames.count,
            piece: frames.piece,
        }
    }
}

impl From<FramesNumbers> for Frames {
    fn from(numbers: FramesNumbers) -> Self {
        Frames {
            started: numbers.started == 1,
            count: numbers.count,
            piece: numbers.piece,
        }
    }
}

impl FramedNumbers {
    /// An answer that tells of no packets.
    pub fn told(refusal: u8, kind: u8, state: FramesNumbers) -> Self {
        FramedNumbers {
            refusal,
            kind,
            given_up: 0,
            dropped: 0,
            packets: 0,
            octets: 0,
            state,
        }
    }

    /// An answer of this program's own rule, with the state after it.
    pub fn of(answer: &Result<Answer, Refusal>, frames: Frames) -> Self {
        let state = frames.into();
        match answer {
            Err(Refusal(number)) => FramedNumbers::told(*number, REFUSED, state),
            Ok(Answer::Repeat) => FramedNumbers::told(0, REPEAT, state),
            Ok(Answer::Taken(taken)) => FramedNumbers {
                given_up: taken.gave_up().into(),
                dropped: taken.dropped().into(),
                packets: taken.packets,
                octets: taken.octets,
                ..FramedNumbers::told(0, TAKEN, state)
            },
        }
    }

    /// Tells how this isn't as expected.
    pub fn difference(&self, expected: &FramedNumbers) -> Option<String> {
        (self != expected).then(|| format!("expected {expected:?}\ngot {self:?}\n"))
    }
}

#[cfg(test)]
mod tests {
    use super::*;
    use std::mem::{offset_of, size_of};

    #[test]
    fn laid_out_as_c_lays_them_out() {
        assert_eq!(offset_of!(FramesNumbers, count), 1);
        assert_eq!(offset_of!(FramesNumbers, piece), 8);
        assert_eq!(size_of::<FramesNumbers>(), 16);
        assert_eq!(offset_of!(FramedNumbers, dropped), 3);
        assert_eq!(offset_of!(FramedNumbers, packets), 8);
        assert_eq!(offset_of!(FramedNumbers, octets), 16);
        assert_eq!(offset_of!(FramedNumbers, state), 24);
        assert_eq!(size_of::<FramedNumbers>(), 40);
    }

    #[test]
    fn tells_what_differs() {
        let told = FramedNumbers::told(28, REFUSED, FramesNumbers::default());
        assert_eq!(told.difference(&told), None);
        let other = FramedNumbers { kind: 2, ..told };
        let difference = other.difference(&told).expect("the kind differs");
        assert!(difference.starts_with("expected FramedNumbers { refusal: 28, kind: 0, "));
        assert!(difference.contains("got FramedNumbers { refusal: 28, kind: 2, "));
    }
}
