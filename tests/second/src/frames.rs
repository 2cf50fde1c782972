//! Frames: the packets that lie across the data fields of a frame recording.
//!
//! Written to be plain, not fast: the piece and the octets before the pointer
//! are joined in memory of their own, and the reader is asked what they are.

pub mod file;
pub mod hand;
pub mod met;
pub mod recording;
pub mod runs;
pub mod text;

#[cfg(test)]
mod tests;

use crate::reader::{claimed, read, Refusal};
use std::ops::RangeInclusive;

pub const FIELD_OCTETS: RangeInclusive<usize> = 8..=LONGEST_FIELD;
pub const LONGEST_FIELD: usize = 2_046;
pub const BUFFER_OCTETS: usize = 8_192;
pub const LONGEST_PIECE: usize = 8_191;
pub const LEAST_OUTPUT: usize = 10_238;
/// The longest packet that comes out.
pub const LONGEST_FRAMED: usize = 8_192;
pub const MOST_COUNT: u32 = 255;

/// The pointers that are no offsets.
pub const IDLE_ONLY: u32 = 2_046;
pub const NO_PACKET: u32 = 2_047;

/// What the frames before left; of the piece, its octets lie in the buffer.
#[derive(Debug, Clone, Copy, Default, PartialEq, Eq)]
pub struct Frames {
    pub started: bool,
    pub count: u8,
    pub piece: usize,
}

#[derive(Debug, Clone, Copy)]
pub struct Frame<'a> {
    pub count: u32,
    pub pointer: u32,
    pub field: &'a [u8],
}

/// What some octets are, looked at from their front.
#[derive(Debug, Clone, Copy, PartialEq, Eq)]
pub enum Seen {
    /// A packet of so many octets, whatever follows it.
    Packet(usize),
    /// As far as they go, a packet that is not too long.
    Unfinished,
    /// A packet, finished or not, of more octets than may come out.
    TooLong,
    /// By the reader, with this number, for another cause than their end.
    Refused(u8),
}

/// What became of the piece that the frames before had left.
#[derive(Debug, Clone, Copy, PartialEq, Eq)]
pub enum Fate {
    NoPiece,
    Finished,
    Longer,
    OutOfStep,
    MetIdle,
    /// With what piece and field were together.
    Contradicted(Seen),
}

/// What was found from the pointer on, after whole packets.
#[derive(Debug, Clone, Copy, PartialEq, Eq)]
pub enum Rest {
    /// The pointer says that there is nothing to read.
    Unread,
    /// Nothing: the last packet ends with the field.
    Even,
    /// A new piece of so many octets.
    Piece(usize),
    Dropped(Seen),
}

#[derive(Debug, Clone, Copy, PartialEq, Eq)]
pub struct Taken {
    pub packets: usize,
    pub octets: usize,
    pub fate: Fate,
    pub rest: Rest,
}

#[derive(Debug, Clone, Copy, PartialEq, Eq)]
pub enum Answer {
    Repeat,
    Taken(Taken),
}

/// Every cause of 28.
pub const GROUNDS: [&str; 6] = [
    "a field under 8 octets",
    "a field over 2046 octets",
    "a buffer that has not 8192 octets",
    "a count over 255",
    "an offset at or past the field's end",
    "a piece over 8191 octets",
];

impl Frame<'_> {
    /// The octets that belong to the piece, if it goes on.
    fn lead(&self) -> &[u8] {
        match self.pointer {
            NO_PACKET => self.field,
            IDLE_ONLY => &[],
            offset => &self.field[..offset as usize],
        }
    }

    /// The octets from the pointer on, unless it says that there are none.
    fn rest(&self) -> Option<&[u8]> {
        match self.pointer {
            NO_PACKET | IDLE_ONLY => None,
            offset => Some(&self.field[offset as usize..]),
        }
    }
}

impl Taken {
    pub fn gave_up(&self) -> bool {
        use Fate::{Contradicted, MetIdle, OutOfStep};
        matches!(self.fate, OutOfStep | MetIdle | Contradicted(_))
    }

    pub fn dropped(&self) -> bool {
        matches!(self.rest, Rest::Dropped(_))
    }
}

pub fn seen(octets: &[u8]) -> Seen {
    let too_long = |packet: usize| packet > LONGEST_FRAMED;
    match read(octets) {
        Ok(packet) if too_long(packet.octets()) => Seen::TooLong,
        Ok(packet) => Seen::Packet(packet.octets()),
        Err(fault) if fault.number > 1 => Seen::Refused(fault.number),
        // Before its header is whole nothing says how long a packet is.
        Err(_) if claimed(octets).is_some_and(too_long) => Seen::TooLong,
        Err(_) => Seen::Unfinished,
    }
}

impl Frames {
    /// Takes a frame. What is refused, or a repeat, changes nothing; else the
    /// packets lie at the front of the output, and the new piece at the front
    /// of the buffer.
    pub fn take(
        &mut self,
        frame: &Frame<'_>,
        buffer: &mut [u8],
        output: &mut [u8],
    ) -> Result<Answer, Refusal> {
        if !self.grounds(frame, buffer.len()).is_empty() {
            return Err(Refusal(28));
        }
        if output.len() < LEAST_OUTPUT {
            return Err(Refusal(9));
        }
        if self.is_repeat(frame) {
            return Ok(Answer::Repeat);
        }
        let joined = [&buffer[..self.piece], frame.lead()].concat();
        let fate = self.fate(frame, &joined);
        let (mut packets, mut piece) = (Vec::new(), Vec::new());
        match fate {
            Fate::Finished => packets.push(&joined[..]),
            Fate::Longer => piece.clone_from(&joined),
            _ => (),
        }
        let rest = read_on(frame.rest(), &mut packets, &mut piece);
        let finished = packets.concat();
        output[..finished.len()].copy_from_slice(&finished);
        buffer[..piece.len()].copy_from_slice(&piece);
        self.started = true;
        self.count = frame.count as u8;
        self.piece = piece.len();
        Ok(Answer::Taken(Taken {
            packets: packets.len(),
            octets: finished.len(),
            fate,
            rest,
        }))
    }

    /// The causes of 28 that hold.
    pub fn grounds(&self, frame: &Frame<'_>, buffer_octets: usize) -> Vec<&'static str> {
        let octets = frame.field.len();
        let offset = ![IDLE_ONLY, NO_PACKET].contains(&frame.pointer);
        let holds = [
            octets < *FIELD_OCTETS.start(),
            octets > *FIELD_OCTETS.end(),
            buffer_octets != BUFFER_OCTETS,
            frame.count > MOST_COUNT,
            offset && frame.pointer as usize >= octets,
            self.piece > LONGEST_PIECE,
        ];
        let grounds = GROUNDS.into_iter().zip(holds);
        grounds
            .filter_map(|(ground, holds)| holds.then_some(ground))
            .collect()
    }

    fn is_repeat(&self, frame: &Frame<'_>) -> bool {
        self.started && frame.count == u32::from(self.count)
    }

    /// The first frame is in step, whatever its count.
    fn in_step(&self, frame: &Frame<'_>) -> bool {
        !self.started || frame.count == (u32::from(self.count) + 1) % (MOST_COUNT + 1)
    }

    fn fate(&self, frame: &Frame<'_>, joined: &[u8]) -> Fate {
        if self.piece == 0 {
            return Fate::NoPiece;
        }
        if !self.in_step(frame) {
            return Fate::OutOfStep;
        }
        if frame.pointer == IDLE_ONLY {
            return Fate::MetIdle;
        }
        match seen(joined) {
            Seen::Packet(octets) if octets == joined.len() => Fate::Finished,
            Seen::Unfinished if frame.pointer == NO_PACKET => Fate::Longer,
            other => Fate::Contradicted(other),
        }
    }
}

/// Reads packets from the pointer on, and what is unfinished into the piece.
fn read_on<'a>(rest: Option<&'a [u8]>, packets: &mut Vec<&'a [u8]>, piece: &mut Vec<u8>) -> Rest {
    let Some(mut rest) = rest else {
        return Rest::Unread;
    };
    while !rest.is_empty() {
        match seen(rest) {
            Seen::Packet(octets) => {
                packets.push(&rest[..octets]);
                rest = &rest[octets..];
            }
            Seen::Unfinished => {
                piece.extend(rest);
                return Rest::Piece(rest.len());
            }
            other => return Rest::Dropped(other),
        }
    }
    Rest::Even
}
