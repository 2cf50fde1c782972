//! Cases by hand: frames, each with the answer that the order's words give it.
//!
//! The answers stand here as octets and flags and are not worked out, so that
//! this program's own rule is tried by them as much as a library is.

mod limits;
mod long;
mod pieces;
mod steps;

use super::file::{laid, FileFrame};
use super::{Frames, BUFFER_OCTETS, LEAST_OUTPUT};
use crate::forge::{EncapHead, SpaceHead};
use crate::hex;

pub struct Case {
    pub name: String,
    pub state: Frames,
    /// What lies at the front of the buffer.
    pub piece: Vec<u8>,
    pub steps: Vec<Step>,
}

/// One frame, lent a buffer and an output of such lengths.
#[derive(Clone)]
pub struct Step {
    pub count: u32,
    pub pointer: u32,
    pub field: Vec<u8>,
    pub buffer: usize,
    pub room: usize,
    pub gives: Gives,
}

#[derive(Clone, Debug, PartialEq, Eq)]
pub enum Gives {
    Refused(u8),
    Repeat,
    Taken(Given),
}

#[derive(Clone, Debug, PartialEq, Eq)]
pub struct Given {
    pub packets: usize,
    /// The packets, one after another.
    pub out: Vec<u8>,
    pub given_up: bool,
    pub dropped: bool,
    /// The piece after the frame.
    pub piece: Vec<u8>,
}

impl Case {
    /// The frames as a frame file, if they begin afresh, their numbers fit its
    /// fields, and what is lent is what is lent for every file.
    pub fn file(&self) -> Option<Vec<u8>> {
        let fresh = self.state == Frames::default();
        let frames: Option<Vec<FileFrame>> = self.steps.iter().map(Step::in_file).collect();
        frames.filter(|_| fresh).map(|frames| laid(&frames))
    }
}

impl Step {
    fn in_file(&self) -> Option<FileFrame> {
        let lent = (self.buffer, self.room) == (BUFFER_OCTETS, LEAST_OUTPUT);
        let fits = lent && self.field.len() <= u16::MAX.into();
        Some(FileFrame {
            count: self.count.try_into().ok()?,
            pointer: self.pointer.try_into().ok()?,
            field: self.field.clone(),
        })
        .filter(|_| fits)
    }
}

pub fn all() -> Vec<Case> {
    [
        limits::cases(),
        steps::cases(),
        pieces::cases(),
        long::cases(),
    ]
    .into_iter()
    .flatten()
    .collect()
}

/// A case that begins afresh.
fn fresh(name: impl Into<String>, steps: Vec<Step>) -> Case {
    let (name, state, piece) = (name.into(), Frames::default(), Vec::new());
    Case {
        name,
        state,
        piece,
        steps,
    }
}

/// A case of one frame after one of count 5 that has left this piece.
fn after_5(name: impl Into<String>, piece: &[u8], step: Step) -> Case {
    Case {
        name: name.into(),
        state: Frames {
            started: true,
            count: 5,
            piece: piece.len(),
        },
        piece: piece.to_vec(),
        steps: vec![step],
    }
}

fn frame(count: u32, pointer: u32, field: &[u8], gives: Gives) -> Step {
    Step {
        count,
        pointer,
        field: field.to_vec(),
        buffer: BUFFER_OCTETS,
        room: LEAST_OUTPUT,
        gives,
    }
}

/// Whole packets that come out, whether a piece is given up and the rest
/// dropped, and the piece that is left.
fn taken(packets: &[&[u8]], [given_up, dropped]: [bool; 2], piece: &[u8]) -> Gives {
    Gives::Taken(Given {
        packets: packets.len(),
        out: packets.concat(),
        given_up,
        dropped,
        piece: piece.to_vec(),
    })
}

const QUIET: [bool; 2] = [false, false];
const GIVEN_UP: [bool; 2] = [true, false];
const DROPPED: [bool; 2] = [false, true];
const BOTH: [bool; 2] = [true, true];

/// An idle packet of one octet.
const IDLE: &[u8] = &[0xE0];

/// So many idle packets of one octet come out, and nothing else happens.
fn idle(packets: usize) -> Gives {
    taken(&vec![IDLE; packets], QUIET, &[])
}

/// Octets that tell their place, for the inside of packets.
fn data(octets: usize) -> Vec<u8> {
    (0..octets).map(|place| (place % 251) as u8).collect()
}

/// A Space Packet of so many octets in all.
fn space(octets: usize) -> Vec<u8> {
    SpaceHead::new([0, 0, 42, 3, 5]).with(&data(octets - 6))
}

/// An Encapsulation Packet of so many octets in all, with the longest header.
fn encap(octets: usize) -> Vec<u8> {
    let head = EncapHead {
        protocol: 2,
        length_of_length: 3,
        ..EncapHead::default()
    };
    head.with(&data(octets - head.octets()))
}

fn octets(text: &str) -> Vec<u8> {
    hex::octets(text)
}
