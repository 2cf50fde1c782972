//! The text of a run: a line for each call, from a fresh start.

use crate::adler::adler32;
use crate::lanes::{Answer, LaneRefusal, Lanes, Step, POOL_OCTETS};
use crate::reader::{Fault, Refusal};
use crate::record::{Record, RECORD_OCTETS};
use crate::run_file::Call;

pub const LONGEST_RUN: usize = 1_048_576;
/// A call that gives more space than this is made with this much.
pub const MOST_SPACE: usize = 131_072;

/// What a call told.
#[derive(Debug, Clone, Copy, PartialEq, Eq)]
pub enum Told {
    Opened,
    Repeat,
    Stray(Step),
    Held(Step),
    /// With the unit's length and its checksum.
    Unit(Step, usize, u32),
    Closed(Record),
    /// A packet that can't be read: a refusal with its place.
    Unread(Fault),
    /// By its number, which is all that there is to tell.
    Refused(u8),
}

impl From<Refusal> for Told {
    fn from(Refusal(number): Refusal) -> Self {
        Told::Refused(number)
    }
}

impl From<LaneRefusal> for Told {
    fn from(refusal: LaneRefusal) -> Self {
        match refusal {
            LaneRefusal::Unread(fault) => Told::Unread(fault),
            LaneRefusal::Other(refusal) => refusal.into(),
        }
    }
}

/// Makes calls one after another, with one pool and one output for all.
pub struct Player {
    pub lanes: Lanes,
    pool: Vec<u8>,
    output: Vec<u8>,
}

impl Player {
    pub fn new() -> Self {
        Player {
            lanes: Lanes::fresh(),
            pool: vec![0; POOL_OCTETS],
            output: vec![0; MOST_SPACE],
        }
    }

    pub fn play(&mut self, call: &Call) -> Told {
        match call {
            Call::Open { lane, settings } => {
                let opened = self.lanes.open(*lane, *settings, &self.pool);
                opened.map_or_else(Told::from, |()| Told::Opened)
            }
            Call::Packet {
                lane,
                space,
                octets,
            } => {
                let told = self.packet(*lane, *space, octets);
                told.unwrap_or_else(Told::from)
            }
            Call::Close { lane, space } => {
                let told = self.close(*lane, *space);
                told.unwrap_or_else(Told::from)
            }
        }
    }

    fn packet(&mut self, lane: u8, space: u32, octets: &[u8]) -> Result<Told, LaneRefusal> {
        let output = &mut self.output[..MOST_SPACE.min(space as usize)];
        let answer = self.lanes.packet(lane, octets, &mut self.pool, output)?;
        Ok(match answer {
            Answer::Repeat => Told::Repeat,
            Answer::Stray(step) => Told::Stray(step),
            Answer::Held(step) => Told::Held(step),
            Answer::Unit(step, length) => Told::Unit(step, length, adler32(&output[..length])),
        })
    }

    /// The record is told as it lies in the output.
    fn close(&mut self, lane: u8, space: u32) -> Result<Told, Refusal> {
        let output = &mut self.output[..MOST_SPACE.min(space as usize)];
        self.lanes.close(lane, &self.pool, output)?;
        Ok(Told::Closed(Record::taken(&output[..RECORD_OCTETS])))
    }
}

impl Default for Player {
    fn default() -> Self {
        Player::new()
    }
}

/// The whole text, each line with its newline.
pub fn text(input: &[u8]) -> String {
    watched(input, |_, _, _| ())
}

/// The whole text; the watcher is shown each call, what it told, and the lanes
/// after it.
pub fn watched(input: &[u8], mut watch: impl FnMut(&Call, &Told, &Lanes)) -> String {
    if input.len() > LONGEST_RUN {
        return "too long\n".to_string();
    }
    let mut player = Player::new();
    let (mut text, mut offset, mut calls) = (String::new(), 0, 0);
    while offset < input.len() {
        let Ok((call, octets)) = Call::taken(&input[offset..]) else {
            text.push_str(&format!("{offset} bad\n"));
            break;
        };
        let told = player.play(&call);
        watch(&call, &told, &player.lanes);
        text.push_str(&format!("{offset} {} {}\n", name(&call), shown(&told)));
        offset += octets;
        calls += 1;
    }
    let sum = adler32(&player.pool);
    text + &format!("end {offset} {calls} {sum}\n")
}

fn name(call: &Call) -> String {
    match call {
        Call::Open { lane, .. } => format!("open {lane}"),
        Call::Packet { lane, .. } => format!("packet {lane}"),
        Call::Close { lane, .. } => format!("close {lane}"),
    }
}

pub fn shown(told: &Told) -> String {
    match told {
        Told::Opened => "ok".to_string(),
        Told::Repeat => "repeat".to_string(),
        Told::Stray(step) => format!("stray {}", shown_step(step)),
        Told::Held(step) => format!("held {}", shown_step(step)),
        Told::Unit(step, length, sum) => format!("unit {} {length} {sum}", shown_step(step)),
        Told::Closed(record) => {
            let numbers = record.numbers().map(|number| number.to_string());
            format!("record {}", numbers.join(" "))
        }
        Told::Unread(fault) => format!("refused {fault}"),
        Told::Refused(number) => format!("refused {number}"),
    }
}

fn shown_step(step: &Step) -> String {
    format!("{} {}", step.missing, u8::from(step.gave_up))
}

#[cfg(test)]
mod tests;
