//! What becomes of a packet sent to a lane.

use super::lane::{Accepted, Lane, Settings};
use super::pool::{blocks_for, BLOCKS, POOL_OCTETS};
use super::Lanes;
use crate::reader::{first_ground, read, Fault, Packet, Refusal, Space};
use crate::record::MOST_PACKETS;

/// What an accepted packet tells beside its kind.
#[derive(Debug, Clone, Copy, PartialEq, Eq)]
pub struct Step {
    pub missing: u32,
    pub gave_up: bool,
}

#[derive(Debug, Clone, Copy, PartialEq, Eq)]
pub enum Answer {
    Repeat,
    Stray(Step),
    Held(Step),
    /// With the octets of the unit, which lies at the front of the output.
    Unit(Step, usize),
}

/// Why a lane doesn't take a packet.
#[derive(Debug, Clone, Copy, PartialEq, Eq)]
pub enum LaneRefusal {
    /// It can't be read, and what is told of that is passed on, place and all.
    Unread(Fault),
    Other(Refusal),
}

impl From<Fault> for LaneRefusal {
    fn from(fault: Fault) -> Self {
        LaneRefusal::Unread(fault)
    }
}

impl From<Refusal> for LaneRefusal {
    fn from(refusal: Refusal) -> Self {
        LaneRefusal::Other(refusal)
    }
}

/// What a packet comes to, if nothing stands against it.
struct Outcome {
    step: Step,
    becomes: Becomes,
}

enum Becomes {
    Stray,
    /// The lane's group then has so many octets, those before included.
    Held {
        octets: usize,
    },
    Unit(Vec<u8>),
}

impl Outcome {
    fn of(lane: &Lane, packet: &Space<'_>, user_data: &[u8]) -> Self {
        let missing = lane.missing_before(packet.count);
        let carries_on = missing == 0 && [0, 2].contains(&packet.flags);
        let group = lane.group.as_ref().filter(|_| carries_on);
        let becomes = match (packet.flags, group) {
            (3, _) => Becomes::Unit(user_data.to_vec()),
            (1, _) => Becomes::Held {
                octets: user_data.len(),
            },
            (_, None) => Becomes::Stray,
            (0, Some(group)) => Becomes::Held {
                octets: group.octets.len() + user_data.len(),
            },
            (_, Some(group)) => Becomes::Unit([&group.octets, user_data].concat()),
        };
        let gave_up = lane.group.is_some() && !carries_on;
        let step = Step { missing, gave_up };
        Outcome { step, becomes }
    }

    /// The blocks that the lane would hold. Only a packet that is held needs any.
    fn blocks(&self) -> usize {
        match self.becomes {
            Becomes::Held { octets } => blocks_for(octets),
            Becomes::Stray | Becomes::Unit(_) => 0,
        }
    }

    /// Only a unit needs output.
    fn output_octets(&self) -> usize {
        match &self.becomes {
            Becomes::Unit(unit) => unit.len(),
            Becomes::Stray | Becomes::Held { .. } => 0,
        }
    }
}

impl Lanes {
    pub fn packet(
        &mut self,
        lane: u8,
        octets: &[u8],
        pool: &mut [u8],
        output: &mut [u8],
    ) -> Result<Answer, LaneRefusal> {
        first_ground(&[(24, pool.len() != POOL_OCTETS)])?;
        let open = self.lane(lane).ok_or(Refusal(11))?;
        let packet = packet_for(&open.settings, octets)?;
        let user_data = &packet.data[open.settings.secondary.into()..];
        if open.last() == Some(packet.count) {
            return Ok(Answer::Repeat);
        }
        let outcome = Outcome::of(open, &packet, user_data);
        let blocks = outcome.blocks();
        let promised = open.blocks_promised_with(blocks) + self.blocks_promised_beside(open);
        first_ground(&[
            (18, open.packets() >= MOST_PACKETS),
            (19, blocks > open.settings.cap.into()),
            (27, promised > BLOCKS),
            (20, outcome.output_octets() > output.len()),
        ])?;
        self.note(lane, packet.count, &outcome);
        Ok(match outcome.becomes {
            Becomes::Stray => Answer::Stray(outcome.step),
            Becomes::Held { .. } => {
                self.hold(lane, packet.flags, user_data, pool);
                Answer::Held(outcome.step)
            }
            Becomes::Unit(unit) => {
                self.end_group(lane);
                output[..unit.len()].copy_from_slice(&unit);
                Answer::Unit(outcome.step, unit.len())
            }
        })
    }

    fn open_lane(&mut self, lane: u8) -> &mut Lane {
        self.open.get_mut(&lane).expect("the lane is open")
    }

    /// Puts the packet on the lane's list, and ends a group that it gives up,
    /// so that its blocks are free before others are taken.
    fn note(&mut self, lane: u8, count: u32, outcome: &Outcome) {
        let Step { missing, gave_up } = outcome.step;
        self.open_lane(lane).accept(Accepted {
            count,
            missing,
            gave_up,
            unit: matches!(outcome.becomes, Becomes::Unit(_)),
        });
        if gave_up {
            self.end_group(lane);
        }
    }

    fn end_group(&mut self, lane: u8) {
        self.open_lane(lane).group = None;
    }

    fn hold(&mut self, lane: u8, flags: u32, user_data: &[u8], pool: &mut [u8]) {
        let held = self.blocks_held();
        let free = (0..BLOCKS).filter(|block| !held.contains(block));
        let open = self.open_lane(lane);
        assert_eq!(flags == 1, open.group.is_none(), "a first packet opens");
        let group = open.group.get_or_insert_with(Default::default);
        group.grow(user_data, free, pool);
    }
}

/// The packet in these octets, if it is one for a lane with these settings.
fn packet_for<'a>(settings: &Settings, octets: &'a [u8]) -> Result<Space<'a>, LaneRefusal> {
    let packet = read(octets)?;
    first_ground(&[(12, packet.octets() < octets.len())])?;
    let Packet::Space(space) = packet else {
        return Err(Refusal(13).into());
    };
    first_ground(&[
        (14, space.packet_type == 1),
        (15, space.apid != u32::from(settings.apid)),
        (16, (space.secondary == 1) != (settings.secondary > 0)),
        (17, space.data.len() < settings.secondary.into()),
    ])?;
    Ok(space)
}
