//! Walks a run of packets that lie one after another.

use crate::reader::{read, Fault, Packet};

/// Gives each packet with its offset, and at the end the refusal, if one
/// stopped the walk; its place counts from the refused packet's own start.
/// Reaching the end of the octets exactly is no refusal.
pub struct Walk<'a> {
    octets: &'a [u8],
    offset: usize,
    stopped: bool,
}

pub fn walk(octets: &[u8]) -> Walk<'_> {
    Walk {
        octets,
        offset: 0,
        stopped: false,
    }
}

/// What a walk came to: the octets in whole packets, how many packets they
/// are, and the refusal that stopped it, if one did.
#[derive(Debug, Default, PartialEq, Eq)]
pub struct Outcome {
    pub octets: usize,
    pub packets: usize,
    pub fault: Option<Fault>,
}

pub fn outcome(octets: &[u8]) -> Outcome {
    let mut outcome = Outcome::default();
    for (_, answer) in walk(octets) {
        match answer {
            Ok(packet) => {
                outcome.octets += packet.octets();
                outcome.packets += 1;
            }
            Err(fault) => outcome.fault = Some(fault),
        }
    }
    outcome
}

impl<'a> Iterator for Walk<'a> {
    type Item = (usize, Result<Packet<'a>, Fault>);

    fn next(&mut self) -> Option<Self::Item> {
        if self.stopped || self.offset == self.octets.len() {
            return None;
        }
        let offset = self.offset;
        let answer = read(&self.octets[offset..]);
        match answer {
            Ok(packet) => self.offset += packet.octets(),
            Err(_) => self.stopped = true,
        }
        Some((offset, answer))
    }
}
