//! One open lane: its settings, what it has accepted, its open group.

use super::pool::{self, Group};
use crate::record::{Record, HIGHEST_APID};

/// The count field has 14 bits.
pub const COUNTS: u32 = 16_384;
pub const LONGEST_SECONDARY: u8 = 63;

#[derive(Debug, Clone, Copy, Default, PartialEq, Eq)]
pub struct Settings {
    pub station: u16,
    pub apid: u16,
    pub secondary: u8,
    pub share: u8,
    pub cap: u8,
}

impl Settings {
    /// Secondary length, share and cap come last.
    pub fn new(station: u16, apid: u16, [secondary, share, cap]: [u8; 3]) -> Self {
        Settings {
            station,
            apid,
            secondary,
            share,
            cap,
        }
    }

    pub fn are_legal(&self) -> bool {
        self.apid <= HIGHEST_APID
            && self.secondary <= LONGEST_SECONDARY
            && self.share <= self.cap
            && usize::from(self.cap) <= pool::BLOCKS
    }
}

/// What one accepted packet adds to the tallies.
#[derive(Debug, Clone, Copy, PartialEq, Eq)]
pub struct Accepted {
    pub count: u32,
    pub missing: u32,
    pub gave_up: bool,
    pub unit: bool,
}

/// The packets that a lane's list doesn't name one by one, and of which only
/// these sums are known.
#[derive(Debug, Clone, Copy, Default, PartialEq, Eq)]
pub struct Past {
    pub units: u32,
    pub packets: u32,
    pub missing: u32,
    pub broken: u32,
    /// The last one's count, if there were any.
    pub last: u32,
}

#[derive(Debug)]
pub struct Lane {
    pub settings: Settings,
    /// Nothing, unless the lane was taken over from elsewhere.
    past: Past,
    /// Every accepted packet since in turn: the tallies are counted from these,
    /// so there is no tally that could fall out of step.
    accepted: Vec<Accepted>,
    pub group: Option<Group>,
}

impl Lane {
    pub fn new(settings: Settings) -> Self {
        Lane::taken_over(settings, Past::default(), None)
    }

    pub fn taken_over(settings: Settings, past: Past, group: Option<Group>) -> Self {
        Lane {
            settings,
            past,
            accepted: Vec::new(),
            group,
        }
    }

    pub fn accept(&mut self, packet: Accepted) {
        self.accepted.push(packet);
    }

    pub fn packets(&self) -> u32 {
        self.past.packets + self.accepted.len() as u32
    }

    /// The count of the last accepted packet, if there is one.
    pub fn last(&self) -> Option<u32> {
        let before = (self.past.packets > 0).then_some(self.past.last);
        let listed = self.accepted.last().map(|accepted| accepted.count);
        listed.or(before)
    }

    /// All accepted packets as sums.
    pub fn past(&self) -> Past {
        let units = self.accepted.iter().filter(|packet| packet.unit).count();
        let gave_up = self.accepted.iter().filter(|packet| packet.gave_up).count();
        let missing: u32 = self.accepted.iter().map(|packet| packet.missing).sum();
        Past {
            units: self.past.units + units as u32,
            packets: self.packets(),
            missing: self.past.missing + missing,
            broken: self.past.broken + gave_up as u32,
            last: self.last().unwrap_or(self.past.last),
        }
    }

    /// Keeps only the sums. A run that asks for them after each of very many
    /// packets would else count a long list over and over.
    pub fn sum_up(&mut self) {
        self.past = self.past();
        self.accepted.clear();
    }

    /// How many packets are missing between the last accepted one and this one.
    pub fn missing_before(&self, count: u32) -> u32 {
        let Some(last) = self.last() else {
            return 0;
        };
        let step = i64::from(count) - i64::from(last);
        (step - 1).rem_euclid(COUNTS.into()) as u32
    }

    pub fn blocks_held(&self) -> usize {
        self.group.as_ref().map_or(0, |group| group.blocks.len())
    }

    /// The blocks that no other lane may have: those held, or the share.
    pub fn blocks_promised(&self) -> usize {
        self.blocks_promised_with(self.blocks_held())
    }

    /// The same if the lane held so many, whatever it holds now.
    pub fn blocks_promised_with(&self, held: usize) -> usize {
        held.max(self.settings.share.into())
    }

    /// The record if the lane were closed now, when an open group breaks too.
    pub fn credit(&self) -> Record {
        let past = self.past();
        let broken = past.broken + u32::from(self.group.is_some());
        let tallies = [past.units, past.packets, past.missing, broken];
        Record::new(self.settings.station, self.settings.apid, tallies)
    }
}

#[cfg(test)]
mod tests {
    use super::*;

    fn missing(last: u32, count: u32) -> u32 {
        let mut lane = Lane::new(Settings::default());
        lane.accept(packet(last));
        lane.missing_before(count)
    }

    fn packet(count: u32) -> Accepted {
        Accepted {
            count,
            missing: 0,
            gave_up: false,
            unit: true,
        }
    }

    #[test]
    fn the_papers_steps() {
        assert_eq!(missing(16_383, 0), 0);
        assert_eq!(missing(5, 9), 3);
        assert_eq!(missing(9, 5), 16_379);
        assert_eq!(missing(5, 4), 16_382);
        assert_eq!(missing(5, 6), 0);
        assert_eq!(Lane::new(Settings::default()).missing_before(9), 0);
    }

    #[test]
    fn sums_and_list_together() {
        let past = Past {
            units: 3,
            packets: 5,
            missing: 70,
            broken: 1,
            last: 9,
        };
        let mut lane = Lane::taken_over(Settings::default(), past, None);
        assert_eq!((lane.past(), lane.last()), (past, Some(9)));
        lane.accept(Accepted {
            missing: 4,
            gave_up: true,
            ..packet(14)
        });
        let together = [4, 6, 74, 2];
        assert_eq!(lane.credit(), Record::new(0, 0, together));
        lane.sum_up();
        assert_eq!(lane.credit(), Record::new(0, 0, together));
        assert_eq!(lane.last(), Some(14));
    }

    #[test]
    fn a_last_count_without_packets_is_none() {
        let last = Past {
            last: 9,
            ..Past::default()
        };
        let lane = Lane::taken_over(Settings::default(), last, None);
        assert_eq!((lane.last(), lane.missing_before(10)), (None, 0));
        assert_eq!(lane.past(), last);
    }

    #[test]
    fn limits_of_the_settings() {
        let legal = |apid, numbers| Settings::new(7, apid, numbers).are_legal();
        assert!(legal(2_046, [63, 64, 64]) && legal(0, [0, 0, 0]));
        assert!(!legal(2_047, [0, 0, 0]) && !legal(42, [64, 0, 0]));
        assert!(!legal(42, [0, 2, 1]) && !legal(42, [0, 0, 65]));
    }
}
