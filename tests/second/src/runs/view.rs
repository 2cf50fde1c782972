//! What there is to know of a lane when the next packet for it is chosen.

use super::maker::Maker;
use crate::lanes::{blocks_for, Lane, BLOCKS, BLOCK_OCTETS};

#[derive(Debug, Clone, Copy, Default)]
pub struct View {
    pub apid: u32,
    pub secondary: usize,
    pub last: Option<u32>,
    /// The octets of the open group, if there is one.
    pub group: Option<usize>,
    /// In octets, as are the next two.
    pub share: usize,
    pub cap: usize,
    /// What the other lanes leave to this one.
    pub left: usize,
}

impl View {
    /// A lane that isn't open looks like a new one without room.
    pub fn of(maker: &Maker, lane: u8) -> Self {
        let Some(open) = maker.lane(lane) else {
            return View {
                apid: 42,
                ..View::default()
            };
        };
        let left = BLOCKS - maker.lanes().blocks_promised_beside(open);
        View {
            apid: open.settings.apid.into(),
            secondary: open.settings.secondary.into(),
            last: open.last(),
            group: octets_of_group(open),
            share: usize::from(open.settings.share) * BLOCK_OCTETS,
            cap: usize::from(open.settings.cap) * BLOCK_OCTETS,
            left: left * BLOCK_OCTETS,
        }
    }

    /// The most octets that the lane's group could come to.
    pub fn reach(&self) -> usize {
        self.cap.min(self.left)
    }

    /// The octets that a packet with these flags is added to, if it comes
    /// without a gap.
    pub fn carried(&self, flags: u32) -> usize {
        match flags {
            0 | 2 => self.group.unwrap_or(0),
            _ => 0,
        }
    }

    /// The octets at which the group's last block ends.
    pub fn block_end(&self) -> usize {
        blocks_for(self.group.unwrap_or(0)) * BLOCK_OCTETS
    }
}

fn octets_of_group(lane: &Lane) -> Option<usize> {
    lane.group.as_ref().map(|group| group.octets.len())
}
