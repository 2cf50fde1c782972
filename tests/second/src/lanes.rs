//! Up to eight lanes that join grouped packets and share one pool.
//!
//! Only open lanes are kept, so a closed one has nothing that could be left
//! over. A packet's whole outcome is reckoned before anything is changed: a
//! refusal then leaves everything by having done nothing.

mod lane;
mod packets;
mod pool;

pub use lane::{Accepted, Lane, Past, Settings, COUNTS, LONGEST_SECONDARY};
pub use packets::{Answer, LaneRefusal, Step};
pub use pool::{blocks_for, Group, BLOCKS, BLOCK_OCTETS, POOL_OCTETS};

use crate::reader::{first_ground, Refusal};
use crate::record::write_record;
use std::collections::{BTreeMap, BTreeSet};

pub const LANES: u8 = 8;

#[derive(Debug, Default)]
pub struct Lanes {
    open: BTreeMap<u8, Lane>,
}

impl Lanes {
    /// Eight closed lanes.
    pub fn fresh() -> Self {
        Lanes::default()
    }

    /// Open lanes by their numbers, as they stand elsewhere.
    pub fn taken_over(open: impl Iterator<Item = (u8, Lane)>) -> Self {
        let open = open.collect();
        Lanes { open }
    }

    pub fn open(&mut self, lane: u8, settings: Settings, pool: &[u8]) -> Result<(), Refusal> {
        let promised = usize::from(settings.share) + self.blocks_promised();
        first_ground(&[
            (24, pool.len() != POOL_OCTETS),
            (11, lane >= LANES),
            (21, self.open.contains_key(&lane)),
            (22, !settings.are_legal()),
            (23, promised > BLOCKS),
        ])?;
        self.open.insert(lane, Lane::new(settings));
        Ok(())
    }

    /// Writes the credit record. The pool is only asked for its size.
    pub fn close(&mut self, lane: u8, pool: &[u8], output: &mut [u8]) -> Result<(), Refusal> {
        first_ground(&[(24, pool.len() != POOL_OCTETS)])?;
        let open = self.lane(lane).ok_or(Refusal(11))?;
        write_record(&open.credit(), output)?;
        self.open.remove(&lane);
        Ok(())
    }

    /// The lane, if it is open. None over 7 ever is.
    pub fn lane(&self, lane: u8) -> Option<&Lane> {
        self.open.get(&lane)
    }

    pub fn open_lanes(&self) -> impl Iterator<Item = &Lane> {
        self.open.values()
    }

    /// The larger of share and held blocks, over all open lanes.
    pub fn blocks_promised(&self) -> usize {
        self.open_lanes().map(Lane::blocks_promised).sum()
    }

    /// The same over all open lanes but this one.
    pub fn blocks_promised_beside(&self, lane: &Lane) -> usize {
        self.blocks_promised() - lane.blocks_promised()
    }

    /// Each lane keeps of its packets only the sums.
    pub fn sum_up(&mut self) {
        self.open.values_mut().for_each(Lane::sum_up);
    }

    pub fn blocks_held(&self) -> BTreeSet<usize> {
        let groups = self.open_lanes().filter_map(|lane| lane.group.as_ref());
        groups.flat_map(|group| group.blocks.clone()).collect()
    }
}

#[cfg(test)]
mod tests;
