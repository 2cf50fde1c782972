//! Makes a run file call by call, and plays each call at once, so that the
//! next one can be chosen by what the lanes have come to.

use crate::lanes::{Lane, Lanes, LANES};
use crate::random::Random;
use crate::replay::{Player, Told};
use crate::run_file::Call;

pub struct Maker {
    pub random: Random,
    player: Player,
    file: Vec<u8>,
}

impl Maker {
    pub fn new(seed: u64) -> Self {
        Maker {
            random: Random::new(seed),
            player: Player::new(),
            file: Vec::new(),
        }
    }

    pub fn call(&mut self, call: &Call) -> Told {
        self.file.extend(call.laid());
        self.player.play(call)
    }

    pub fn lanes(&self) -> &Lanes {
        &self.player.lanes
    }

    pub fn lane(&self, lane: u8) -> Option<&Lane> {
        self.lanes().lane(lane)
    }

    pub fn is_open(&self, lane: u8) -> bool {
        self.lane(lane).is_some()
    }

    /// Mostly one of the eight.
    pub fn any_lane(&mut self) -> u8 {
        let over = self.random.between(LANES.into(), 255) as u8;
        let lane = self.random.below(LANES.into()) as u8;
        match self.random.below(80) {
            0 => over,
            1 => LANES,
            _ => lane,
        }
    }

    pub fn octets(&self) -> usize {
        self.file.len()
    }

    pub fn file(self) -> Vec<u8> {
        self.file
    }
}
