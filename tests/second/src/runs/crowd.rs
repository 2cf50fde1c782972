//! Runs in which the pool is filled, given free and filled again.

use super::maker::Maker;
use super::moves;
use super::settings;
use super::talk;
use super::view::View;
use crate::lanes::{BLOCKS, BLOCK_OCTETS, COUNTS, LANES};
use crate::replay::Told;
use crate::run_file::Call;

/// What one turn does with a lane.
#[derive(Clone, Copy)]
enum Turn {
    /// A group grows by some blocks, or a first one opens.
    Grow,
    /// It grows as far as it can, or an octet more or less.
    Fill,
    /// A last packet ends it.
    End,
    /// A first packet takes its place, with another number of blocks.
    Replace,
    /// A packet after a gap gives it up.
    Lose,
    Close,
}

const TURNS: [Turn; 12] = [
    Turn::Grow,
    Turn::Grow,
    Turn::Grow,
    Turn::Grow,
    Turn::Fill,
    Turn::Fill,
    Turn::Fill,
    Turn::End,
    Turn::End,
    Turn::Replace,
    Turn::Lose,
    Turn::Close,
];

pub fn crowd(seed: u64) -> Vec<u8> {
    let mut maker = Maker::new(seed);
    let lanes = maker.random.between(2, LANES.into()) as u32;
    for lane in 0..lanes as u8 {
        open(&mut maker, lane);
    }
    for _ in 0..maker.random.between(20, 50) {
        let lane = maker.random.below(lanes) as u8;
        if maker.is_open(lane) {
            let turn = maker.random.pick(&TURNS);
            take(&mut maker, lane, turn);
        } else {
            open(&mut maker, lane);
        }
    }
    talk::close_all(&mut maker);
    maker.file()
}

/// The same, with a group open in each of the eight lanes at the beginning.
pub fn full_house(seed: u64) -> Vec<u8> {
    let mut maker = Maker::new(seed);
    for lane in 0..LANES {
        let cap = maker.random.pick(&[8, 20, 64, 64]);
        let share = maker.random.pick(&[0, 0, 1, 8]);
        let settings = settings::named(&mut maker, [0, share, cap]);
        maker.call(&Call::Open { lane, settings });
        take(&mut maker, lane, Turn::Grow);
    }
    for _ in 0..maker.random.between(20, 50) {
        let lane = maker.random.below(LANES.into()) as u8;
        let turn = maker.random.pick(&TURNS);
        take(&mut maker, lane, turn);
    }
    talk::close_all(&mut maker);
    maker.file()
}

/// Shares of which many may come together, and caps that seldom bind.
fn open(maker: &mut Maker, lane: u8) {
    let left = BLOCKS - maker.lanes().blocks_promised();
    let part = maker.random.between(0, left.min(20));
    let share = maker.random.pick(&[0, 0, part, part, left]).min(left);
    let over = maker.random.between(0, BLOCKS - share);
    let cap = share + maker.random.pick(&[BLOCKS - share, BLOCKS - share, over]);
    let secondary = maker.random.pick(&[0, 0, 0, 5]);
    let numbers = [secondary, share as u8, cap as u8];
    let settings = settings::named(maker, numbers);
    maker.call(&Call::Open { lane, settings });
}

fn take(maker: &mut Maker, lane: u8, turn: Turn) -> Told {
    let view = View::of(maker, lane);
    let next = view.last.map_or(16_380, |last| (last + 1) % COUNTS);
    let after_gap = (next + maker.random.between(1, 3) as u32) % COUNTS;
    let grows = if view.group.is_some() { 0 } else { 1 };
    let octets = some_blocks(maker);
    match turn {
        Turn::Grow => send(maker, lane, [grows, next], octets),
        Turn::Fill => {
            let octets = up_to_the_reach(maker, view.reach(), view.carried(grows));
            send(maker, lane, [grows, next], octets)
        }
        Turn::End => send(maker, lane, [2, next], octets % 300),
        Turn::Replace => {
            let whole = up_to_the_reach(maker, view.reach(), 0);
            let octets = maker.random.pick(&[octets, octets, whole]);
            send(maker, lane, [1, next], octets)
        }
        Turn::Lose => {
            let flags = maker.random.below(4);
            send(maker, lane, [flags, after_gap], octets)
        }
        Turn::Close => moves::close(maker, lane),
    }
}

fn send(maker: &mut Maker, lane: u8, fields: [u32; 2], user: usize) -> Told {
    let view = View::of(maker, lane);
    let draft = moves::with_fields(&mut maker.random, &view, fields, user);
    moves::send(maker, lane, &draft)
}

fn some_blocks(maker: &mut Maker) -> usize {
    let blocks = maker.random.between(0, 8) * BLOCK_OCTETS;
    blocks + maker.random.between(0, 300)
}

/// As many octets as bring the group to its reach, or one more or less, or
/// one block less.
fn up_to_the_reach(maker: &mut Maker, reach: usize, carried: usize) -> usize {
    let about = [reach, reach, reach, reach + 1, reach.max(1) - 1];
    let end = maker.random.pick(&about);
    end.saturating_sub(carried)
}
