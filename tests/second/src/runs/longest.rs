//! The longest unit: a group that fills the pool and a last packet that is as
//! long as a packet can be.

use super::maker::Maker;
use super::moves::{self, Draft};
use super::talk;
use super::view::View;
use crate::lanes::{Settings, BLOCKS, BLOCK_OCTETS, COUNTS};
use crate::run_file::Call;

const LONGEST_DATA: usize = 65_536;
/// 16,384 octets of the group and 65,536 of the last packet.
pub const LONGEST_UNIT: usize = BLOCKS * BLOCK_OCTETS + LONGEST_DATA;

/// With an even seed the lane's blocks lie in rising order; with an odd one
/// another lane held the lowest when it began.
pub fn longest_unit(seed: u64) -> Vec<u8> {
    let mut maker = Maker::new(seed);
    let lane = maker.random.between(1, 7) as u8;
    let share = maker.random.pick(&[0, 64]) * u8::from(seed % 2 == 0);
    let settings = Settings::new(65_535, 2_046, [0, share, 64]);
    maker.call(&Call::Open { lane, settings });
    let first = maker.random.pick(&[0, 9, COUNTS - 2, COUNTS - 1]);
    if seed % 2 == 0 {
        packet(&mut maker, lane, [1, first], BLOCKS * BLOCK_OCTETS, 0);
    } else {
        fill_out_of_order(&mut maker, lane, first);
    }
    end(&mut maker, lane);
    talk::close_all(&mut maker);
    maker.file()
}

/// One octet more, for which there is no block; then the last packet with one
/// octet of space too few, and with enough.
fn end(maker: &mut Maker, lane: u8) {
    let last = View::of(maker, lane).last.expect("a group is open");
    let next = (last + 1) % COUNTS;
    let unit = LONGEST_UNIT as u32;
    let enough = maker.random.pick(&[unit, unit, 131_073, u32::MAX]);
    packet(maker, lane, [0, next], 1, 0);
    packet(maker, lane, [2, next], LONGEST_DATA, unit - 1);
    packet(maker, lane, [2, next], LONGEST_DATA, enough);
}

/// Lane 0 holds the lowest blocks and gives them free when this lane has the
/// others; then this one goes on.
fn fill_out_of_order(maker: &mut Maker, lane: u8, first: u32) {
    let settings = Settings::new(7, 42, [0, 0, 64]);
    maker.call(&Call::Open { lane: 0, settings });
    let low = maker.random.between(1, 63);
    packet(maker, 0, [1, 0], low * BLOCK_OCTETS, 0);
    packet(maker, lane, [1, first], (BLOCKS - low) * BLOCK_OCTETS, 0);
    maker.call(&Call::Close { lane: 0, space: 20 });
    packet(
        maker,
        lane,
        [0, (first + 1) % COUNTS],
        low * BLOCK_OCTETS,
        0,
    );
}

fn packet(maker: &mut Maker, lane: u8, fields: [u32; 2], user: usize, space: u32) {
    let view = View::of(maker, lane);
    let draft = moves::with_fields(&mut maker.random, &view, fields, user);
    moves::send(maker, lane, &Draft { space, ..draft });
}
