//! Single calls that fit what a lane has come to.

use super::maker::Maker;
use super::settings;
use super::view::View;
use super::wrong;
use crate::forge::SpaceHead;
use crate::lanes::{BLOCK_OCTETS, COUNTS};
use crate::random::Random;
use crate::replay::Told;
use crate::run_file::Call;

/// No data field is longer.
const LONGEST_DATA: usize = 65_536;

/// A packet for a lane, as it is before its octets are laid.
#[derive(Clone, Copy)]
pub struct Draft {
    pub head: SpaceHead,
    /// Octets of the data field.
    pub data: usize,
    pub space: u32,
}

pub fn open(maker: &mut Maker, lane: u8) -> Told {
    let settings = match maker.random.below(16) {
        0 => settings::illegal(maker),
        1..=3 => settings::at_the_limits(maker),
        _ => settings::good(maker),
    };
    maker.call(&Call::Open { lane, settings })
}

pub fn close(maker: &mut Maker, lane: u8) -> Told {
    let spaces = [20, 20, 20, 20, 21, 64, 131_073, u32::MAX, 19, 19, 0];
    let space = maker.random.pick(&spaces);
    maker.call(&Call::Close { lane, space })
}

/// A packet that the lane could take, but for what it has come to.
pub fn packet(maker: &mut Maker, lane: u8, most: usize) -> Told {
    let view = View::of(maker, lane);
    let draft = draft(&mut maker.random, &view, most);
    send(maker, lane, &draft)
}

pub fn send(maker: &mut Maker, lane: u8, draft: &Draft) -> Told {
    let call = laid(maker, lane, draft);
    maker.call(&call)
}

/// The call that sends a packet, to be made at once or more than once.
pub fn laid(maker: &mut Maker, lane: u8, draft: &Draft) -> Call {
    let octets = draft.head.with(&maker.random.octets(draft.data));
    let space = draft.space;
    Call::Packet {
        lane,
        space,
        octets,
    }
}

/// A packet with at most so many octets of user data that nearly always comes
/// after the last one.
pub fn next_packet(maker: &mut Maker, lane: u8, most: usize) -> Told {
    let view = View::of(maker, lane);
    let flags = flags(&mut maker.random, &view);
    let step = if maker.random.one_in(1_000) { 2 } else { 1 };
    let count = view.last.map_or(0, |last| (last + step) % COUNTS);
    let draft = with_fields(&mut maker.random, &view, [flags, count], most);
    send(maker, lane, &draft)
}

/// A packet with something wrong about it, or with several such things.
pub fn wrong_packet(maker: &mut Maker, lane: u8) -> Told {
    let view = View::of(maker, lane);
    let draft = draft(&mut maker.random, &view, 40);
    let octets = wrong::octets(&mut maker.random, &draft, view.secondary);
    let space = draft.space;
    maker.call(&Call::Packet {
        lane,
        space,
        octets,
    })
}

/// A good packet with at most so many octets of user data.
fn draft(random: &mut Random, view: &View, most: usize) -> Draft {
    let flags = flags(random, view);
    let count = count(random, view);
    let user = user_octets(random, view, flags, most);
    with_fields(random, view, [flags, count], user)
}

/// A good packet with such flags, count and octets of user data, and a space
/// that mostly suffices.
pub fn with_fields(random: &mut Random, view: &View, fields: [u32; 2], user: usize) -> Draft {
    let [flags, count] = fields;
    let secondary = u32::from(view.secondary > 0);
    let fewest = usize::from(view.secondary == 0);
    let user = user.clamp(fewest, LONGEST_DATA - view.secondary);
    let unit = view.carried(flags) + user;
    Draft {
        head: SpaceHead::new([0, secondary, view.apid, flags, count]),
        data: view.secondary + user,
        space: space(random, unit as u32),
    }
}

fn flags(random: &mut Random, view: &View) -> u32 {
    match view.group {
        Some(_) => random.pick(&[0, 0, 0, 0, 2, 2, 1, 3]),
        None => random.pick(&[1, 1, 1, 1, 3, 3, 0, 2]),
    }
}

pub fn count(random: &mut Random, view: &View) -> u32 {
    let any = random.below(COUNTS);
    let few = random.between(2, 9) as u32;
    let Some(last) = view.last else {
        return random.pick(&[0, 1, COUNTS - 3, COUNTS - 2, COUNTS - 1, any]);
    };
    let step = match random.below(24) {
        0..=15 => 1,
        16..=17 => 0,
        18 => 2,
        19 => few,
        20 => COUNTS - few,
        21 => COUNTS - 1,
        _ => any,
    };
    (last + step) % COUNTS
}

/// Few octets, or as many as bring the group to the end of a block, to its
/// share or to its reach, or one octet to either side of that.
fn user_octets(random: &mut Random, view: &View, flags: u32, most: usize) -> usize {
    let few = random.between(1, 12);
    let block_ends = view.block_end() + random.between(0, 2) * BLOCK_OCTETS;
    let octets = match random.below(12) {
        0 => 0,
        1..=5 => few,
        6 => random.between(0, most),
        turn => {
            let reach = view.reach();
            let about = [block_ends, block_ends, view.share, reach, reach];
            let end = about[turn as usize - 7] + random.between(0, 2);
            end.saturating_sub(view.carried(flags) + 1)
        }
    };
    if octets > most {
        few
    } else {
        octets
    }
}

fn space(random: &mut Random, unit: u32) -> u32 {
    match random.below(16) {
        0 => 0,
        1..=2 => unit.saturating_sub(1),
        3 => unit + 1,
        4 => 131_072,
        5 => 131_073,
        6 => u32::MAX,
        _ => unit,
    }
}
