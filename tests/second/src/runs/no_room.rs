//! Runs in which packets find no room: over the lane's own cap, over what the
//! others leave, or over both. They come again when another lane made way.

use super::maker::Maker;
use super::moves;
use super::settings;
use super::talk;
use super::view::View;
use crate::lanes::{BLOCKS, COUNTS};
use crate::replay::Told;
use crate::run_file::Call;

/// So many blocks or fewer are left when one lane has taken nearly all.
const LEFT: usize = 4;

pub fn no_room(seed: u64) -> Vec<u8> {
    let mut maker = Maker::new(seed);
    let lanes = maker.random.between(2, 4) as u8;
    for _ in 0..maker.random.between(10, 24) {
        let lane = maker.random.below(lanes.into()) as u8;
        if maker.is_open(lane) {
            ask(&mut maker, lane, lanes);
        } else {
            open(&mut maker, lane);
        }
    }
    talk::close_all(&mut maker);
    maker.file()
}

/// A lane that finds much promises itself most of it, so that for the others
/// a few blocks are too many. Caps are a little over the shares.
fn open(maker: &mut Maker, lane: u8) {
    let left = BLOCKS - maker.lanes().blocks_promised();
    let few = maker.random.between(0, 3);
    let share = match left > LEFT {
        true => left - LEFT + few,
        false => few.min(left),
    };
    let cap = BLOCKS.min(share + maker.random.between(0, 4));
    let settings = settings::named(maker, [0, share as u8, cap as u8]);
    maker.call(&Call::Open { lane, settings });
}

/// Sends a packet that would be held, and the same again after another lane
/// made way. That helps against 27 at times, and against 19 never.
fn ask(maker: &mut Maker, lane: u8, lanes: u8) {
    let call = about_the_limits(maker, lane);
    let told = maker.call(&call);
    if let Told::Refused(19 | 27) = told {
        let others = (0..lanes).filter(|other| *other != lane && maker.is_open(*other));
        let others: Vec<u8> = others.collect();
        if !others.is_empty() {
            let other = maker.random.pick(&others);
            make_way(maker, other);
            maker.call(&call);
        }
    }
}

/// A packet that brings the group to the cap, to what the others leave or to
/// the larger of them, or an octet over it.
fn about_the_limits(maker: &mut Maker, lane: u8) -> Call {
    let view = View::of(maker, lane);
    let flags = match view.group {
        Some(_) => maker.random.pick(&[0, 0, 1]),
        None => 1,
    };
    let next = view.last.map_or(16_380, |last| (last + 1) % COUNTS);
    let limits = [view.cap, view.left, view.cap.max(view.left)];
    let end = maker.random.pick(&limits) + maker.random.between(0, 1);
    let user = end.saturating_sub(view.carried(flags));
    let draft = moves::with_fields(&mut maker.random, &view, [flags, next], user);
    moves::laid(maker, lane, &draft)
}

/// The lane's group ends, if it has one, or the lane is closed.
fn make_way(maker: &mut Maker, lane: u8) {
    let view = View::of(maker, lane);
    match (view.last, view.group) {
        (Some(last), Some(_)) if maker.random.one_in(2) => {
            let fields = [2, (last + 1) % COUNTS];
            let draft = moves::with_fields(&mut maker.random, &view, fields, 1);
            moves::send(maker, lane, &draft)
        }
        _ => moves::close(maker, lane),
    };
}
