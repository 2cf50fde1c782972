//! Runs in which all lanes talk, each kind leaning to something else.

use super::maker::Maker;
use super::moves;
use super::settings;
use super::view::View;
use crate::lanes::LANES;
use crate::run_file::Call;

/// Long enough for a few blocks, short enough for small files.
const MOST: usize = 700;

/// All kinds of calls to all lanes, mostly with few octets.
pub fn talk(seed: u64) -> Vec<u8> {
    let mut maker = Maker::new(seed);
    for lane in 0..LANES {
        moves::open(&mut maker, lane);
    }
    for _ in 0..maker.random.between(10, 60) {
        step(&mut maker);
    }
    if maker.random.one_in(2) {
        close_all(&mut maker);
    }
    maker.file()
}

/// One call of any kind to any lane.
pub fn step(maker: &mut Maker) {
    let lane = maker.any_lane();
    let closed = !maker.is_open(lane);
    match maker.random.below(24) {
        0 => moves::open(maker, lane),
        1 => moves::close(maker, lane),
        2 => moves::wrong_packet(maker, lane),
        3..=20 if closed => moves::open(maker, lane),
        _ => moves::packet(maker, lane, MOST),
    };
}

pub fn close_all(maker: &mut Maker) {
    for lane in 0..LANES {
        maker.call(&Call::Close { lane, space: 20 });
    }
}

/// Few lanes and few octets, but many counts: steps, repeats, gaps and wraps.
pub fn counts(seed: u64) -> Vec<u8> {
    let mut maker = Maker::new(seed);
    let lanes = maker.random.between(1, 3) as u32;
    for lane in 0..lanes as u8 {
        moves::open(&mut maker, lane);
    }
    for _ in 0..maker.random.between(20, 120) {
        let lane = maker.random.below(lanes) as u8;
        moves::packet(&mut maker, lane, 12);
    }
    close_all(&mut maker);
    maker.file()
}

/// Lanes with a secondary header, and packets of which most hold nothing else.
pub fn empty_data(seed: u64) -> Vec<u8> {
    let mut maker = Maker::new(seed);
    for lane in 0..3 {
        let any = maker.random.between(1, 63) as u8;
        let secondary = maker.random.pick(&[1, 2, 63, any]);
        let cap = maker.random.pick(&[0, 0, 1, 64]);
        let settings = settings::named(&mut maker, [secondary, 0, cap]);
        maker.call(&Call::Open { lane, settings });
    }
    for _ in 0..maker.random.between(15, 60) {
        let lane = maker.random.below(3) as u8;
        let view = View::of(&maker, lane);
        let flags = maker.random.below(4);
        let count = moves::count(&mut maker.random, &view);
        let user = maker.random.pick(&[0, 0, 0, 1, 2, 300]);
        let draft = moves::with_fields(&mut maker.random, &view, [flags, count], user);
        moves::send(&mut maker, lane, &draft);
    }
    close_all(&mut maker);
    maker.file()
}

/// Openings and closings, with groups now and then that hold more than a share.
pub fn openings(seed: u64) -> Vec<u8> {
    let mut maker = Maker::new(seed);
    for _ in 0..maker.random.between(10, 50) {
        let lane = maker.any_lane();
        match maker.random.below(8) {
            0..=1 => moves::close(&mut maker, lane),
            2..=3 if maker.is_open(lane) => moves::packet(&mut maker, lane, MOST),
            4 => {
                let settings = settings::illegal(&mut maker);
                maker.call(&Call::Open { lane, settings })
            }
            _ => {
                let settings = settings::at_the_limits(&mut maker);
                maker.call(&Call::Open { lane, settings })
            }
        };
    }
    maker.file()
}

/// Wrong packets between good ones, which must not show in what follows.
pub fn wrong_packets(seed: u64) -> Vec<u8> {
    let mut maker = Maker::new(seed);
    for lane in 0..4 {
        let settings = settings::good(&mut maker);
        maker.call(&Call::Open { lane, settings });
    }
    for _ in 0..maker.random.between(15, 50) {
        let lane = maker.random.below(5) as u8;
        if maker.random.one_in(3) {
            moves::packet(&mut maker, lane, MOST);
        } else {
            moves::wrong_packet(&mut maker, lane);
        }
    }
    close_all(&mut maker);
    maker.file()
}
