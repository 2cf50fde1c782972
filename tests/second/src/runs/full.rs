//! Runs as long as a run file may be, and one octet longer.

use super::maker::Maker;
use super::moves;
use super::talk;
use super::view::View;
use crate::lanes::Settings;
use crate::replay::LONGEST_RUN;
use crate::run_file::{Call, PACKET_CALL_OCTETS};

/// How many files of each of the two lengths there are.
pub const FILES: u64 = 4;

/// No call that fills a file but the last is longer.
const LONGEST_CALL: usize = 1_000;

/// A file of exactly the longest length. The last kind is cut off in a call.
pub fn full(seed: u64) -> Vec<u8> {
    let mut maker = Maker::new(seed);
    match seed % FILES {
        0 | 3 => fill(&mut maker, talk::step),
        1 => fill_with_packets(&mut maker),
        _ => fill(&mut maker, shortest_closing),
    }
    let cut = usize::from(seed % FILES == 3);
    last_call(&mut maker, cut);
    let mut file = maker.file();
    file.truncate(LONGEST_RUN);
    file
}

pub fn too_long(seed: u64) -> Vec<u8> {
    let more = [1, 1, 2, 70_000][(seed % FILES) as usize];
    [full(seed), vec![0; more]].concat()
}

fn fill(maker: &mut Maker, call: fn(&mut Maker)) {
    while maker.octets() + LONGEST_CALL + PACKET_CALL_OCTETS <= LONGEST_RUN {
        call(maker);
    }
}

/// As many packets as a file can hold: the counts begin anew several times.
fn fill_with_packets(maker: &mut Maker) {
    let settings = Settings::new(7, 42, [0, 0, 64]);
    maker.call(&Call::Open { lane: 0, settings });
    fill(maker, shortest_packet);
    maker.call(&Call::Close { lane: 0, space: 20 });
}

fn shortest_packet(maker: &mut Maker) {
    moves::next_packet(maker, 0, 1);
}

fn shortest_closing(maker: &mut Maker) {
    let lane = maker.any_lane();
    maker.call(&Call::Close { lane, space: 20 });
}

/// A call that brings the file to its length, or so many octets over it.
fn last_call(maker: &mut Maker, over: usize) {
    let wanted = LONGEST_RUN + over - maker.octets() - PACKET_CALL_OCTETS;
    let lane = maker.any_lane();
    let view = View::of(maker, lane);
    let packet = moves::with_fields(&mut maker.random, &view, [3, 1], 1);
    let mut octets = packet.head.with(&[0]);
    octets.resize(wanted, 0);
    let space = packet.space;
    maker.call(&Call::Packet {
        lane,
        space,
        octets,
    });
}
