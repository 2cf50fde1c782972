//! Runs that end badly: cut off, with another first octet, or damaged.

use super::maker::Maker;
use super::talk;
use crate::forge::SpaceHead;
use crate::inputs::chance;
use crate::lanes::Settings;
use crate::random::Random;
use crate::run_file::Call;

/// One place for each octet of the run that is cut everywhere, and its end.
pub const PLACES: u64 = 121;

/// The first so many octets of one run; none at all for the first seed.
pub fn cut_everywhere(seed: u64) -> Vec<u8> {
    let mut file = short_run();
    file.truncate((seed % 10_000) as usize);
    file
}

/// An opening, packets of 8 and 7 octets and of none, and a closing, twice.
fn short_run() -> Vec<u8> {
    let settings = Settings::new(7, 42, [0, 1, 2]);
    let head = |flags, count| SpaceHead::new([0, 0, 42, flags, count]);
    let packet = |octets| Call::Packet {
        lane: 3,
        space: 64,
        octets,
    };
    let calls = [
        Call::Open { lane: 3, settings },
        packet(head(1, 5).with(&[0x11, 0x22])),
        packet(Vec::new()),
        packet(head(2, 6).with(&[0x33])),
        Call::Close { lane: 3, space: 20 },
    ];
    let laid: Vec<u8> = calls.iter().flat_map(Call::laid).collect();
    laid.repeat(2)
}

fn short_talk(seed: u64) -> Vec<u8> {
    let mut maker = Maker::new(seed);
    for _ in 0..maker.random.between(4, 25) {
        talk::step(&mut maker);
    }
    maker.file()
}

pub fn cut_by_chance(seed: u64) -> Vec<u8> {
    let mut file = short_talk(seed);
    let kept = Random::new(seed + 1).between(0, file.len() - 1);
    file.truncate(kept);
    file
}

/// Calls, then an octet that begins none, then calls that must not be made.
pub fn bad_first_octet(seed: u64) -> Vec<u8> {
    let mut random = Random::new(seed + 1);
    let any = random.octet();
    let octet = random.pick(&[0, b'o', b'N', b'Q', b'D', b'\n', 0xFF, any]);
    let octet = if b"OPC".contains(&octet) { b'p' } else { octet };
    [short_talk(seed), vec![octet], short_talk(seed + 5_000)].concat()
}

/// Calls in which one to three octets are changed: settings, spaces, lengths
/// and packets alike.
pub fn damaged(seed: u64) -> Vec<u8> {
    let mut file = short_talk(seed);
    let mut random = Random::new(seed + 1);
    for _ in 0..random.between(1, 3) {
        chance::damage(&mut random, &mut file);
    }
    file
}

#[cfg(test)]
mod tests {
    use super::*;

    #[test]
    fn the_short_run_is_cut_at_every_place() {
        assert_eq!(short_run().len() as u64 + 1, PLACES);
    }
}
