//! Settings for openings: legal ones, ones that just fit, and wrong ones.

use super::maker::Maker;
use crate::lanes::{Settings, BLOCKS};

/// Legal settings whose share can be promised; small shares and caps, so that
/// small packets reach them.
pub fn good(maker: &mut Maker) -> Settings {
    let left = BLOCKS - maker.lanes().blocks_promised();
    let random = &mut maker.random;
    let any_share = random.between(0, left);
    let share = random.pick(&[0, 0, 0, 1, 2, 3, any_share]).min(left);
    let over = random.pick(&[0, 0, 1, 2, 3, BLOCKS]);
    let cap = (share + over).min(BLOCKS);
    let secondary = secondary(maker);
    named(maker, [secondary, share as u8, cap as u8])
}

/// Shares at what is left and one over it, caps about the share and at 64.
pub fn at_the_limits(maker: &mut Maker) -> Settings {
    let left = BLOCKS - maker.lanes().blocks_promised();
    let random = &mut maker.random;
    let some = random.between(0, left);
    let share = random.pick(&[
        left,
        left,
        left + 1,
        left + 1,
        some,
        some,
        0,
        BLOCKS,
        BLOCKS + 1,
    ]);
    let cap = random.pick(&[share, share, BLOCKS, BLOCKS, share.max(1) - 1, BLOCKS + 1]);
    let secondary = secondary(maker);
    named(maker, [secondary, share as u8, cap as u8])
}

/// Settings with at least one thing that makes them illegal.
pub fn illegal(maker: &mut Maker) -> Settings {
    let mut settings = at_the_limits(maker);
    let random = &mut maker.random;
    match random.below(4) {
        0 => settings.apid = random.pick(&[2_047, 2_048, 4_138, 65_535]),
        1 => settings.secondary = random.pick(&[64, 65, 128, 255]),
        2 => (settings.share, settings.cap) = random.pick(&[(1, 0), (64, 63), (255, 64)]),
        _ => settings.cap = random.pick(&[65, 66, 128, 255]),
    }
    settings
}

fn secondary(maker: &mut Maker) -> u8 {
    let any = maker.random.between(1, 63) as u8;
    maker.random.pick(&[0, 0, 0, 0, 1, 2, 63, any])
}

/// Stations and APIDs come from few, so that lanes are often alike in both.
pub fn named(maker: &mut Maker, numbers: [u8; 3]) -> Settings {
    let any = maker.random.below(65_536) as u16;
    let station = maker.random.pick(&[7, 7, 7, 0, 65_535, any]);
    let any = maker.random.below(2_047) as u16;
    let apid = maker.random.pick(&[42, 42, 42, 0, 2_046, any]);
    Settings::new(station, apid, numbers)
}
