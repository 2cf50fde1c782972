//! What the library is called with. It is the same in every run.

pub mod encap;
pub mod files;
pub mod packets;
pub mod records;
pub mod space;

use crate::random::Random;

/// Data of no octets, of few, about where one octet of length is full, about
/// where two are and the limits lie, and some that two octets would cut back
/// to few.
pub fn data_lengths() -> impl Iterator<Item = usize> {
    (0..=2)
        .chain(246..=258)
        .chain(65_525..=65_545)
        .chain([65_536 + 256, 131_072, 131_073])
}

/// Much more room than so many octets need, and yet none if its length were cut
/// to 16 bits.
pub fn ample(octets: usize) -> usize {
    (octets + 1).next_multiple_of(65_536)
}

/// Numbers about the limit of a field of so many bits: each single bit, and
/// numbers that would be good if they were cut to 8, 16 or the field's bits.
pub fn about_width(width: u32) -> Vec<u32> {
    let limit = 1 << width;
    let mut numbers = vec![limit - 1, limit, limit + 1, 255, 256, 65_535, u32::MAX];
    for good in [0, 1, limit / 2, limit - 1] {
        numbers.push(good);
        let wraps = [limit, 1 << 8, 1 << 16, 1 << 24, 1 << 31];
        numbers.extend(wraps.map(|wrap| good + wrap));
    }
    numbers.extend((0..32).map(|bit| 1 << bit));
    numbers.sort_unstable();
    numbers.dedup();
    numbers
}

/// Most often a number that the field can hold, at times one about its limit.
pub fn field(random: &mut Random, width: u32) -> u32 {
    match random.below(12) {
        0 => random.pick(&about_width(width)),
        1..=2 => random.pick(&[0, 1, (1 << width) - 1]),
        _ => random.below(1 << width),
    }
}

/// Mostly few octets, at times about as many as one octet of length can count.
pub fn few_octets(random: &mut Random) -> Vec<u8> {
    let octets = match random.below(12) {
        0 => 0,
        1 => random.between(245, 262),
        2 => random.between(3, 600),
        _ => random.between(1, 12),
    };
    random.octets(octets)
}

#[cfg(test)]
mod tests {
    use super::*;

    #[test]
    fn numbers_about_a_limit() {
        let numbers = about_width(11);
        let named = [
            0,
            2_047,
            2_048,
            2_049,
            2_047 + 256,
            2_047 + 65_536,
            u32::MAX,
        ];
        for number in named.into_iter().chain((0..32).map(|bit| 1 << bit)) {
            assert!(numbers.contains(&number), "no {number}");
        }
        assert!(about_width(1).contains(&(1 + 256)));
    }

    #[test]
    fn lengths_about_every_limit() {
        let lengths: Vec<usize> = data_lengths().collect();
        for length in (0..=1).chain(252..=256).chain(65_529..=65_538) {
            assert!(lengths.contains(&length), "no {length}");
        }
    }
}
