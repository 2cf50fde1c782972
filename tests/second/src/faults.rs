//! The kinds of faults that a comparison should meet: each number with which
//! reading refuses, at each place that it can tell.

use crate::reader::Fault;

/// The places of 1 have no end, so only few of their kinds are told apart; the
/// last is of those that one octet can't hold.
pub const KINDS: [&str; 14] = [
    NO_OCTETS,
    "1 at 1 to 255",
    "1 at 256 or more",
    "2 at 0",
    "3 at 0",
    "4 at 1",
    "4 at 2",
    "4 at 4",
    "5 at 4",
    "6 at 0",
    "7 at 0",
    "7 at 1",
    "7 at 2",
    "7 at 3",
];

/// A walk never meets this one: where there are no octets it has ended.
pub const NO_OCTETS: &str = "1 at 0";

pub fn kind(fault: &Fault) -> &'static str {
    let name = match (fault.number, fault.place) {
        (1, 1..=255) => "1 at 1 to 255".to_string(),
        (1, 256..) => "1 at 256 or more".to_string(),
        (number, place) => format!("{number} at {place}"),
    };
    let kind = KINDS.iter().find(|kind| **kind == name);
    kind.unwrap_or_else(|| panic!("{name} isn't foreseen"))
}

#[cfg(test)]
mod tests {
    use super::*;

    fn of(number: u8, place: usize) -> &'static str {
        kind(&Fault { number, place })
    }

    #[test]
    fn places_of_1_by_their_size() {
        assert_eq!(
            [0, 1, 255].map(|place| of(1, place)),
            [KINDS[0], KINDS[1], KINDS[1]]
        );
        assert_eq!([256, 65_541].map(|place| of(1, place)), [KINDS[2]; 2]);
        assert_eq!((of(4, 2), of(7, 3)), ("4 at 2", "7 at 3"));
    }

    #[test]
    #[should_panic(expected = "5 at 2 isn't foreseen")]
    fn a_length_of_two_octets_is_never_over_the_limit() {
        of(5, 2);
    }
}
