//! The run files on which two programs that replay are compared. Each is made
//! from its seed alone, so they are the same every time.

mod crowd;
mod ends;
mod full;
mod longest;
mod maker;
pub mod met;
mod moves;
mod no_room;
mod settings;
mod situations;
mod talk;
mod view;
mod wrong;

/// Run files of one kind, one for each seed from the first on.
struct Family {
    name: &'static str,
    first_seed: u64,
    number: u64,
    make: fn(u64) -> Vec<u8>,
}

pub struct Run {
    pub name: &'static str,
    pub seed: u64,
    pub file: Vec<u8>,
}

/// The first seeds lie so far apart that no two files share a seed.
const fn family(name: &'static str, place: u64, number: u64, make: fn(u64) -> Vec<u8>) -> Family {
    Family {
        name,
        first_seed: place * 10_000,
        number,
        make,
    }
}

const FAMILIES: [Family; 15] = [
    family("talk", 1, 900, talk::talk),
    family("counts", 2, 200, talk::counts),
    family("empty user data", 3, 150, talk::empty_data),
    family("openings", 4, 250, talk::openings),
    family("wrong packets", 5, 300, talk::wrong_packets),
    family("crowd", 6, 250, crowd::crowd),
    family("full house", 14, 150, crowd::full_house),
    family("no room", 15, 100, no_room::no_room),
    family("cut everywhere", 7, ends::PLACES, ends::cut_everywhere),
    family("cut by chance", 8, 150, ends::cut_by_chance),
    family("bad first octet", 9, 100, ends::bad_first_octet),
    family("damaged", 10, 250, ends::damaged),
    family("longest unit", 11, 24, longest::longest_unit),
    family("full", 12, full::FILES, full::full),
    family("too long", 13, full::FILES, full::too_long),
];

/// Far enough from all other seeds, and such that what a family takes from the
/// last digits of its seeds is the same.
const OTHER_SEEDS: u64 = 1_000_000;

/// Every run, each made when it is its turn: together they are many octets.
pub fn all() -> impl Iterator<Item = Run> {
    from_seed(0)
}

/// As many runs of the same families with other seeds.
pub fn others() -> impl Iterator<Item = Run> {
    from_seed(OTHER_SEEDS)
}

fn from_seed(start: u64) -> impl Iterator<Item = Run> {
    FAMILIES.iter().flat_map(move |family| {
        let first_seed = start + family.first_seed;
        let seeds = first_seed..first_seed + family.number;
        seeds.map(|seed| Run {
            name: family.name,
            seed,
            file: (family.make)(seed),
        })
    })
}

#[cfg(test)]
mod tests {
    use super::*;
    use crate::replay::LONGEST_RUN;
    use std::collections::HashSet;

    #[test]
    fn are_thousands_with_a_seed_of_their_own() {
        let seeds: HashSet<u64> = all().map(|run| run.seed).collect();
        assert_eq!(seeds.len(), all().count());
        assert!(seeds.len() >= 2_500, "only {} runs", seeds.len());
    }

    #[test]
    fn are_the_same_each_time_and_mostly_small() {
        let mut small = 0;
        for (run, again) in all().zip(all()) {
            assert!(run.file == again.file, "seed {}", run.seed);
            small += usize::from(run.file.len() <= 8_000);
        }
        assert!(small >= 2_000, "only {small} are small");
    }

    #[test]
    fn have_the_longest_file_and_one_octet_more() {
        let lengths: HashSet<usize> = all().map(|run| run.file.len()).collect();
        for length in [0, LONGEST_RUN, LONGEST_RUN + 1] {
            assert!(lengths.contains(&length), "no file of {length} octets");
        }
    }
}
