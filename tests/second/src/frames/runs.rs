//! The frame files on which programs and libraries are compared. Each is made
//! from its seed alone, so they are the same every time.

mod ends;
mod faulty;
mod sent;

use super::hand;

pub struct Run {
    pub name: &'static str,
    pub seed: u64,
    pub file: Vec<u8>,
    /// The packets that must come out, where the order's promise holds.
    pub promised: Option<Vec<u8>>,
}

/// A file, and what is promised of it.
type Made = (Vec<u8>, Option<Vec<u8>>);

/// Frame files of one kind: each is made of its seed and its turn.
struct Family {
    name: &'static str,
    place: u64,
    number: u64,
    make: fn(u64, u64) -> Made,
}

const fn family(name: &'static str, place: u64, number: u64, make: fn(u64, u64) -> Made) -> Family {
    Family {
        name,
        place,
        number,
        make,
    }
}

const FAMILIES: [Family; 19] = [
    family("all frames received", 1, 60, sent::whole),
    family("frames lost", 2, 250, sent::lossy),
    family("short fields", 3, 120, sent::short_fields),
    family("long fields", 4, 60, sent::long_fields),
    family("long packets", 5, 60, sent::long_packets),
    family("frames lost in a row", 6, 40, sent::rows),
    family("frames that come again", 7, 80, sent::repeated),
    family("refused frames between", 8, 100, sent::refused_between),
    family("255 and more lost in a row", 9, 60, faulty::far_rows),
    family("idle frames inside packets", 10, 80, faulty::idle_inside),
    family(
        "packets that are too long",
        11,
        60,
        faulty::too_long_packets,
    ),
    family("wrong packets", 12, 120, faulty::wrong_packets),
    family("wrong pointers and counts", 13, 150, faulty::wrong_heads),
    family("damaged fields", 14, 150, faulty::damaged),
    family("any octets", 15, 60, faulty::noise),
    family("cut everywhere", 16, ends::PLACES, ends::cut_everywhere),
    family("cut or damaged by chance", 17, 100, ends::cut_by_chance),
    family("full", 18, ends::FILES, ends::full),
    family("too long", 19, ends::FILES, ends::too_long),
];

/// Every run, each made when it is its turn: together they are many octets. With
/// them come the cases by hand.
pub fn all() -> impl Iterator<Item = Run> {
    from_seed(3_000_000).chain(by_hand(3_900_000))
}

/// As many runs of the same families with other seeds.
pub fn others() -> impl Iterator<Item = Run> {
    from_seed(4_000_000)
}

fn from_seed(start: u64) -> impl Iterator<Item = Run> {
    FAMILIES.iter().flat_map(move |family| {
        (0..family.number).map(move |turn| {
            let seed = start + family.place * 10_000 + turn;
            let (file, promised) = (family.make)(seed, turn);
            Run {
                name: family.name,
                seed,
                file,
                promised,
            }
        })
    })
}

/// The cases by hand that a file can hold; they have numbers for seeds.
fn by_hand(start: u64) -> impl Iterator<Item = Run> {
    let files = hand::all().into_iter().filter_map(|case| case.file());
    files.zip(start..).map(|(file, seed)| Run {
        name: "by hand",
        seed,
        file,
        promised: None,
    })
}

#[cfg(test)]
mod tests {
    use super::*;
    use crate::frames::text::{self, LONGEST_FILE};
    use std::collections::HashSet;

    #[test]
    fn are_many_with_a_seed_of_their_own_and_the_same_each_time() {
        let seeds: HashSet<u64> = all().chain(others()).map(|run| run.seed).collect();
        assert_eq!(seeds.len(), all().count() + others().count());
        assert!(seeds.len() >= 3_000, "only {} runs", seeds.len());
        for (run, again) in all().zip(all()) {
            assert!(run.file == again.file, "seed {}", run.seed);
        }
    }

    #[test]
    fn have_the_longest_file_and_one_octet_more() {
        let lengths: HashSet<usize> = all().map(|run| run.file.len()).collect();
        for length in [0, LONGEST_FILE, LONGEST_FILE + 1] {
            assert!(lengths.contains(&length), "no file of {length} octets");
        }
    }

    /// The order's promise, of this program's own rule.
    #[test]
    fn what_is_promised_comes_out() {
        let mut held = 0;
        for run in all().chain(others()) {
            let Some(promised) = run.promised else {
                continue;
            };
            let (_, came) = text::told(&run.file);
            assert!(came == promised, "{} of seed {}", run.name, run.seed);
            held += usize::from(!promised.is_empty());
        }
        assert!(held > 1_000, "only {held} runs with packets");
    }

    /// 255 lost in a row may break the promise, and do so here at times.
    #[test]
    fn more_lost_frames_break_the_promise() {
        let runs = all().filter(|run| run.name.starts_with("255 "));
        let broken = runs.filter(|run| text::packets(&run.file) != faulty::hoped(run.seed));
        assert!(broken.count() >= 5);
    }
}
