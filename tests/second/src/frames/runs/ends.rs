//! Frame files that are cut off, damaged as files, as long as may be or longer.

use super::sent::{any_packets, recording};
use super::Made;
use crate::frames::file::{laid, FileFrame, HEAD_OCTETS};
use crate::frames::recording::{Recording, Style};
use crate::frames::text::LONGEST_FILE;
use crate::hex;
use crate::inputs::chance;
use crate::random::Random;

/// One place for each octet of the file that is cut everywhere, and its end.
pub const PLACES: u64 = 65;

/// How many files of each of the two lengths there are.
pub const FILES: u64 = 4;

/// The first so many octets of one file; none at all for the first turn.
pub fn cut_everywhere(_: u64, turn: u64) -> Made {
    let mut file = short_file();
    file.truncate(turn as usize);
    (file, None)
}

/// A packet over two frames, a repeat, a gap, and a frame without octets.
fn short_file() -> Vec<u8> {
    let frame = |count, pointer, field: &str| FileFrame {
        count,
        pointer,
        field: hex::octets(field),
    };
    let front = frame(7, 0, "E0 E0 00 2A C0 05 00 01");
    let end = frame(8, 2, "AA BB E0 E9 05 11 22 33");
    let gap = frame(11, 0, "00 2A C0 06 00 01 CC DD E0 20");
    let none = frame(12, 0, "");
    laid(&[front, end.clone(), end, gap, none])
}

pub fn cut_by_chance(seed: u64, turn: u64) -> Made {
    let random = &mut Random::new(seed);
    let mut file = laid(&recording(random).frames);
    if turn % 2 == 0 {
        file.truncate(random.between(0, file.len() - 1));
    }
    for _ in 0..random.between(0, 4) * file.len().min(1) {
        chance::damage(random, &mut file);
    }
    (file, None)
}

/// A file of exactly the longest length. The last kind is cut off in a frame.
pub fn full(seed: u64, turn: u64) -> Made {
    let random = &mut Random::new(seed);
    let style = Style {
        fields: [[8, 8], [8, 2_046], [2_046, 2_046], [8, 2_046]][turn as usize % 4],
        even: 9,
        idle: 9,
    };
    let mut file = Vec::new();
    while file.len() + 80_000 < LONGEST_FILE {
        let packets = any_packets(random, 200);
        file.extend(laid(&Recording::new(random, packets, &style).frames));
        file.truncate(LONGEST_FILE - 2_000);
    }
    let cut = usize::from(turn % 4 == 3);
    fill(random, &mut file, LONGEST_FILE + cut);
    file.truncate(LONGEST_FILE);
    (file, None)
}

/// Whole frames that bring the file to such a length.
fn fill(random: &mut Random, file: &mut Vec<u8>, length: usize) {
    let whole = whole_frames(file);
    file.truncate(whole);
    while file.len() < length {
        let rest = length - file.len();
        let octets = match rest < 3_000 {
            true => rest - HEAD_OCTETS,
            false => random.between(8, 1_500),
        };
        let frame = FileFrame {
            count: random.below(256) as u16,
            pointer: 0,
            field: vec![0xE0; octets],
        };
        file.extend(frame.laid());
    }
}

fn whole_frames(file: &[u8]) -> usize {
    let mut end = 0;
    while let Ok((_, octets)) = FileFrame::taken(&file[end..]) {
        end += octets;
    }
    end
}

pub fn too_long(seed: u64, turn: u64) -> Made {
    let more = [1, 1, 2, 70_000][turn as usize % 4];
    let (mut file, _) = full(seed, turn);
    file.resize(file.len() + more, 0);
    (file, None)
}

#[cfg(test)]
mod tests {
    use super::*;

    #[test]
    fn the_short_file_is_cut_at_every_place() {
        assert_eq!(short_file().len() as u64 + 1, PLACES);
    }

    #[test]
    fn full_files_are_full() {
        for turn in 0..FILES {
            let (file, _) = full(turn, turn);
            assert_eq!(file.len(), LONGEST_FILE);
            let cut = whole_frames(&file) < LONGEST_FILE;
            assert_eq!(cut, turn == 3, "turn {turn}");
        }
    }
}
