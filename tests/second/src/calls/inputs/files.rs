//! Files of records.

use super::records::{impossible, possible};
use crate::inputs::{chance, Inputs};
use crate::random::Random;
use crate::record::RECORD_OCTETS;

pub fn files() -> Inputs {
    let mut random = Random::new(26);
    let mut files = Inputs::new();
    for records in (0..=12).chain([64, 255, 256, 257]) {
        one_impossible(&mut random, records, &mut files);
    }
    other_lengths(&mut random, &mut files);
    long_files(&mut random, &mut files);
    chance_files(&mut random, &mut files);
    files
}

/// A file of so many records, those with these indices impossible.
fn file(random: &mut Random, records: usize, wrong: &[usize]) -> Vec<u8> {
    let mut octets = Vec::new();
    for index in 0..records {
        let record = match wrong.contains(&index) {
            true => impossible(random),
            false => possible(random),
        };
        octets.extend(record.laid());
    }
    octets
}

/// All possible, and then one that isn't at each index, alone and followed by
/// another.
fn one_impossible(random: &mut Random, records: usize, files: &mut Inputs) {
    files.push(file(random, records, &[]));
    for index in 0..records {
        files.push(file(random, records, &[index]));
        let later = random.between(index, records - 1);
        files.push(file(random, records, &[index, later]));
    }
}

/// Octets about and between whole records, also where one isn't possible.
fn other_lengths(random: &mut Random, files: &mut Inputs) {
    for octets in 0..=13 * RECORD_OCTETS {
        let records = octets.div_ceil(RECORD_OCTETS);
        for wrong in [usize::MAX, 0, records / 2] {
            let mut octets_of_file = file(random, records, &[wrong]);
            octets_of_file.truncate(octets);
            files.push(octets_of_file);
        }
    }
}

/// So many records that their octets need more than 16 bits.
fn long_files(random: &mut Random, files: &mut Inputs) {
    let records = 65_536 / RECORD_OCTETS + 2;
    let lone = |index| vec![index];
    let wrongs = [0, 1, 255, 256, records / 2, records - 2, records - 1].map(lone);
    for wrong in wrongs.into_iter().chain([Vec::new()]) {
        let whole = file(random, records, &wrong);
        files.push(whole[..whole.len() - 1].to_vec());
        files.push([&whole[..], &[0]].concat());
        files.push(whole);
    }
}

/// Good files in which one octet is damaged, and octets with no order at all.
fn chance_files(random: &mut Random, files: &mut Inputs) {
    for _ in 0..2_000 {
        let records = random.between(1, 12);
        let mut damaged = file(random, records, &[]);
        chance::damage(random, &mut damaged);
        files.push(damaged);
        let octets = random.pick(&[0, 1, 2]) * RECORD_OCTETS;
        files.push(random.octets(octets));
    }
}
