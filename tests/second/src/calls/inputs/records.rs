//! Records to be written, and octets to be read as one.

use crate::calls::functions::write_record::WriteRecord;
use crate::inputs::{chance, Inputs};
use crate::random::Random;
use crate::record::{Record, HIGHEST_APID, MOST_MISSING_A_STEP, MOST_PACKETS, RECORD_OCTETS};

/// Room that is too short, just enough, and more than enough: some of it none
/// if its length were cut to 8 or 16 bits.
const ROOMS: [usize; 9] = [0, 1, 19, 20, 21, 24, 40, 256, 65_536];

pub fn calls() -> Vec<WriteRecord> {
    let mut random = Random::new(24);
    let mut calls = Vec::new();
    for record in records(&mut random) {
        let room = random.pick(&ROOMS);
        calls.push(WriteRecord { record, room });
        let room = RECORD_OCTETS;
        calls.push(WriteRecord { record, room });
    }
    calls
}

/// Records as they are sent, damaged ones, and some of another length.
pub fn octets() -> Inputs {
    let mut random = Random::new(25);
    let mut inputs = Inputs::new();
    for record in records(&mut random) {
        let octets = record.laid();
        let mut damaged = octets.clone();
        chance::damage(&mut random, &mut damaged);
        inputs.push(octets);
        inputs.push(damaged);
    }
    // The last two would be whole records if their lengths were cut.
    let lengths = (0..=61).chain([256, 65_536].map(|wrap| wrap + RECORD_OCTETS));
    for octets in lengths {
        inputs.push(vec![0; octets]);
        inputs.push(random.octets(octets));
        let good = possible(&mut random).laid();
        inputs.push(good.into_iter().cycle().take(octets).collect());
    }
    inputs
}

/// At every limit, beside it, and by chance.
fn records(random: &mut Random) -> Vec<Record> {
    let mut records = limits(random);
    records.extend(apids());
    records.extend((0..3_000).map(|_| possible(random)));
    records.extend((0..3_000).map(|_| impossible(random)));
    records
}

/// Every number of packets of interest with every sum of units and broken and
/// every missing about its limit; so each two grounds for a refusal meet.
fn limits(random: &mut Random) -> Vec<Record> {
    let mut records = Vec::new();
    for packets in packets_about_limits() {
        for (units, broken) in parts_of(packets) {
            for missing in missing_about_limits(packets) {
                let tallies = [units, packets, missing, broken];
                let about = random.pick(&[0, 42, HIGHEST_APID, HIGHEST_APID + 1]);
                records.push(Record::new(any_station(random), about, tallies));
                let apid = any_apid(random);
                records.push(Record::new(any_station(random), apid, tallies));
            }
        }
    }
    records
}

/// Every single bit of the APID, and those about its limit.
fn apids() -> Vec<Record> {
    let named = [0, 255, 2_045, 2_046, 2_047, 2_046 + 256, 65_535];
    let apids = (0..16).map(|bit| 1 << bit).chain(named);
    let mut records = Vec::new();
    for apid in apids {
        for station in [0, 1, 255, 256, 65_535] {
            records.push(Record::new(station, apid, [1, 3, 16_384, 2]));
        }
    }
    records
}

fn any_station(random: &mut Random) -> u16 {
    random.below(65_536) as u16
}

fn any_apid(random: &mut Random) -> u16 {
    random.below(u32::from(HIGHEST_APID) + 1) as u16
}

fn packets_about_limits() -> [u32; 16] {
    let most = MOST_PACKETS;
    [
        0,
        1,
        2,
        3,
        212,
        255,
        256,
        65_535,
        65_536,
        most - 1,
        most,
        most + 1,
        most + 65_536,
        1 << 31,
        u32::MAX - 1,
        u32::MAX,
    ]
}

/// Units and broken whose sum is about the packets, also after it has wrapped.
fn parts_of(packets: u32) -> Vec<(u32, u32)> {
    let half = packets / 2;
    let fewer = packets.saturating_sub(1);
    let more = packets.saturating_add(1);
    let pairs = [
        (0, 0),
        (packets, 0),
        (fewer, 1),
        (half, packets - half),
        (half, more - half),
        (more, 0),
        (packets, 1),
        // 2^32 and as many as the packets: wrapped, they are the packets.
        (u32::MAX, more),
        (u32::MAX - half, half.saturating_add(more)),
        (u32::MAX, 1),
        (1 << 31, 1 << 31),
        (u32::MAX, u32::MAX),
    ];
    let turned = pairs.map(|(units, broken)| (broken, units));
    [pairs, turned].concat()
}

/// Missing about 16,382 for each step and for each packet, in whole numbers
/// and in 32 bits.
fn missing_about_limits(packets: u32) -> Vec<u32> {
    let by_steps = MOST_MISSING_A_STEP.wrapping_mul(packets.wrapping_sub(1));
    let by_packets = MOST_MISSING_A_STEP.wrapping_mul(packets);
    let by_wider_steps = (MOST_MISSING_A_STEP + 1).wrapping_mul(packets.wrapping_sub(1));
    let mut numbers = vec![0, 1, by_packets, by_wider_steps, u32::MAX];
    numbers.extend([0, 1, u32::MAX].map(|step| by_steps.wrapping_add(step)));
    numbers.sort_unstable();
    numbers.dedup();
    numbers
}

pub fn possible(random: &mut Random) -> Record {
    let any = random.below(MOST_PACKETS + 1);
    let few = random.below(300);
    let packets = random.pick(&[any, few, few]);
    let whole = random.below(packets + 1);
    let broken = random.below(packets - whole + 1);
    let most = MOST_MISSING_A_STEP * packets.saturating_sub(1);
    let missing = random.below(most + 1);
    let tallies = [whole, packets, missing, broken];
    Record::new(any_station(random), any_apid(random), tallies)
}

/// A possible record with one of its numbers made impossible.
pub fn impossible(random: &mut Random) -> Record {
    let mut record = possible(random);
    let over = random.between(1, 9) as u32;
    match random.below(5) {
        0 => record.apid = random.between(2_047, 65_535) as u16,
        1 => record.packets = MOST_PACKETS + random.below(u32::MAX - MOST_PACKETS) + 1,
        2 => record.units = record.packets - record.broken + over,
        3 => record.broken = u32::MAX - record.units + over.min(record.units),
        _ => record.missing = MOST_MISSING_A_STEP * record.packets.saturating_sub(1) + over,
    }
    record
}

#[cfg(test)]
mod tests {
    use super::*;

    #[test]
    fn possible_and_impossible_ones_are_so() {
        let mut random = Random::new(1);
        for _ in 0..5_000 {
            let record = possible(&mut random);
            assert!(record.is_possible(), "{record:?}");
            let record = impossible(&mut random);
            assert!(!record.is_possible(), "{record:?}");
        }
    }

    #[test]
    fn many_at_the_limits_are_possible() {
        let records = limits(&mut Random::new(1));
        let good = records.iter().filter(|record| record.is_possible()).count();
        assert!(good >= 300, "only {good} of {}", records.len());
    }
}
