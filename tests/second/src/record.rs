//! Credit records: one written, one read, a file of them read.

use crate::bits::{BitReader, BitWriter};
use crate::reader::{first_ground, Refusal};
use crate::writer::put;

pub const RECORD_OCTETS: usize = 20;
pub const HIGHEST_APID: u16 = 2_046;
pub const MOST_PACKETS: u32 = 262_144;
/// A count that comes again is a Repeat, so no step misses more than these.
pub const MOST_MISSING_A_STEP: u32 = 16_382;

#[derive(Debug, Clone, Copy, Default, PartialEq, Eq)]
pub struct Record {
    pub station: u16,
    pub apid: u16,
    pub units: u32,
    pub packets: u32,
    pub missing: u32,
    pub broken: u32,
}

impl Record {
    /// The tallies are units, packets, missing and broken.
    pub fn new(station: u16, apid: u16, tallies: [u32; 4]) -> Self {
        let [units, packets, missing, broken] = tallies;
        Record {
            station,
            apid,
            units,
            packets,
            missing,
            broken,
        }
    }

    /// The six numbers in the order in which they are sent.
    pub fn numbers(&self) -> [u32; 6] {
        [
            u32::from(self.station),
            u32::from(self.apid),
            self.units,
            self.packets,
            self.missing,
            self.broken,
        ]
    }

    /// The record as it is sent, possible or not.
    pub fn laid(&self) -> Vec<u8> {
        let mut bits = BitWriter::new();
        for (width, number) in [16, 16, 32, 32, 32, 32].into_iter().zip(self.numbers()) {
            bits.lay(width, number);
        }
        bits.followed_by(&[])
    }

    /// The record that twenty octets send, possible or not.
    pub fn taken(octets: &[u8]) -> Record {
        assert_eq!(octets.len(), RECORD_OCTETS);
        let mut bits = BitReader::new(octets);
        let mut take = |width| bits.take(width).expect("there are twenty octets");
        let (station, apid) = (take(16) as u16, take(16) as u16);
        Record::new(station, apid, [(); 4].map(|()| take(32)))
    }

    /// Reckoned in 64 bits, where neither sum nor product can wrap.
    pub fn is_possible(&self) -> bool {
        let [_, _, units, packets, missing, broken] = self.numbers().map(u64::from);
        let steps = packets.saturating_sub(1);
        self.apid <= HIGHEST_APID
            && self.packets <= MOST_PACKETS
            && units + broken <= packets
            && missing <= u64::from(MOST_MISSING_A_STEP) * steps
    }
}

/// Refused, it leaves the output as it was.
pub fn write_record(record: &Record, output: &mut [u8]) -> Result<(), Refusal> {
    first_ground(&[
        (9, output.len() < RECORD_OCTETS),
        (25, !record.is_possible()),
    ])?;
    put(&record.laid(), output).map(|_| ())
}

pub fn read_record(octets: &[u8]) -> Result<Record, Refusal> {
    first_ground(&[(26, octets.len() != RECORD_OCTETS)])?;
    let record = Record::taken(octets);
    first_ground(&[(25, !record.is_possible())])?;
    Ok(record)
}

/// Why a file of records is refused.
#[derive(Debug, Clone, Copy, PartialEq, Eq)]
pub enum FileRefusal {
    /// 26: its octets are no multiple of twenty.
    NotRecords,
    /// 25: the record of this index is the first that isn't possible.
    NotPossible(usize),
}

impl FileRefusal {
    pub fn number(&self) -> u8 {
        match self {
            FileRefusal::NotRecords => 26,
            FileRefusal::NotPossible(_) => 25,
        }
    }
}

/// The number of records.
pub fn read_file(octets: &[u8]) -> Result<usize, FileRefusal> {
    let records = octets.chunks_exact(RECORD_OCTETS);
    if !records.remainder().is_empty() {
        return Err(FileRefusal::NotRecords);
    }
    let number = records.len();
    let mut possible = records.map(|octets| Record::taken(octets).is_possible());
    match possible.position(|possible| !possible) {
        Some(index) => Err(FileRefusal::NotPossible(index)),
        None => Ok(number),
    }
}

#[cfg(test)]
mod tests {
    use super::*;
    use crate::hex;

    const GOOD: &str = "00 07 00 2A 00 00 00 02 00 00 00 03 00 00 00 01 00 00 00 00";

    fn possible(apid: u16, tallies: [u32; 4], expected: bool) {
        let record = Record::new(7, apid, tallies);
        assert_eq!(record.is_possible(), expected, "{record:?}");
    }

    #[test]
    fn the_papers_records() {
        let octets = hex::octets(GOOD);
        assert_eq!(read_record(&octets), Ok(Record::new(7, 42, [2, 3, 1, 0])));
        let mut output = [0xA5; 21];
        assert_eq!(
            write_record(&Record::new(7, 42, [2, 3, 1, 0]), &mut output),
            Ok(())
        );
        assert_eq!((&output[..20], output[20]), (&octets[..], 0xA5));
        let many = Record::new(7, 42, [3_000, 212, 0, 0]);
        assert_eq!(write_record(&many, &mut output), Err(Refusal(25)));
        assert_eq!(output[..20], octets);
        assert_eq!(read_record(&many.laid()), Err(Refusal(25)));
    }

    #[test]
    fn limits_of_what_is_possible() {
        possible(2_046, [0, 0, 0, 0], true);
        possible(2_047, [0, 0, 0, 0], false);
        possible(42, [262_144, 262_144, 0, 0], true);
        possible(42, [0, 262_145, 0, 0], false);
        possible(42, [1, 3, 0, 2], true);
        possible(42, [2, 3, 0, 2], false);
        possible(42, [0, 0, 0, 0], true);
        possible(42, [0, 0, 1, 0], false);
        possible(42, [0, 1, 0, 0], true);
        possible(42, [0, 1, 1, 0], false);
        possible(42, [1, 2, 16_382, 1], true);
        possible(42, [1, 2, 16_383, 1], false);
        possible(42, [0, 262_144, 4_294_426_626, 0], true);
        possible(42, [0, 262_144, 4_294_426_627, 0], false);
    }

    #[test]
    fn sums_that_would_wrap_in_32_bits() {
        possible(42, [u32::MAX, 0, 0, 1], false);
        possible(42, [1, 3, 0, u32::MAX], false);
        possible(42, [u32::MAX, 3, 0, u32::MAX], false);
        possible(42, [1 << 31, 3, 0, 1 << 31], false);
        // 16,382 times one less than no packets, where that wraps.
        possible(42, [0, 0, u32::MAX - 16_381, 0], false);
    }

    #[test]
    fn grounds_in_their_order() {
        let wrong = Record::new(7, 42, [3_000, 212, 0, 0]);
        let mut output = [0xA5; 24];
        assert_eq!(write_record(&wrong, &mut output[..19]), Err(Refusal(9)));
        assert_eq!(write_record(&wrong, &mut output[..20]), Err(Refusal(25)));
        assert_eq!(output, [0xA5; 24]);
        let mut octets = wrong.laid();
        octets.push(0);
        assert_eq!(read_record(&octets), Err(Refusal(26)));
        assert_eq!(read_record(&octets[..19]), Err(Refusal(26)));
        assert_eq!(read_record(&[]), Err(Refusal(26)));
        assert_eq!(read_file(&octets), Err(FileRefusal::NotRecords));
        assert_eq!(read_file(&[0; 19]), Err(FileRefusal::NotRecords));
    }

    #[test]
    fn files() {
        let good = hex::octets(GOOD);
        let wrong = Record::new(7, 42, [3_000, 212, 0, 0]).laid();
        assert_eq!(read_file(&[]), Ok(0));
        assert_eq!(read_file(&good), Ok(1));
        let file = [&good[..], &good, &wrong, &wrong, &good].concat();
        assert_eq!(read_file(&file), Err(FileRefusal::NotPossible(2)));
        assert_eq!(read_file(&wrong), Err(FileRefusal::NotPossible(0)));
    }
}
