//! The credit records for files of packets, a lane for each, taken in turn.

use crate::lanes::{Lanes, Settings, LANES, POOL_OCTETS};
use crate::reader::read;
use crate::record::RECORD_OCTETS;
use std::ffi::OsString;
use std::fs;

/// The longest unit fits it.
const OUTPUT_OCTETS: usize = 81_920;

/// What a word says of a lane: `STATION:APID:SECONDARY:SHARE:CAP:FILE`.
#[derive(Debug, PartialEq, Eq)]
struct Source<'a> {
    settings: Settings,
    file: &'a str,
}

impl<'a> Source<'a> {
    /// The file's name is the rest of the word, colons and all.
    fn of(word: &'a str) -> Option<Self> {
        let mut parts = word.splitn(6, ':');
        let (station, apid) = (parts.next()?.parse().ok()?, parts.next()?.parse().ok()?);
        let mut number = || parts.next()?.parse().ok();
        let rest = [number()?, number()?, number()?];
        Some(Source {
            settings: Settings::new(station, apid, rest),
            file: parts.next()?,
        })
    }
}

/// The records of the lanes that these words describe, lane 0 first.
pub fn records(words: &[OsString]) -> Result<Vec<u8>, String> {
    let sources = words.iter().map(|word| {
        let source = word.to_str().and_then(Source::of);
        let source =
            source.ok_or_else(|| format!("second: no lane: {}", word.to_string_lossy()))?;
        let octets = fs::read(source.file);
        let octets = octets.map_err(|error| format!("second: {}: {error}", source.file))?;
        Ok((source.settings, octets))
    });
    let sources: Result<Vec<_>, String> = sources.collect();
    Ok(credits(&sources?))
}

/// Opens a lane for each source, takes the next packet of each in turn until
/// all are used up, and closes the lanes. There are at most eight.
fn credits(sources: &[(Settings, Vec<u8>)]) -> Vec<u8> {
    let mut lanes = Lanes::fresh();
    let mut pool = vec![0; POOL_OCTETS];
    let mut output = vec![0; OUTPUT_OCTETS];
    for (lane, (settings, _)) in (0..LANES).zip(sources) {
        // A lane that isn't opened has no record, and that is all.
        let _ = lanes.open(lane, *settings, &pool);
    }
    let mut rests: Vec<&[u8]> = sources.iter().map(|(_, octets)| &octets[..]).collect();
    while rests.iter().any(|rest| !rest.is_empty()) {
        for (lane, rest) in (0..LANES).zip(&mut rests) {
            // A packet that is refused counts as not received.
            let _ = lanes.packet(lane, next(rest), &mut pool, &mut output);
        }
    }
    let mut records = Vec::new();
    for lane in 0..LANES {
        if lanes.close(lane, &pool, &mut output).is_ok() {
            records.extend(&output[..RECORD_OCTETS]);
        }
    }
    records
}

/// Takes the next packet off a file. No octets where there is none, which every
/// lane refuses; what can't be read ends the file.
fn next<'a>(rest: &mut &'a [u8]) -> &'a [u8] {
    let octets = read(rest).map_or(0, |packet| packet.octets());
    let (packet, after) = rest.split_at(octets);
    *rest = if octets == 0 { &[] } else { after };
    packet
}

#[cfg(test)]
mod tests {
    use super::*;
    use crate::forge::SpaceHead;
    use crate::record::Record;

    fn packet(apid: u32, flags: u32, count: u32, octets: usize) -> Vec<u8> {
        SpaceHead::new([0, 0, apid, flags, count]).with(&vec![7; octets])
    }

    #[test]
    fn words() {
        let settings = Settings::new(65_535, 2_047, [63, 1, 64]);
        let file = "a:b";
        let source = Source { settings, file };
        assert_eq!(Source::of("65535:2047:63:1:64:a:b"), Some(source));
        for wrong in ["7:42:0:1:2", "65536:42:0:1:2:f", "7:42:0:1:x:f", ""] {
            assert_eq!(Source::of(wrong), None, "{wrong}");
        }
    }

    #[test]
    fn packets_come_off_one_by_one() {
        let one = packet(42, 3, 0, 2);
        let file = [&one[..], &[0xE0, 0x20, 0xE0]].concat();
        let mut rest = &file[..];
        assert_eq!(next(&mut rest), one);
        assert_eq!(next(&mut rest), [0xE0]);
        assert_eq!(next(&mut rest), []);
        assert!(rest.is_empty());
    }

    /// Lane 0's group stands in the way of lane 1's, since they take turns.
    #[test]
    fn takes_one_packet_of_each_in_turn() {
        let first = [packet(42, 1, 0, 256 * 64), packet(42, 2, 1, 1)].concat();
        let other = [packet(9, 1, 5, 1), packet(9, 3, 7, 1), packet(9, 3, 8, 1)].concat();
        let settings = |apid| Settings::new(7, apid, [0, 0, 64]);
        let refused = settings(2_047);
        let sources = [
            (settings(42), first),
            (refused, packet(9, 3, 0, 1)),
            (settings(9), other),
        ];
        let records = [
            Record::new(7, 42, [1, 2, 0, 0]).laid(),
            Record::new(7, 9, [2, 2, 0, 0]).laid(),
        ];
        assert_eq!(credits(&sources), records.concat());
    }

    #[test]
    fn an_open_group_is_broken_and_an_empty_file_has_a_record() {
        let settings = Settings::new(1, 2, [0, 1, 1]);
        let sources = [(settings, packet(2, 1, 9, 1)), (settings, Vec::new())];
        let records = [
            Record::new(1, 2, [0, 1, 0, 1]).laid(),
            Record::new(1, 2, [0; 4]).laid(),
        ];
        assert_eq!(credits(&sources), records.concat());
    }
}
