//! The cases of writing: packets, and records.

use super::line::{narrow, Line};
use crate::forge::SpaceHead;
use crate::hex::after_blanks;
use crate::reader::Refusal;
use crate::record::{write_record, Record, RECORD_OCTETS};
use crate::writer::{write_encap, write_space, EncapFields};

/// Room for the longest packet, and two octets that must stay as they are.
const BUFFER: usize = 65_544;
/// One octet more than any packet takes.
const MOST_DATA: usize = 65_537;
const SHOWN: usize = 24;
pub const UNTOUCHED: u8 = 0xA5;

pub fn told(line: &Line<'_>) -> Result<String, String> {
    let mut output = vec![UNTOUCHED; BUFFER];
    let written = match line.verb {
        "write encap" => {
            let [protocol, user, extension, octets, room] = line.numbers()?;
            let fields = EncapFields::new([protocol, user, extension]);
            write_encap(&fields, &data(octets)?, lent(&mut output, room)?)
        }
        "write space" => {
            let [kind, secondary, apid, flags, count, octets, room] = line.numbers()?;
            let head = SpaceHead::new([kind, secondary, apid, flags, count]);
            write_space(&head, &data(octets)?, lent(&mut output, room)?)
        }
        _ => {
            let [station, apid, units, packets, missing, broken, room] = line.numbers()?;
            let tallies = [units, packets, missing, broken];
            let record = Record::new(narrow(station)?, narrow(apid)?, tallies);
            write_record(&record, lent(&mut output, room)?).map(|()| RECORD_OCTETS)
        }
    };
    Ok(match written {
        Ok(octets) => format!(" wrote {octets}{}", about_end(&output, octets)),
        Err(Refusal(number)) => format!(" refused {number}{}", front(&output)),
    })
}

/// So many octets that differ from those nearby.
pub fn data(octets: u32) -> Result<Vec<u8>, String> {
    let places = 0..octets as usize;
    if places.end > MOST_DATA {
        return Err(format!("{octets} octets are too many"));
    }
    Ok(places.map(|place| (place % 251) as u8).collect())
}

/// The front of an output that is as long.
pub fn lent(output: &mut [u8], room: u32) -> Result<&mut [u8], String> {
    output
        .get_mut(..room as usize)
        .ok_or(format!("no room of {room}"))
}

fn front(output: &[u8]) -> String {
    format!(" output{}", after_blanks(&output[..SHOWN]))
}

/// The front of the output, and what lies about the end of what was written.
pub fn about_end(output: &[u8], octets: usize) -> String {
    let end = after_blanks(&output[octets - 1..=octets]);
    format!("{} end{end}", front(output))
}

#[cfg(test)]
mod tests {
    use super::super::tests::answers;

    fn gives(line: &str, answer: &str, octets: &str, end: &str) {
        let untouched = " a5".repeat(24 - octets.split_whitespace().count());
        let expected = format!("{answer} output{octets}{untouched}{end}");
        assert_eq!(answers(&[line]), [expected], "{line}");
    }

    #[test]
    fn packets_that_are_written() {
        let counting: String = (0..22).map(|place| format!(" {place:02x}")).collect();
        let long = format!(" e9 ff{counting}");
        gives(
            "write encap 2 0 0 253 65544",
            "wrote 255",
            &long,
            " end 01 a5",
        );
        gives("write encap 0 0 0 0 1", "wrote 1", " e0", " end e0 a5");
        let space = " 00 2a c0 05 00 01 00 01";
        gives("write space 0 0 42 3 5 2 8", "wrote 8", space, " end 01 a5");
    }

    #[test]
    fn packets_that_are_refused() {
        gives("write encap 2 0 0 65535 0", "refused 10", "", "");
        gives("write space 0 1 2047 3 16384 0 0", "refused 8", "", "");
        gives("write space 0 0 42 3 5 65536 65541", "refused 9", "", "");
    }

    #[test]
    fn records() {
        let good = " 00 07 00 2a 00 00 00 02 00 00 00 03 00 00 00 01 00 00 00 00";
        gives(
            "write record 7 42 2 3 1 0 24",
            "wrote 20",
            good,
            " end 00 a5",
        );
        gives("write record 7 42 2 3 1 0 19", "refused 9", "", "");
        gives(
            "write record 7 42 4294967295 0 0 1 20",
            "refused 25",
            "",
            "",
        );
    }
}
