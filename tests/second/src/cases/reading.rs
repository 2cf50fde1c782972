//! The cases of reading: packets, walks, and records.

use super::line::Line;
use crate::hex::after_blanks;
use crate::reader::{read, Fault, Packet, Refusal};
use crate::record::{read_file, read_record, FileRefusal, Record};
use crate::walk::outcome;

/// A listing leaves out the type, the secondary header flag, the user field and
/// the data; these show here.
pub fn told(line: &Line<'_>) -> Result<String, String> {
    let octets = line.octets()?;
    Ok(match line.verb {
        "read" => packet(&read(&octets)),
        "walk" => walk(&octets),
        "read record" => match read_record(&octets) {
            Ok(read) => record(&read),
            Err(Refusal(number)) => format!(" refused {number}"),
        },
        _ => match read_file(&octets) {
            Ok(records) => format!(" records {records}"),
            Err(FileRefusal::NotPossible(index)) => format!(" refused 25 at {index}"),
            Err(FileRefusal::NotRecords) => " refused 26".to_string(),
        },
    })
}

pub fn record(record: &Record) -> String {
    let numbers = record.numbers().map(|number| format!(" {number}"));
    format!(" record{}", numbers.concat())
}

fn packet(answer: &Result<Packet<'_>, Fault>) -> String {
    match answer {
        Ok(Packet::Space(p)) => {
            let fields = [p.packet_type, p.secondary, p.apid, p.flags, p.count];
            format!(" space{}", shown(&fields, p.data))
        }
        Ok(Packet::Encap(p)) => {
            let fields = [p.protocol, p.user, p.extension, p.header_octets as u32];
            format!(" encap{}", shown(&fields, p.content))
        }
        Err(fault) => format!(" refused {fault} data"),
    }
}

/// The fields, how many octets of data there are, and these.
fn shown(fields: &[u32], data: &[u8]) -> String {
    let fields: String = fields.iter().map(|field| format!(" {field}")).collect();
    format!("{fields} {} data{}", data.len(), after_blanks(data))
}

fn walk(octets: &[u8]) -> String {
    let end = outcome(octets);
    // No refusal has the number 0, so it is free to stand for none.
    let fault = end.fault.map_or("0".to_string(), |fault| fault.to_string());
    format!(" {} {} {fault}", end.octets, end.packets)
}

#[cfg(test)]
mod tests {
    use super::super::tests::answers;

    #[test]
    fn packets() {
        let cases = [
            ("read fa 03 00 05 55", "encap 6 0 3 4 1 data 55"),
            ("read f9 03 00", "refused 7 0 data"),
            ("read ea 13 00 05 55", "refused 7 1 data"),
            ("read e1 02", "encap 0 0 0 2 0 data"),
            ("read", "refused 1 0 data"),
            (
                "read 00 2a c0 05 00 01 aa bb e0",
                "space 0 0 42 3 5 2 data aa bb",
            ),
            ("walk 00 2a c0 05 00 01 aa bb e0", "9 2 0"),
            ("walk fe 90 00 06 11 22 e0 00 2a", "7 2 1 2"),
            ("walk e0 eb 00 01 00 00 00 00 09 55", "1 1 7 2"),
            ("walk 20 e0", "0 0 2 0"),
            ("walk", "0 0 0"),
        ];
        for (line, expected) in cases {
            assert_eq!(answers(&[line]), [expected], "{line}");
        }
    }

    #[test]
    fn records() {
        let good = "00 07 00 2a 00 00 00 02 00 00 00 03 00 00 00 01 00 00 00 00";
        let wrong = "00 07 00 2a 00 00 0b b8 00 00 00 d4 00 00 00 00 00 00 00 00";
        let cases = [
            (format!("read record {good}"), "record 7 42 2 3 1 0"),
            (format!("read record {wrong}"), "refused 25"),
            (format!("read record {good} 00"), "refused 26"),
            ("read record".to_string(), "refused 26"),
            ("read records".to_string(), "records 0"),
            (format!("read records {good}"), "records 1"),
            (
                format!("read records {good} {wrong} {good}"),
                "refused 25 at 1",
            ),
            (format!("read records {good} 00"), "refused 26"),
        ];
        for (line, expected) in cases {
            assert_eq!(answers(&[&line]), [expected], "{line}");
        }
    }
}
