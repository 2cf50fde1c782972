//! The listing of a run of packets.

use crate::reader::{Fault, Packet};
use crate::walk::{outcome, walk};

pub const LONGEST_INPUT: usize = 65_536;

/// The whole listing, each line with its newline.
pub fn listing(input: &[u8]) -> String {
    if input.len() > LONGEST_INPUT {
        return "too long\n".to_string();
    }
    let lines: String = walk(input)
        .map(|(offset, answer)| line(offset, &answer))
        .collect();
    let end = outcome(input);
    lines + &format!("end {} {}\n", end.octets, end.packets)
}

fn line(offset: usize, answer: &Result<Packet<'_>, Fault>) -> String {
    match answer {
        Ok(Packet::Space(p)) => {
            let data = p.data.len();
            format!("{offset} space {} {} {} {data}\n", p.apid, p.flags, p.count)
        }
        Ok(Packet::Encap(p)) => {
            let (header, content) = (p.header_octets, p.content.len());
            format!(
                "{offset} encap {} {} {header} {content}\n",
                p.protocol, p.extension
            )
        }
        Err(fault) => format!("{offset} refused {fault}\n"),
    }
}

#[cfg(test)]
mod tests {
    use super::*;
    use crate::hex;

    fn lists(text: &str, lines: &[&str]) {
        let expected: String = lines.iter().map(|line| format!("{line}\n")).collect();
        assert_eq!(listing(&hex::octets(text)), expected, "{text}");
    }

    #[test]
    fn the_papers_listing() {
        lists(
            "00 2A C0 05 00 01 AA BB E0 E9 05 11 22 33 00 2A",
            &[
                "0 space 42 3 5 2",
                "8 encap 0 0 1 0",
                "9 encap 2 0 2 3",
                "14 refused 1 2",
                "end 14 3",
            ],
        );
    }

    #[test]
    fn an_end_that_is_met_exactly() {
        lists("", &["end 0 0"]);
        lists(
            "E0 E1 02",
            &["0 encap 0 0 1 0", "1 encap 0 0 2 0", "end 3 2"],
        );
        lists("FA 03 00 05 55", &["0 encap 6 3 4 1", "end 5 1"]);
    }

    #[test]
    fn each_refusal() {
        lists("00", &["0 refused 1 1", "end 0 0"]);
        lists("20", &["0 refused 2 0", "end 0 0"]);
        lists(
            "E0 0F FF C0 00 00 00 00 E0",
            &["0 encap 0 0 1 0", "1 refused 3 0", "end 1 1"],
        );
        lists("E9 01", &["0 refused 4 1", "end 0 0"]);
        lists("EB 00 00 00 00 01 00 07", &["0 refused 5 4", "end 0 0"]);
        lists("E4", &["0 refused 6 0", "end 0 0"]);
        lists(
            "E0 E0 F8",
            &[
                "0 encap 0 0 1 0",
                "1 encap 0 0 1 0",
                "2 refused 7 0",
                "end 2 2",
            ],
        );
    }

    #[test]
    fn places_from_the_start_of_the_refused_packet() {
        let after_two = |packet: &str, refused: &str| {
            let lines = ["0 encap 2 0 2 3", "5 encap 0 0 1 0", refused, "end 6 2"];
            lists(&format!("E9 05 11 22 33 E0 {packet}"), &lines);
        };
        after_two("EA 13 00 05 55", "6 refused 7 1");
        after_two("EB 00 01 00 00 00 00 09 55", "6 refused 7 2");
        after_two("EB 00 00 01 00 00 00 09 55", "6 refused 7 3");
        after_two("EA 00 00 03 E0", "6 refused 4 2");
        after_two("FB 03 00 00 FF 00 00 09 55", "6 refused 5 4");
        after_two("00 2A C0 05 00 01 AA", "6 refused 1 7");
    }

    #[test]
    fn the_longest_input_and_one_more() {
        let longest = listing(&[0xE0; 65_536]);
        assert_eq!(longest.lines().count(), 65_537);
        assert!(longest.ends_with("\n65535 encap 0 0 1 0\nend 65536 65536\n"));
        assert_eq!(listing(&[0xE0; 65_537]), "too long\n");
    }
}
