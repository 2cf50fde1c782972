//! Reads one packet from the front of some octets.
//!
//! A header is first taken as a whole, field by field, and only then judged:
//! the grounds for refusing it stand in one list, in the paper's order, and
//! the first that holds is the answer. The place that it tells is where the
//! field at fault was taken.

use crate::bits::{BitReader, Ended, Field};
use std::fmt;
use std::ops::RangeInclusive;

pub const IDLE_APID: u32 = 2_047;
pub const EXTENDED_PROTOCOL: u32 = 6;
pub const LONGEST_ENCAP: u32 = 65_542;

/// A refusal's number, as in the paper's table, where there is no more to tell.
#[derive(Debug, Clone, Copy, PartialEq, Eq, PartialOrd, Ord)]
pub struct Refusal(pub u8);

/// The numbers with which reading refuses.
pub const FAULTS: RangeInclusive<u8> = 1..=7;

/// Why a packet can't be read: the refusal's number, and the offset of the
/// field at fault from the packet's start.
#[derive(Debug, Clone, Copy, PartialEq, Eq)]
pub struct Fault {
    pub number: u8,
    pub place: usize,
}

impl Fault {
    fn of(number: u8, field: Field) -> Self {
        let place = field.octet;
        Fault { number, place }
    }
}

/// As it is printed wherever a refusal of reading is.
impl fmt::Display for Fault {
    fn fmt(&self, text: &mut fmt::Formatter<'_>) -> fmt::Result {
        write!(text, "{} {}", self.number, self.place)
    }
}

/// Octets that end too early, in the header or after it, are refusal 1, whose
/// place is their end.
impl From<Ended> for Fault {
    fn from(Ended(place): Ended) -> Self {
        let number = 1;
        Fault { number, place }
    }
}

#[derive(Debug, Clone, Copy, PartialEq, Eq)]
pub struct Space<'a> {
    pub packet_type: u32,
    pub secondary: u32,
    pub apid: u32,
    pub flags: u32,
    pub count: u32,
    pub data: &'a [u8],
}

#[derive(Debug, Clone, Copy, PartialEq, Eq)]
pub struct Encap<'a> {
    pub protocol: u32,
    pub user: u32,
    pub extension: u32,
    pub header_octets: usize,
    pub content: &'a [u8],
}

#[derive(Debug, Clone, Copy, PartialEq, Eq)]
pub enum Packet<'a> {
    Space(Space<'a>),
    Encap(Encap<'a>),
}

impl Packet<'_> {
    /// Octets of the whole packet.
    pub fn octets(&self) -> usize {
        match self {
            Packet::Space(space) => 6 + space.data.len(),
            Packet::Encap(encap) => encap.header_octets + encap.content.len(),
        }
    }
}

/// Reads the packet at the front. Octets after it are not looked at.
pub fn read(octets: &[u8]) -> Result<Packet<'_>, Fault> {
    let mut bits = BitReader::new(octets);
    let version = bits.field(3)?;
    match version.number {
        0b000 => read_space(bits).map(Packet::Space),
        0b111 => read_encap(bits).map(Packet::Encap),
        _ => Err(Fault::of(2, version)),
    }
}

/// The octets that the header at the front claims for its packet, be it right or
/// wrong; nothing where the header isn't whole or is of no packet.
pub fn claimed(octets: &[u8]) -> Option<usize> {
    let mut bits = BitReader::new(octets);
    match bits.take(3).ok()? {
        0b000 => {
            // Type, flag and APID, then flags and count.
            bits.take(13).ok()?;
            bits.take(16).ok()?;
            let data_octets = bits.take(16).ok()? as usize + 1;
            Some(bits.octets_taken() + data_octets)
        }
        0b111 => {
            let header = EncapHeader::taken(&mut bits).ok()?;
            Some(header.length.number as usize)
        }
        _ => None,
    }
}

fn read_space(mut bits: BitReader<'_>) -> Result<Space<'_>, Fault> {
    let packet_type = bits.take(1)?;
    let secondary = bits.field(1)?;
    let apid = bits.take(11)?;
    let flags = bits.take(2)?;
    let count = bits.take(14)?;
    let data_octets = bits.take(16)? as usize + 1;

    let idle_flagged = apid == IDLE_APID && secondary.number == 1;
    first_of([(Fault::of(3, secondary), idle_flagged)])?;
    let data = bits.following(data_octets)?;
    Ok(Space {
        packet_type,
        secondary: secondary.number,
        apid,
        flags,
        count,
        data,
    })
}

/// The header of an Encapsulation Packet, as it was sent.
struct EncapHeader {
    protocol: Field,
    user: u32,
    extension: Field,
    /// The CCSDS field by its octets, since either may be the one at fault.
    ccsds: [Field; 2],
    /// Without a length field this is the packet's one octet.
    length: Field,
    octets: usize,
}

impl EncapHeader {
    /// The first bits, which are the version, have been taken.
    fn taken(bits: &mut BitReader<'_>) -> Result<Self, Ended> {
        let protocol = bits.field(3)?;
        let length_of_length = bits.take(2)?;
        // A field of no bits reads as 0, so absent fields need no case of their own.
        let (nibble_bits, ccsds_bits, length_bits) = match length_of_length {
            0 => (0, 0, 0),
            1 => (0, 0, 8),
            2 => (4, 0, 16),
            _ => (4, 8, 32),
        };
        let user = bits.take(nibble_bits)?;
        let extension = bits.field(nibble_bits)?;
        let ccsds = [bits.field(ccsds_bits)?, bits.field(ccsds_bits)?];
        let mut length = bits.field(length_bits)?;
        if length_bits == 0 {
            length.number = 1;
        }
        Ok(EncapHeader {
            protocol,
            user,
            extension,
            ccsds,
            length,
            octets: bits.octets_taken(),
        })
    }

    /// The grounds of 7 are in the order of their places, so where several hold,
    /// the earliest place is told.
    fn judged(&self) -> Result<(), Fault> {
        let (protocol, length) = (self.protocol.number, self.length.number);
        let header = self.octets as u32;
        let extended = protocol == EXTENDED_PROTOCOL;
        let [high, low] = self.ccsds;
        first_of([
            (Fault::of(7, self.protocol), extended && header <= 2),
            (
                Fault::of(7, self.extension),
                self.extension.number != 0 && !extended,
            ),
            (Fault::of(7, high), high.number != 0),
            (Fault::of(7, low), low.number != 0),
            (Fault::of(4, self.length), length < header),
            (Fault::of(5, self.length), length > LONGEST_ENCAP),
            // Without content it is the protocol ID that is wrong.
            (
                Fault::of(6, self.protocol),
                length == header && protocol != 0,
            ),
        ])
    }
}

fn read_encap(mut bits: BitReader<'_>) -> Result<Encap<'_>, Fault> {
    let header = EncapHeader::taken(&mut bits)?;
    header.judged()?;
    let content = bits.following(header.length.number as usize - header.octets)?;
    Ok(Encap {
        protocol: header.protocol.number,
        user: header.user,
        extension: header.extension.number,
        header_octets: header.octets,
        content,
    })
}

/// Refuses with the number of the first ground that holds.
pub fn first_ground(grounds: &[(u8, bool)]) -> Result<(), Refusal> {
    let grounds = grounds.iter();
    first_of(grounds.map(|(number, holds)| (Refusal(*number), *holds)))
}

/// Refuses with the first of these that holds.
fn first_of<R>(grounds: impl IntoIterator<Item = (R, bool)>) -> Result<(), R> {
    match grounds.into_iter().find(|(_, holds)| *holds) {
        Some((refusal, _)) => Err(refusal),
        None => Ok(()),
    }
}

#[cfg(test)]
mod tests {
    use super::*;
    use crate::hex;
    use crate::inputs::packets;

    fn space(text: &str, fields: [u32; 5], data: &[u8]) {
        let [packet_type, secondary, apid, flags, count] = fields;
        let expected = Space {
            packet_type,
            secondary,
            apid,
            flags,
            count,
            data,
        };
        assert_eq!(
            read(&hex::octets(text)),
            Ok(Packet::Space(expected)),
            "{text}"
        );
    }

    fn encap(text: &str, fields: [u32; 3], header_octets: usize, content: &[u8]) {
        let [protocol, user, extension] = fields;
        let expected = Encap {
            protocol,
            user,
            extension,
            header_octets,
            content,
        };
        assert_eq!(
            read(&hex::octets(text)),
            Ok(Packet::Encap(expected)),
            "{text}"
        );
    }

    fn refused(number: u8, place: usize, texts: &[&str]) {
        let fault = Fault { number, place };
        for text in texts {
            assert_eq!(read(&hex::octets(text)), Err(fault), "{text}");
        }
    }

    /// Refused 1, which tells how many octets there are.
    fn ends(texts: &[&str]) {
        for text in texts {
            refused(1, text.split_whitespace().count(), &[text]);
        }
    }

    #[test]
    fn starred_cases() {
        space("00 2A C0 05 00 01 AA BB", [0, 0, 42, 3, 5], &[0xAA, 0xBB]);
        refused(1, 7, &["00 2A C0 05 00 01 AA"]);
        refused(3, 0, &["0F FF C0 00 00 00 00"]);
        refused(2, 0, &["20"]);
        refused(1, 0, &[""]);
        encap("E0", [0, 0, 0], 1, &[]);
        refused(6, 0, &["E4", "E9 02"]);
        encap("E9 05 11 22 33", [2, 0, 0], 2, &[0x11, 0x22, 0x33]);
        refused(5, 4, &["EB 00 00 00 00 01 00 07"]);
    }

    #[test]
    fn cases_without_star() {
        encap("E1 02", [0, 0, 0], 2, &[]);
        refused(4, 1, &["E9 01"]);
        encap("FA 03 00 05 55", [6, 0, 3], 4, &[0x55]);
        refused(7, 0, &["F9 03 00"]);
        refused(7, 1, &["EA 13 00 05 55"]);
        refused(1, 8, &["EB 00 00 00 00 01 00 06"]);
    }

    #[test]
    fn each_number_with_its_place() {
        refused(1, 0, &[""]);
        refused(1, 2, &["00 2A"]);
        refused(2, 0, &["20"]);
        refused(3, 0, &["0F FF C0 00 00 00 00"]);
        refused(4, 1, &["E9 01"]);
        refused(4, 2, &["EA 00 00 03"]);
        refused(4, 4, &["EB 00 00 00 00 00 00 07"]);
        refused(5, 4, &["EB 00 00 00 00 01 00 07"]);
        refused(1, 8, &["EB 00 00 00 00 01 00 06"]);
        refused(6, 0, &["E4", "E9 02", "FA 03 00 04"]);
        refused(7, 0, &["F8", "F9 03 00"]);
        refused(7, 1, &["EA 13 00 05 55"]);
        refused(7, 2, &["EB 00 01 00 00 00 00 09 55"]);
        refused(7, 3, &["EB 00 00 01 00 00 00 09 55"]);
        refused(7, 1, &["EB 03 00 01 00 00 00 09 55"]);
        refused(7, 3, &["FB 03 00 01 00 00 00 09 55"]);
    }

    #[test]
    fn readings_where_the_paper_is_silent() {
        ends(&["0F FF"]);
        refused(7, 0, &["F8", "F9 01"]);
        refused(6, 0, &["FA 03 00 04"]);
    }

    #[test]
    fn further_packets() {
        space("18 2A 40 07 00 00 99", [1, 1, 42, 1, 7], &[0x99]);
        space(
            "1F FE FF FF 00 02 01 02 03 04",
            [1, 1, 2_046, 3, 16_383],
            &[1, 2, 3],
        );
        space("07 FF 00 00 00 00 5A", [0, 0, 2_047, 0, 0], &[0x5A]);
        encap("EA 40 00 06 12 34", [2, 4, 0], 4, &[0x12, 0x34]);
        encap("FB F9 00 00 00 00 00 09 77 78", [6, 15, 9], 8, &[0x77]);
        encap("E3 50 00 00 00 00 00 08", [0, 5, 0], 8, &[]);
        encap("FE 00 00 05 55", [7, 0, 0], 4, &[0x55]);
    }

    #[test]
    fn ends_before_the_header_or_the_packet() {
        ends(&[
            "00",
            "E1",
            "E2 00",
            "E2 00 00",
            "E3",
            "E3 00 00 00 00 00 00",
        ]);
        // The rest of the header comes before every other ground but the version.
        ends(&["0F FF C0 00 00", "F9", "EA 13 00", "EB 13 FF FF FF FF FF"]);
        ends(&[
            "00 2A C0 05 00 00",
            "E9 03",
            "EA 00 00 06 12",
            "E9 05 11 22",
        ]);
    }

    #[test]
    fn every_front_of_a_packet_tells_its_own_length() {
        for packet in packets::short_packets() {
            for place in 0..packet.len() {
                let fault = Fault { number: 1, place };
                assert_eq!(read(&packet[..place]), Err(fault), "{packet:02x?}");
            }
        }
        let longest = hex::octets("EB 00 00 00 00 01 00 06");
        for place in [255, 256, 65_535, 65_536, 65_541] {
            let mut front = longest.clone();
            front.resize(place, 0x20);
            assert_eq!(read(&front), Err(Fault { number: 1, place }));
        }
    }

    #[test]
    fn octets_after_the_header_do_not_change_another_fault() {
        for wrong in packets::wrong_packets() {
            let fault = read(&wrong).expect_err("it is wrong");
            assert!(FAULTS.contains(&fault.number) && fault.number != 1);
            // The octet that is told is one that was lent.
            assert!(fault.place < wrong.len());
            for after in ["00", "FF FF FF FF FF FF FF FF", "E0 20 00 00"] {
                let longer = [&wrong[..], &hex::octets(after)].concat();
                assert_eq!(read(&longer), Err(fault), "{longer:02x?}");
            }
        }
    }

    #[test]
    fn every_other_version() {
        refused(
            2,
            0,
            &[
                "3F", "40", "5F", "60 00", "7F", "80", "9F FF", "A0", "BF", "C0", "DF",
            ],
        );
    }

    #[test]
    fn lengths_below_the_header() {
        refused(4, 1, &["E1 00", "E1 01"]);
        refused(4, 2, &["E2 00 00 03", "EA 00 00 03", "FA F3 00 00"]);
        refused(
            4,
            4,
            &["E3 00 00 00 00 00 00 07", "FB 0F 00 00 00 00 00 00"],
        );
    }

    #[test]
    fn lengths_over_the_limit() {
        refused(
            5,
            4,
            &["E3 00 00 00 FF FF FF FF", "FB 0F 00 00 00 01 00 07"],
        );
        ends(&["E3 00 00 00 00 01 00 06"]);
    }

    #[test]
    fn seven_stands_before_the_others() {
        refused(7, 0, &["F9 00", "F9 02"]);
        refused(7, 1, &["EA 01 00 00", "EA 01 00 04"]);
        refused(7, 3, &["EB 00 00 01 00 00 00 09 77"]);
        refused(7, 2, &["EB 00 80 00 FF FF FF FF"]);
        refused(7, 1, &["E3 01 00 00 00 00 00 08"]);
        refused(7, 3, &["FB 03 00 01 00 00 00 08"]);
    }

    #[test]
    fn the_earlier_of_two_faults_of_7() {
        refused(7, 1, &["EB 0F 80 00 00 00 00 09 55"]);
        refused(7, 1, &["EB 01 00 01 00 00 00 00"]);
        refused(7, 1, &["E3 F1 FF FF FF FF FF FF"]);
        // An extension is no fault of protocol 6, nor is a user field of any.
        refused(7, 2, &["FB FF 01 00 00 00 00 09 55"]);
        refused(7, 3, &["FB FF 00 80 00 00 00 09 55"]);
        refused(7, 2, &["EB F0 01 01 00 00 00 09 55"]);
        // In two octets there is no extension: what looks like one is the length.
        refused(7, 0, &["F9 13", "F9 FF 01 01 00 00 00 09"]);
    }

    #[test]
    fn a_fault_is_printed_with_its_place() {
        let fault = read(&hex::octets("EA 13 00 05 55")).expect_err("an extension");
        assert_eq!(fault.to_string(), "7 1");
    }

    #[test]
    fn hands_back_a_part_of_what_was_lent() {
        let lent = hex::octets("E9 05 11 22 33 44");
        let Ok(Packet::Encap(encap)) = read(&lent) else {
            panic!("a good packet was refused");
        };
        assert!(std::ptr::eq(encap.content, &lent[2..5]));
    }

    #[test]
    fn what_a_header_claims() {
        for (text, octets) in [
            ("00 2A C0 05 00 01", Some(8)),
            ("00 2A C0 05 00", None),
            ("0F FF C0 05 FF FF", Some(65_542)),
            ("E0", Some(1)),
            ("E9", None),
            ("E9 05", Some(5)),
            ("EA 13 00", None),
            ("EA 13 20 01", Some(8_193)),
            ("EB 00 00 00 00 01 00", None),
            ("EB 00 00 00 00 01 00 07", Some(65_543)),
            ("20 2A C0 05 00 01 AA BB", None),
            ("", None),
        ] {
            assert_eq!(claimed(&hex::octets(text)), octets, "{text}");
        }
    }

    #[test]
    fn counts_its_octets() {
        for (text, octets) in [
            ("00 2A C0 05 00 01 AA BB CC", 8),
            ("E0 E0", 1),
            ("E1 02 00", 2),
        ] {
            assert_eq!(
                read(&hex::octets(text)).map(|packet| packet.octets()),
                Ok(octets)
            );
        }
    }
}
