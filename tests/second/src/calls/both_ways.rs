//! What was written is read, and what was read is written, by the library.
//!
//! Each single call is compared as well, so what is told here can differ only
//! where two of this program's own functions don't fit each other.

use super::checker::Checker;
use super::functions::read_packet::ReadPacket;
use super::functions::read_record::ReadRecord;
use super::functions::write_encap::WriteEncap;
use super::functions::write_record::WriteRecord;
use super::functions::write_space::WriteSpace;
use super::library::PacketNumbers;
use super::memory::Memory;
use crate::forge::SpaceHead;
use crate::hex;
use crate::random::Random;
use crate::reader::EXTENDED_PROTOCOL;
use crate::record::{Record, RECORD_OCTETS};
use crate::writer::EncapFields;

const SPACE_READ_BACK: &str = "Space Packets written and read back";
const ENCAP_READ_BACK: &str = "Encapsulation Packets written and read back";
const SPACE_WRITTEN_BACK: &str = "Space Packets read and written back the same";
const SHORTEST_WRITTEN_BACK: &str =
    "Encapsulation Packets with the shortest header read and written back the same";
const LONGER_WRITTEN_BACK: &str =
    "Encapsulation Packets with a longer header read and written back shorter";
const RECORD_READ_BACK: &str = "records written and read back";
const RECORD_WRITTEN_BACK: &str = "records read and written back the same";

/// A line for each way.
pub fn summary(checker: &Checker<'_>) -> Result<String, String> {
    let ways = [
        SPACE_READ_BACK,
        ENCAP_READ_BACK,
        SPACE_WRITTEN_BACK,
        SHORTEST_WRITTEN_BACK,
        LONGER_WRITTEN_BACK,
        RECORD_READ_BACK,
        RECORD_WRITTEN_BACK,
    ];
    let line = |way| Ok(format!("{way}: {}\n", checker.often(way)?));
    ways.into_iter().map(line).collect()
}

pub fn write_space_and_read(
    checker: &mut Checker<'_>,
    call: &WriteSpace,
    random: &mut Random,
) -> Result<(), String> {
    let Some(after) = checker.check(call)? else {
        return Ok(());
    };
    let head = &call.head;
    let mut fields = [0; 9];
    fields[1..6].copy_from_slice(&[
        head.packet_type,
        head.secondary,
        head.apid,
        head.flags,
        head.count,
    ]);
    read_back(checker, packet_in(&after), random, (fields, &call.data))?;
    checker.meet(SPACE_READ_BACK);
    Ok(())
}

pub fn write_encap_and_read(
    checker: &mut Checker<'_>,
    call: &WriteEncap,
    random: &mut Random,
) -> Result<(), String> {
    let Some(after) = checker.check(call)? else {
        return Ok(());
    };
    let given = &call.fields;
    let mut fields = [0; 9];
    fields[0] = 0b111;
    fields[6..].copy_from_slice(&[given.protocol, given.user, given.extension]);
    read_back(checker, packet_in(&after), random, (fields, &call.content))?;
    checker.meet(ENCAP_READ_BACK);
    Ok(())
}

fn packet_in(after: &Memory) -> &[u8] {
    &after.piece("output")[..after.size("written")]
}

/// Reads the packet with any octets after it: it must give what was given to
/// the writer, the fields as the struct's first nine numbers.
fn read_back(
    checker: &mut Checker<'_>,
    packet: &[u8],
    random: &mut Random,
    (fields, data): ([u32; 9], &[u8]),
) -> Result<(), String> {
    let more = random.between(0, 12);
    let octets = [packet, &random.octets(more)].concat();
    let after = checker.check(&ReadPacket { octets: &octets })?;
    let numbers: Option<PacketNumbers> = after.map(|after| after.numbers("packet"));
    let same = numbers.is_some_and(|numbers| {
        numbers[..9] == fields
            && data_in(&octets, &numbers) == data
            && whole(&numbers) == packet.len()
    });
    agree(same, "written and not read back so", packet)
}

fn data_in<'a>(octets: &'a [u8], numbers: &PacketNumbers) -> &'a [u8] {
    let [.., offset, _] = *numbers;
    &octets[offset as usize..whole(numbers)]
}

/// Octets of the whole packet.
fn whole(numbers: &PacketNumbers) -> usize {
    let [.., offset, length] = *numbers;
    offset as usize + length as usize
}

fn agree(same: bool, fault: &str, octets: &[u8]) -> Result<(), String> {
    match same {
        true => Ok(()),
        false => Err(format!("{fault}: octets {}", hex::cut(octets))),
    }
}

/// Reads the packet at the front, and writes it into an output as long as it.
pub fn read_packet_and_write(checker: &mut Checker<'_>, octets: &[u8]) -> Result<(), String> {
    let Some(after) = checker.check(&ReadPacket { octets })? else {
        return Ok(());
    };
    let numbers: PacketNumbers = after.numbers("packet");
    let packet = &octets[..whole(&numbers)];
    match numbers[0] {
        0b000 => write_space_back(checker, packet, &numbers),
        _ => write_encap_back(checker, packet, &numbers),
    }
}

fn write_space_back(
    checker: &mut Checker<'_>,
    packet: &[u8],
    numbers: &PacketNumbers,
) -> Result<(), String> {
    let [_, packet_type, secondary, apid, flags, count, ..] = *numbers;
    let call = WriteSpace {
        head: SpaceHead::new([packet_type, secondary, apid, flags, count]),
        data: data_in(packet, numbers).to_vec(),
        room: packet.len(),
    };
    let after = checker.check(&call)?;
    let same = after.is_some_and(|after| packet_in(&after) == packet);
    agree(same, "read and not written back the same", packet)?;
    checker.meet(SPACE_WRITTEN_BACK);
    Ok(())
}

fn write_encap_back(
    checker: &mut Checker<'_>,
    packet: &[u8],
    numbers: &PacketNumbers,
) -> Result<(), String> {
    let [.., protocol, user, extension, header, length] = *numbers;
    let call = WriteEncap {
        fields: EncapFields::new([protocol, user, extension]),
        content: data_in(packet, numbers).to_vec(),
        room: packet.len(),
    };
    let after = checker.check(&call)?;
    let same = after.is_some_and(|after| packet_in(&after) == packet);
    if shortest_header(protocol, user, length as usize) == header as usize {
        agree(same, "read and not written back the same", packet)?;
        checker.meet(SHORTEST_WRITTEN_BACK);
    } else {
        agree(!same, "read and written back no shorter", packet)?;
        checker.meet(LONGER_WRITTEN_BACK);
    }
    Ok(())
}

/// By the paper's sentence, and not by trial as the writer does.
fn shortest_header(protocol: u32, user: u32, content: usize) -> usize {
    let least = if content == 0 && user == 0 && protocol == 0 {
        1
    } else if user != 0 || protocol == EXTENDED_PROTOCOL {
        4
    } else {
        2
    };
    let longest_packets = [(1, 1), (2, 255), (4, 65_535)];
    longest_packets
        .into_iter()
        .find(|(header, longest)| *header >= least && header + content <= *longest)
        .map_or(8, |(header, _)| header)
}

pub fn write_record_and_read(checker: &mut Checker<'_>, call: &WriteRecord) -> Result<(), String> {
    let Some(after) = checker.check(call)? else {
        return Ok(());
    };
    let octets = &after.piece("output")[..RECORD_OCTETS];
    let after = checker.check(&ReadRecord { octets })?;
    let same = after.is_some_and(|after| after.numbers("record") == call.record.numbers());
    agree(same, "written and not read back so", octets)?;
    checker.meet(RECORD_READ_BACK);
    Ok(())
}

pub fn read_record_and_write(checker: &mut Checker<'_>, octets: &[u8]) -> Result<(), String> {
    let Some(after) = checker.check(&ReadRecord { octets })? else {
        return Ok(());
    };
    let [station, apid, tallies @ ..] = after.numbers::<6>("record");
    let record = Record::new(station as u16, apid as u16, tallies);
    let room = octets.len();
    let after = checker.check(&WriteRecord { record, room })?;
    let same = after.is_some_and(|after| after.piece("output") == octets);
    agree(same, "read and not written back so", octets)?;
    checker.meet(RECORD_WRITTEN_BACK);
    Ok(())
}

#[cfg(test)]
mod tests {
    use super::*;

    #[test]
    fn shortest_headers() {
        let sizes = [
            (0, 0, 0, 1),
            (0, 0, 1, 2),
            (0, 1, 0, 4),
            (2, 0, 253, 2),
            (2, 0, 254, 4),
            (2, 5, 1, 4),
            (6, 0, 1, 4),
            (2, 0, 65_531, 4),
            (2, 0, 65_532, 8),
            (6, 5, 65_534, 8),
        ];
        for (protocol, user, content, header) in sizes {
            let found = shortest_header(protocol, user, content);
            assert_eq!(found, header, "{protocol} {user} {content}");
        }
    }
}
