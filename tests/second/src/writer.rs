//! Writes one packet at the front of an output.
//!
//! The Encapsulation Packet's header is found by trial: each, from the shortest
//! on, is laid and read back, and the first that gives back the fields and the
//! content carries them.

use crate::forge::{EncapHead, SpaceHead};
use crate::reader::{first_ground, read, Packet, Refusal, EXTENDED_PROTOCOL, IDLE_APID};

pub const MOST_DATA: usize = 65_536;

/// What the writer of an Encapsulation Packet is given beside the content.
#[derive(Debug, Clone, Copy, Default, PartialEq, Eq)]
pub struct EncapFields {
    pub protocol: u32,
    pub user: u32,
    pub extension: u32,
}

impl EncapFields {
    pub fn new([protocol, user, extension]: [u32; 3]) -> Self {
        EncapFields {
            protocol,
            user,
            extension,
        }
    }
}

/// Gives the packet's octets; refused, it leaves the output as it was.
pub fn write_space(head: &SpaceHead, data: &[u8], output: &mut [u8]) -> Result<usize, Refusal> {
    let fields = [
        (1, head.packet_type),
        (1, head.secondary),
        (11, head.apid),
        (2, head.flags),
        (14, head.count),
    ];
    first_ground(&[
        (8, some_over_width(&fields)),
        (3, head.apid == IDLE_APID && head.secondary == 1),
        (10, data.is_empty() || data.len() > MOST_DATA),
    ])?;
    put(&head.with(data), output)
}

/// Gives the packet's octets; refused, it leaves the output as it was.
pub fn write_encap(
    fields: &EncapFields,
    content: &[u8],
    output: &mut [u8],
) -> Result<usize, Refusal> {
    let EncapFields {
        protocol,
        user,
        extension,
    } = *fields;
    first_ground(&[
        (
            8,
            some_over_width(&[(3, protocol), (4, user), (4, extension)]),
        ),
        (7, extension != 0 && protocol != EXTENDED_PROTOCOL),
        (6, content.is_empty() && protocol != 0),
    ])?;
    // The longest header carries whatever is left, up to the limit.
    let packet = shortest_packet(fields, content).ok_or(Refusal(10))?;
    put(&packet, output)
}

fn some_over_width(fields: &[(u32, u32)]) -> bool {
    fields.iter().any(|(width, number)| number >> width != 0)
}

fn shortest_packet(fields: &EncapFields, content: &[u8]) -> Option<Vec<u8>> {
    let heads = (0..4).map(|length_of_length| EncapHead {
        protocol: fields.protocol,
        length_of_length,
        user: fields.user,
        extension: fields.extension,
        ccsds: 0,
    });
    heads
        .map(|head| head.with(content))
        .find(|packet| gives_back(packet, fields, content))
}

/// A length that its field can't hold is laid without its highest bits, so it
/// too shows as another content.
fn gives_back(packet: &[u8], fields: &EncapFields, content: &[u8]) -> bool {
    let Ok(Packet::Encap(back)) = read(packet) else {
        return false;
    };
    let back_fields = [back.protocol, back.user, back.extension];
    EncapFields::new(back_fields) == *fields && back.content == content
}

/// Nothing is put where not everything can be.
pub fn put(octets: &[u8], output: &mut [u8]) -> Result<usize, Refusal> {
    let front = output.get_mut(..octets.len()).ok_or(Refusal(9))?;
    front.copy_from_slice(octets);
    Ok(octets.len())
}

#[cfg(test)]
mod tests {
    use super::*;
    use crate::hex;

    const UNTOUCHED: u8 = 0xA5;

    /// What a writer answers in an output of so many octets, with the packet;
    /// all else of the output must be as it was.
    fn written(
        room: usize,
        write: impl Fn(&mut [u8]) -> Result<usize, Refusal>,
    ) -> Result<Vec<u8>, u8> {
        let mut output = vec![UNTOUCHED; room];
        let answer = write(&mut output);
        let packet = output[..answer.unwrap_or(0)].to_vec();
        let rest = &output[packet.len()..];
        assert!(rest.iter().all(|octet| *octet == UNTOUCHED));
        answer.map(|_| packet).map_err(|refusal| refusal.0)
    }

    fn space(fields: [u32; 5], data: &[u8], room: usize) -> Result<Vec<u8>, u8> {
        let head = SpaceHead::new(fields);
        written(room, |output| write_space(&head, data, output))
    }

    fn encap(fields: [u32; 3], content: usize, room: usize) -> Result<Vec<u8>, u8> {
        let content = vec![0x77; content];
        let fields = EncapFields::new(fields);
        written(room, |output| write_encap(&fields, &content, output))
    }

    /// The header that this content gets, found by the octets before it.
    fn header(fields: [u32; 3], content: usize) -> Vec<u8> {
        let mut packet = encap(fields, content, 65_544).expect("these fit");
        packet.truncate(packet.len() - content);
        packet
    }

    #[test]
    fn the_papers_contents() {
        assert_eq!(header([2, 0, 0], 253), hex::octets("E9 FF"));
        assert_eq!(header([2, 0, 0], 254), hex::octets("EA 00 01 02"));
        assert_eq!(header([2, 0, 0], 65_531), hex::octets("EA 00 FF FF"));
        assert_eq!(
            header([2, 0, 0], 65_532),
            hex::octets("EB 00 00 00 00 01 00 04")
        );
        assert_eq!(
            header([2, 0, 0], 65_534),
            hex::octets("EB 00 00 00 00 01 00 06")
        );
        assert_eq!(encap([2, 0, 0], 65_535, 65_544), Err(10));
    }

    #[test]
    fn the_shortest_header_that_carries_the_fields() {
        assert_eq!(header([0, 0, 0], 0), [0xE0]);
        assert_eq!(header([0, 0, 0], 1), hex::octets("E1 03"));
        assert_eq!(header([0, 1, 0], 0), hex::octets("E2 10 00 04"));
        assert_eq!(header([7, 0, 0], 1), hex::octets("FD 03"));
        assert_eq!(header([7, 9, 0], 1), hex::octets("FE 90 00 05"));
        assert_eq!(header([6, 0, 0], 1), hex::octets("FA 00 00 05"));
        assert_eq!(header([6, 15, 15], 3), hex::octets("FA FF 00 07"));
        assert_eq!(
            header([6, 4, 3], 65_532),
            hex::octets("FB 43 00 00 00 01 00 04")
        );
    }

    #[test]
    fn encapsulation_grounds_in_their_order() {
        for fields in [[8, 0, 0], [2, 16, 0], [2, 0, 16], [258, 0, 0], [6, 0, 272]] {
            assert_eq!(encap(fields, 1, 9), Err(8), "{fields:?}");
        }
        assert_eq!(encap([8, 0, 3], 0, 0), Err(8));
        assert_eq!(encap([2, 0, 3], 0, 0), Err(7));
        assert_eq!(encap([0, 0, 1], 65_535, 0), Err(7));
        assert_eq!(encap([6, 0, 0], 0, 0), Err(6));
        assert_eq!(encap([2, 0, 0], 65_535, 0), Err(10));
        assert_eq!(encap([0, 0, 0], 0, 0), Err(9));
        assert_eq!(encap([2, 0, 0], 65_534, 65_541), Err(9));
    }

    #[test]
    fn space_packets() {
        assert_eq!(
            space([0, 0, 42, 3, 5], &[0xAA, 0xBB], 8),
            Ok(hex::octets("00 2A C0 05 00 01 AA BB"))
        );
        assert_eq!(
            space([1, 1, 2_046, 1, 16_383], &[1, 2, 3], 20),
            Ok(hex::octets("1F FE 7F FF 00 02 01 02 03"))
        );
        assert_eq!(
            space([0, 0, 2_047, 3, 0], &[9], 7),
            Ok(hex::octets("07 FF C0 00 00 00 09"))
        );
        let longest = space([0, 0, 42, 3, 5], &[7; 65_536], 65_542).expect("it fits");
        assert_eq!(longest[..7], hex::octets("00 2A C0 05 FF FF 07"));
    }

    #[test]
    fn space_grounds_in_their_order() {
        let over = [
            [2, 0, 42, 3, 5],
            [0, 2, 42, 3, 5],
            [0, 0, 2_048, 3, 5],
            [0, 0, 42, 4, 5],
            [0, 0, 42, 3, 16_384],
            [65_536, 0, 42, 3, 5],
            [0, 1, 2_047, 256, 5],
            [0, 3, 2_047, 3, 5],
        ];
        for fields in over {
            assert_eq!(space(fields, &[], 0), Err(8), "{fields:?}");
        }
        assert_eq!(space([0, 1, 2_047, 3, 0], &[], 0), Err(3));
        assert_eq!(space([0, 0, 42, 3, 5], &[], 0), Err(10));
        assert_eq!(space([0, 0, 42, 3, 5], &[0; 65_537], 0), Err(10));
        assert_eq!(space([0, 0, 42, 3, 5], &[0; 65_536], 65_541), Err(9));
        assert_eq!(space([0, 0, 42, 3, 5], &[1, 2], 7), Err(9));
    }
}
