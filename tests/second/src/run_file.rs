//! The calls of a run file, laid and taken.

use crate::bits::{BitReader, BitWriter, Ended};
use crate::lanes::Settings;

/// The first octet of each kind of call.
const OPEN: u8 = b'O';
const PACKET: u8 = b'P';
const CLOSE: u8 = b'C';

/// The octets of a packet's call before the packet.
pub const PACKET_CALL_OCTETS: usize = 10;

#[derive(Debug, Clone, PartialEq, Eq)]
pub enum Call {
    Open {
        lane: u8,
        settings: Settings,
    },
    Packet {
        lane: u8,
        space: u32,
        octets: Vec<u8>,
    },
    Close {
        lane: u8,
        space: u32,
    },
}

/// The call is cut off, or there is no call with such a first octet.
#[derive(Debug, PartialEq, Eq)]
pub struct Bad;

impl From<Ended> for Bad {
    fn from(_: Ended) -> Self {
        Bad
    }
}

impl Call {
    pub fn laid(&self) -> Vec<u8> {
        let mut bits = BitWriter::new();
        match self {
            Call::Open { lane, settings } => {
                bits.lay(8, OPEN.into()).lay(8, (*lane).into());
                bits.lay(16, settings.station.into());
                bits.lay(16, settings.apid.into());
                let rest = [settings.secondary, settings.share, settings.cap];
                bits.followed_by(&rest)
            }
            Call::Packet {
                lane,
                space,
                octets,
            } => {
                bits.lay(8, PACKET.into()).lay(8, (*lane).into());
                bits.lay(32, *space).lay(32, octets.len() as u32);
                bits.followed_by(octets)
            }
            Call::Close { lane, space } => {
                bits.lay(8, CLOSE.into()).lay(8, (*lane).into());
                bits.lay(32, *space).followed_by(&[])
            }
        }
    }

    /// The call at the front, and how many octets it takes.
    pub fn taken(octets: &[u8]) -> Result<(Call, usize), Bad> {
        let mut bits = BitReader::new(octets);
        match bits.take(8)? as u8 {
            OPEN => taken_open(bits),
            PACKET => taken_packet(bits),
            CLOSE => taken_close(bits),
            _ => Err(Bad),
        }
    }
}

fn taken_open(mut bits: BitReader<'_>) -> Result<(Call, usize), Bad> {
    let lane = bits.take(8)? as u8;
    let (station, apid) = (bits.take(16)? as u16, bits.take(16)? as u16);
    let (secondary, share) = (bits.take(8)? as u8, bits.take(8)? as u8);
    let cap = bits.take(8)? as u8;
    let settings = Settings::new(station, apid, [secondary, share, cap]);
    Ok((Call::Open { lane, settings }, bits.octets_taken()))
}

fn taken_packet(mut bits: BitReader<'_>) -> Result<(Call, usize), Bad> {
    let (lane, space) = (bits.take(8)? as u8, bits.take(32)?);
    let length = bits.take(32)? as usize;
    let octets = bits.following(length)?.to_vec();
    let call = Call::Packet {
        lane,
        space,
        octets,
    };
    Ok((call, bits.octets_taken() + length))
}

fn taken_close(mut bits: BitReader<'_>) -> Result<(Call, usize), Bad> {
    let (lane, space) = (bits.take(8)? as u8, bits.take(32)?);
    Ok((Call::Close { lane, space }, bits.octets_taken()))
}

#[cfg(test)]
mod tests {
    use super::*;
    use crate::hex;

    fn both_ways(call: &Call, text: &str) {
        let octets = hex::octets(text);
        assert_eq!(call.laid(), octets);
        let longer = [&octets[..], &[0x43, 0]].concat();
        assert_eq!(Call::taken(&longer), Ok((call.clone(), octets.len())));
        for kept in 0..octets.len() {
            assert_eq!(Call::taken(&octets[..kept]), Err(Bad));
        }
    }

    #[test]
    fn each_kind() {
        let settings = Settings::new(258, 2_046, [63, 1, 64]);
        let open = Call::Open { lane: 7, settings };
        both_ways(&open, "4F 07 01 02 07 FE 3F 01 40");
        let packet = Call::Packet {
            lane: 255,
            space: 0x0102_0304,
            octets: vec![0xE0, 0x20],
        };
        both_ways(&packet, "50 FF 01 02 03 04 00 00 00 02 E0 20");
        let close = Call::Close { lane: 8, space: 20 };
        both_ways(&close, "43 08 00 00 00 14");
    }

    #[test]
    fn no_octets_are_a_packet_too() {
        let empty = Call::Packet {
            lane: 0,
            space: 0,
            octets: Vec::new(),
        };
        both_ways(&empty, "50 00 00 00 00 00 00 00 00 00");
    }

    #[test]
    fn other_first_octets_and_lengths_beyond_the_end() {
        for text in [
            "00 00 00 00 00 00 00 00 00 00",
            "6F 00 00 07 00 2A 00 01 02",
        ] {
            assert_eq!(Call::taken(&hex::octets(text)), Err(Bad));
        }
        let far = hex::octets("50 00 00 00 00 00 FF FF FF FF 00");
        assert_eq!(Call::taken(&far), Err(Bad));
    }
}
