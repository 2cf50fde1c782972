//! Lays packets out of any fields, right or wrong, without judging them.
//!
//! The inputs of the comparison need wrong packets as much as good ones, so
//! the length that a header claims is given apart from the octets after it.

use crate::bits::BitWriter;

/// Octets of the Encapsulation Packet's header for each length of length.
const HEADER_OCTETS: [usize; 4] = [1, 2, 4, 8];

#[derive(Debug, Clone, Copy, Default, PartialEq, Eq)]
pub struct SpaceHead {
    pub packet_type: u32,
    pub secondary: u32,
    pub apid: u32,
    pub flags: u32,
    pub count: u32,
}

impl SpaceHead {
    pub fn new([packet_type, secondary, apid, flags, count]: [u32; 5]) -> Self {
        SpaceHead {
            packet_type,
            secondary,
            apid,
            flags,
            count,
        }
    }

    /// A packet whose length field tells the truth. The data isn't empty.
    pub fn with(&self, data: &[u8]) -> Vec<u8> {
        self.claiming(data.len(), data)
    }

    /// A packet that claims so many data octets, whatever follows.
    pub fn claiming(&self, data_octets: usize, data: &[u8]) -> Vec<u8> {
        BitWriter::new()
            .lay(3, 0b000)
            .lay(1, self.packet_type)
            .lay(1, self.secondary)
            .lay(11, self.apid)
            .lay(2, self.flags)
            .lay(14, self.count)
            .lay(16, (data_octets - 1) as u32)
            .followed_by(data)
    }
}

#[derive(Clone, Copy, Default)]
pub struct EncapHead {
    pub protocol: u32,
    pub length_of_length: usize,
    pub user: u32,
    pub extension: u32,
    pub ccsds: u32,
}

impl EncapHead {
    pub fn octets(&self) -> usize {
        HEADER_OCTETS[self.length_of_length]
    }

    /// A packet whose length field tells the truth.
    pub fn with(&self, content: &[u8]) -> Vec<u8> {
        self.claiming((self.octets() + content.len()) as u32, content)
    }

    /// A packet that claims such a length, whatever follows.
    pub fn claiming(&self, length: u32, content: &[u8]) -> Vec<u8> {
        let mut bits = BitWriter::new();
        bits.lay(3, 0b111)
            .lay(3, self.protocol)
            .lay(2, self.length_of_length as u32);
        if self.length_of_length >= 2 {
            bits.lay(4, self.user).lay(4, self.extension);
        }
        if self.length_of_length == 3 {
            bits.lay(16, self.ccsds);
        }
        bits.lay(self.length_bits(), length).followed_by(content)
    }

    /// Whether the length field is wide enough for this length. Where there is
    /// no such field, 0 is what it holds.
    pub fn can_claim(&self, length: u32) -> bool {
        u64::from(length) < 1 << self.length_bits()
    }

    fn length_bits(&self) -> u32 {
        [0, 8, 16, 32][self.length_of_length]
    }
}

#[cfg(test)]
mod tests {
    use super::*;
    use crate::hex;

    #[test]
    fn space_packets() {
        let head = SpaceHead {
            apid: 42,
            flags: 3,
            count: 5,
            ..SpaceHead::default()
        };
        assert_eq!(
            head.with(&[0xAA, 0xBB]),
            hex::octets("00 2A C0 05 00 01 AA BB")
        );
        let head = SpaceHead {
            packet_type: 1,
            secondary: 1,
            apid: 42,
            flags: 1,
            count: 7,
        };
        assert_eq!(head.claiming(65_536, &[]), hex::octets("18 2A 40 07 FF FF"));
    }

    #[test]
    fn encapsulation_packets() {
        let idle = EncapHead::default();
        assert_eq!(idle.with(&[]), [0xE0]);
        let short = EncapHead {
            protocol: 2,
            length_of_length: 1,
            ..idle
        };
        assert_eq!(short.with(&[1, 2, 3]), hex::octets("E9 05 01 02 03"));
        let middle = EncapHead {
            protocol: 6,
            length_of_length: 2,
            extension: 3,
            ..idle
        };
        assert_eq!(middle.with(&[0x55]), hex::octets("FA 03 00 05 55"));
        let long = EncapHead {
            protocol: 2,
            length_of_length: 3,
            user: 4,
            ccsds: 258,
            ..idle
        };
        assert_eq!(
            long.claiming(65_543, &[]),
            hex::octets("EB 40 01 02 00 01 00 07")
        );
        assert!(short.can_claim(255) && !short.can_claim(256));
    }
}
