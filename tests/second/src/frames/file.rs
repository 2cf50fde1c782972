//! The frames of a frame file, laid and taken.

use super::Frame;
use crate::bits::{BitReader, BitWriter, Ended};

/// The octets of a frame before its field.
pub const HEAD_OCTETS: usize = 6;

/// Two octets each have count, pointer and the field's length.
#[derive(Debug, Clone, Default, PartialEq, Eq)]
pub struct FileFrame {
    pub count: u16,
    pub pointer: u16,
    pub field: Vec<u8>,
}

impl FileFrame {
    pub fn laid(&self) -> Vec<u8> {
        let mut bits = BitWriter::new();
        bits.lay(16, self.count.into()).lay(16, self.pointer.into());
        bits.lay(16, self.field.len() as u32);
        bits.followed_by(&self.field)
    }

    /// The frame at the front, unless it is cut off, and how many octets it
    /// takes.
    pub fn taken(octets: &[u8]) -> Result<(FileFrame, usize), Ended> {
        let mut bits = BitReader::new(octets);
        let (count, pointer) = (bits.take(16)? as u16, bits.take(16)? as u16);
        let length = bits.take(16)? as usize;
        let field = bits.following(length)?.to_vec();
        let frame = FileFrame {
            count,
            pointer,
            field,
        };
        Ok((frame, HEAD_OCTETS + length))
    }

    pub fn as_frame(&self) -> Frame<'_> {
        Frame {
            count: self.count.into(),
            pointer: self.pointer.into(),
            field: &self.field,
        }
    }
}

pub fn laid(frames: &[FileFrame]) -> Vec<u8> {
    frames.iter().flat_map(FileFrame::laid).collect()
}

#[cfg(test)]
mod tests {
    use super::*;
    use crate::hex;

    fn both_ways(frame: &FileFrame, text: &str) {
        let octets = hex::octets(text);
        assert_eq!(frame.laid(), octets);
        let longer = [&octets[..], &[0, 1]].concat();
        assert_eq!(FileFrame::taken(&longer), Ok((frame.clone(), octets.len())));
        for kept in 0..octets.len() {
            assert_eq!(FileFrame::taken(&octets[..kept]), Err(Ended(kept)));
        }
    }

    #[test]
    fn laid_and_taken() {
        let frame = FileFrame {
            count: 258,
            pointer: 2_047,
            field: vec![0xE0, 0x20],
        };
        both_ways(&frame, "01 02 07 FF 00 02 E0 20");
        both_ways(&FileFrame::default(), "00 00 00 00 00 00");
    }

    #[test]
    fn a_field_of_the_longest_length() {
        let frame = FileFrame {
            field: vec![7; 65_535],
            ..FileFrame::default()
        };
        let octets = frame.laid();
        assert_eq!(octets[..7], [0, 0, 0, 0, 255, 255, 7]);
        assert_eq!(FileFrame::taken(&octets), Ok((frame, 65_541)));
    }
}
