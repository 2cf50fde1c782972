//! The pool's blocks, and the groups that hold them.

pub const BLOCKS: usize = 64;
pub const BLOCK_OCTETS: usize = 256;
pub const POOL_OCTETS: usize = BLOCKS * BLOCK_OCTETS;

/// How many blocks so many octets lie in.
pub fn blocks_for(octets: usize) -> usize {
    octets.div_ceil(BLOCK_OCTETS)
}

/// An open group. Its octets are kept here as well as in the pool, so that a
/// unit never depends on where they were put.
#[derive(Debug, Default)]
pub struct Group {
    pub octets: Vec<u8>,
    /// Block numbers in the order in which they were taken.
    pub blocks: Vec<usize>,
}

impl Group {
    /// Adds octets, taking as many of the free blocks as are wanted. The free
    /// ones come lowest first.
    pub fn grow(&mut self, added: &[u8], free: impl Iterator<Item = usize>, pool: &mut [u8]) {
        let wanted = blocks_for(self.octets.len() + added.len());
        let lacking = wanted - self.blocks.len();
        self.blocks.extend(free.take(lacking));
        assert_eq!(self.blocks.len(), wanted, "room was promised");
        for octet in added {
            let place = self.octets.len();
            let block = self.blocks[place / BLOCK_OCTETS];
            pool[block * BLOCK_OCTETS + place % BLOCK_OCTETS] = *octet;
            self.octets.push(*octet);
        }
    }
}

#[cfg(test)]
mod tests {
    use super::*;

    #[test]
    fn blocks_of_some_lengths() {
        let lengths = [0, 1, 256, 257, 16_384];
        assert_eq!(lengths.map(blocks_for), [0, 1, 1, 2, 64]);
    }

    #[test]
    fn octets_lie_in_blocks_as_taken() {
        let mut pool = vec![0xEE; POOL_OCTETS];
        let mut group = Group::default();
        group.grow(&[1; 255], [9, 12].into_iter(), &mut pool);
        group.grow(&[2, 3], [4, 5].into_iter(), &mut pool);
        assert_eq!(group.blocks, [9, 4]);
        assert_eq!(pool[9 * 256 + 254..9 * 256 + 257], [1, 2, 0xEE]);
        assert_eq!(pool[4 * 256 - 1..4 * 256 + 2], [0xEE, 3, 0xEE]);
        let touched = pool.iter().filter(|octet| **octet != 0xEE).count();
        assert_eq!(touched, 257);
    }
}
