//! Octets seen as one row of bits, highest bit first.
//!
//! Fields are taken and laid in the order in which they are sent, so no offset
//! of any field is written down.

/// The bits at hand, which are those of so many octets, ended before what was
/// to be taken did.
#[derive(Debug, PartialEq, Eq)]
pub struct Ended(pub usize);

/// A field that was taken: its number, and the octet in which it begins.
#[derive(Debug, Clone, Copy, PartialEq, Eq)]
pub struct Field {
    pub number: u32,
    pub octet: usize,
}

pub struct BitReader<'a> {
    octets: &'a [u8],
    taken: usize,
}

impl<'a> BitReader<'a> {
    pub fn new(octets: &'a [u8]) -> Self {
        BitReader { octets, taken: 0 }
    }

    /// The next `width` bits (at most 32) as a number.
    pub fn take(&mut self, width: u32) -> Result<u32, Ended> {
        let mut number = 0;
        for _ in 0..width {
            let octet = *self.octets.get(self.taken / 8).ok_or(self.ended())?;
            let bit = (octet >> (7 - self.taken % 8)) & 1;
            number = (number << 1) | u32::from(bit);
            self.taken += 1;
        }
        Ok(number)
    }

    /// The same, with the place at which they begin.
    pub fn field(&mut self, width: u32) -> Result<Field, Ended> {
        let octet = self.taken / 8;
        let number = self.take(width)?;
        Ok(Field { number, octet })
    }

    fn ended(&self) -> Ended {
        Ended(self.octets.len())
    }

    /// How many octets have been taken. Asked only between whole octets.
    pub fn octets_taken(&self) -> usize {
        assert_eq!(self.taken % 8, 0, "asked in the middle of an octet");
        self.taken / 8
    }

    /// The `octets` octets that follow, as a part of those lent.
    pub fn following(&self, octets: usize) -> Result<&'a [u8], Ended> {
        let (_, rest) = self.octets.split_at(self.octets_taken());
        rest.get(..octets).ok_or(self.ended())
    }
}

#[derive(Default)]
pub struct BitWriter {
    octets: Vec<u8>,
    laid: usize,
}

impl BitWriter {
    pub fn new() -> Self {
        BitWriter::default()
    }

    /// Lays the lowest `width` bits of the number, the highest of them first.
    pub fn lay(&mut self, width: u32, number: u32) -> &mut Self {
        for place in (0..width).rev() {
            if self.laid % 8 == 0 {
                self.octets.push(0);
            }
            let bit = ((number >> place) & 1) as u8;
            *self.octets.last_mut().expect("an octet was just pushed") |=
                bit << (7 - self.laid % 8);
            self.laid += 1;
        }
        self
    }

    /// The octets laid, with others put after them.
    pub fn followed_by(&mut self, octets: &[u8]) -> Vec<u8> {
        let mut whole = std::mem::take(&mut self.octets);
        whole.extend_from_slice(octets);
        whole
    }
}

#[cfg(test)]
mod tests {
    use super::*;

    #[test]
    fn takes_the_highest_bit_first() {
        let mut bits = BitReader::new(&[0b1010_0001, 0xFF, 0x07]);
        assert_eq!(bits.take(3), Ok(0b101));
        assert_eq!(bits.take(6), Ok(0b000011));
        assert_eq!(bits.take(7), Ok(0x7F));
        assert_eq!(bits.octets_taken(), 2);
        assert_eq!(bits.following(1), Ok(&[0x07][..]));
        assert_eq!(bits.following(2), Err(Ended(3)));
        assert_eq!(bits.take(9), Err(Ended(3)));
        assert_eq!(BitReader::new(&[]).take(1), Err(Ended(0)));
    }

    #[test]
    fn fields_begin_where_the_last_one_ended() {
        let mut bits = BitReader::new(&[0xAB, 0xCD, 0xEF]);
        let mut field = |width| bits.field(width).map(|field| (field.number, field.octet));
        assert_eq!(field(4), Ok((0xA, 0)));
        assert_eq!(field(4), Ok((0xB, 0)));
        assert_eq!(field(4), Ok((0xC, 1)));
        assert_eq!(field(12), Ok((0xDEF, 1)));
        assert_eq!(field(1), Err(Ended(3)));
    }

    #[test]
    fn lays_what_is_taken() {
        let octets = BitWriter::new()
            .lay(3, 0b101)
            .lay(6, 3)
            .lay(7, 0x7F)
            .followed_by(&[7]);
        assert_eq!(octets, [0b1010_0001, 0xFF, 0x07]);
    }
}
