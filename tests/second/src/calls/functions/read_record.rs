//! Calls of `read_record`.

use super::answered;
use crate::calls::checker::Call;
use crate::calls::library::Library;
use crate::calls::memory::{Memory, Piece};
use crate::record::read_record;

pub struct ReadRecord<'a> {
    pub octets: &'a [u8],
}

impl Call for ReadRecord<'_> {
    const FUNCTION: &'static str = "read_record";
    const ANSWERS: &'static [u8] = &[0, 25, 26];

    fn pieces(&self) -> Vec<Piece<'_>> {
        vec![
            Piece::Input("octets", self.octets),
            Piece::Numbers("record", 6),
        ]
    }

    fn expect(&self, memory: &mut Memory) -> u8 {
        answered(read_record(self.octets), |record| {
            memory.put_numbers("record", &record.numbers())
        })
    }

    fn make(&self, library: &Library, memory: &mut Memory) -> u8 {
        let octets = memory.pointer("octets");
        let record = memory.pointer("record").cast();
        // SAFETY: the pieces are apart, as long as is told, and not null.
        unsafe { (library.read_record)(octets, self.octets.len(), record) }
    }
}
