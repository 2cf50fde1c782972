//! Calls of `write_record`.

use super::answered;
use crate::calls::checker::Call;
use crate::calls::library::Library;
use crate::calls::memory::{Memory, Piece};
use crate::record::{write_record, Record};

pub struct WriteRecord {
    pub record: Record,
    pub room: usize,
}

impl Call for WriteRecord {
    const FUNCTION: &'static str = "write_record";
    const ANSWERS: &'static [u8] = &[0, 9, 25];

    fn numbers(&self) -> Vec<(&'static str, u32)> {
        let names = ["station", "apid", "units", "packets", "missing", "broken"];
        names.into_iter().zip(self.record.numbers()).collect()
    }

    fn pieces(&self) -> Vec<Piece<'_>> {
        vec![Piece::Output("output", self.room)]
    }

    fn expect(&self, memory: &mut Memory) -> u8 {
        let answer = write_record(&self.record, memory.piece_mut("output"));
        answered(answer, |()| {})
    }

    fn make(&self, library: &Library, memory: &mut Memory) -> u8 {
        let output = memory.pointer("output");
        let record = &self.record;
        // SAFETY: the output is as long as is told, and not null.
        unsafe {
            (library.write_record)(
                record.station,
                record.apid,
                record.units,
                record.packets,
                record.missing,
                record.broken,
                output,
                self.room,
            )
        }
    }
}
