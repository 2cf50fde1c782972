//! Calls of `read_record_file`.

use crate::calls::checker::Call;
use crate::calls::library::Library;
use crate::calls::memory::{Memory, Piece};
use crate::record::{read_file, FileRefusal};

pub struct ReadFile<'a> {
    pub octets: &'a [u8],
}

impl Call for ReadFile<'_> {
    const FUNCTION: &'static str = "read_record_file";
    const ANSWERS: &'static [u8] = &[0, 25, 26];

    fn pieces(&self) -> Vec<Piece<'_>> {
        vec![
            Piece::Input("octets", self.octets),
            Piece::Size("records"),
            Piece::Size("index"),
        ]
    }

    fn expect(&self, memory: &mut Memory) -> u8 {
        match read_file(self.octets) {
            Ok(records) => {
                memory.put_size("records", records);
                0
            }
            Err(refusal) => {
                if let FileRefusal::NotPossible(index) = refusal {
                    memory.put_size("index", index);
                }
                refusal.number()
            }
        }
    }

    fn make(&self, library: &Library, memory: &mut Memory) -> u8 {
        let octets = memory.pointer("octets");
        let records = memory.pointer("records").cast();
        let index = memory.pointer("index").cast();
        // SAFETY: the pieces are apart, as long as is told, and not null.
        unsafe { (library.read_file)(octets, self.octets.len(), records, index) }
    }
}
