//! Calls of `write_space`.

use super::answered;
use crate::calls::checker::Call;
use crate::calls::library::Library;
use crate::calls::memory::{Memory, Piece};
use crate::forge::SpaceHead;
use crate::writer::write_space;

pub struct WriteSpace {
    pub head: SpaceHead,
    pub data: Vec<u8>,
    pub room: usize,
}

impl Call for WriteSpace {
    const FUNCTION: &'static str = "write_space";
    const ANSWERS: &'static [u8] = &[0, 3, 8, 9, 10];

    fn numbers(&self) -> Vec<(&'static str, u32)> {
        vec![
            ("type", self.head.packet_type),
            ("secondary", self.head.secondary),
            ("apid", self.head.apid),
            ("flags", self.head.flags),
            ("count", self.head.count),
        ]
    }

    fn pieces(&self) -> Vec<Piece<'_>> {
        vec![
            Piece::Input("data", &self.data),
            Piece::Output("output", self.room),
            Piece::Size("written"),
        ]
    }

    fn expect(&self, memory: &mut Memory) -> u8 {
        let answer = write_space(&self.head, &self.data, memory.piece_mut("output"));
        answered(answer, |octets| memory.put_size("written", octets))
    }

    fn make(&self, library: &Library, memory: &mut Memory) -> u8 {
        let data = memory.pointer("data");
        let output = memory.pointer("output");
        let written = memory.pointer("written").cast();
        // SAFETY: the pieces are apart, as long as is told, and not null.
        unsafe {
            (library.write_space)(
                self.head.packet_type,
                self.head.secondary,
                self.head.apid,
                self.head.flags,
                self.head.count,
                data,
                self.data.len(),
                output,
                self.room,
                written,
            )
        }
    }
}
