//! Calls of `write_encapsulation`.

use super::answered;
use crate::calls::checker::Call;
use crate::calls::library::Library;
use crate::calls::memory::{Memory, Piece};
use crate::writer::{write_encap, EncapFields};

pub struct WriteEncap {
    pub fields: EncapFields,
    pub content: Vec<u8>,
    pub room: usize,
}

impl Call for WriteEncap {
    const FUNCTION: &'static str = "write_encapsulation";
    const ANSWERS: &'static [u8] = &[0, 6, 7, 8, 9, 10];
    const HEADERS: &'static [usize] = &[1, 2, 4, 8];

    fn numbers(&self) -> Vec<(&'static str, u32)> {
        vec![
            ("protocol", self.fields.protocol),
            ("user", self.fields.user),
            ("extension", self.fields.extension),
        ]
    }

    fn pieces(&self) -> Vec<Piece<'_>> {
        vec![
            Piece::Input("content", &self.content),
            Piece::Output("output", self.room),
            Piece::Size("written"),
        ]
    }

    fn expect(&self, memory: &mut Memory) -> u8 {
        let answer = write_encap(&self.fields, &self.content, memory.piece_mut("output"));
        answered(answer, |octets| memory.put_size("written", octets))
    }

    fn make(&self, library: &Library, memory: &mut Memory) -> u8 {
        let content = memory.pointer("content");
        let output = memory.pointer("output");
        let written = memory.pointer("written").cast();
        // SAFETY: the pieces are apart, as long as is told, and not null.
        unsafe {
            (library.write_encap)(
                self.fields.protocol,
                self.fields.user,
                self.fields.extension,
                content,
                self.content.len(),
                output,
                self.room,
                written,
            )
        }
    }

    fn header(&self, after: &Memory) -> Option<usize> {
        Some(after.size("written") - self.content.len())
    }
}
