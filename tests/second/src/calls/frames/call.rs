//! One call of `take_frame`, made and compared.

use super::structs::{FramedNumbers, FramesNumbers, REPEAT, TAKEN};
use crate::calls::checker::Checker;
use crate::calls::library::Library;
use crate::calls::memory::{Memory, Piece};
use crate::frames::met::{things, Before};
use crate::frames::{Frame, Frames, BUFFER_OCTETS, LEAST_OUTPUT, LONGEST_FIELD};
use crate::hex;

const LEAST_GUARD: usize = 64;

#[derive(Clone, Copy)]
pub struct FrameCall<'a> {
    pub state: Frames,
    pub frame: Frame<'a>,
    pub buffer: &'a [u8],
    pub room: usize,
}

impl FrameCall<'_> {
    fn memory(&self, call: usize) -> Memory {
        let pieces = [
            Piece::Input("field", self.frame.field),
            Piece::Input("piece", self.buffer),
            Piece::Output("output", self.room),
        ];
        // What is written in spite of a short buffer or output fits a guard.
        let as_usual = self.buffer.len() >= BUFFER_OCTETS && self.room >= LEAST_OUTPUT;
        let most = if as_usual {
            LONGEST_FIELD
        } else {
            LEAST_OUTPUT
        };
        Memory::with_guards(call, &pieces, LEAST_GUARD + most)
    }

    /// Calls the library on the memory.
    fn make(&self, library: &Library, memory: &mut Memory) -> FramedNumbers {
        let [field, piece, output] = ["field", "piece", "output"].map(|name| memory.pointer(name));
        let Frame {
            count,
            pointer,
            field: octets,
        } = self.frame;
        // SAFETY: the pieces are apart, as long as is told, and not null.
        unsafe {
            (library.take_frame)(
                self.state.into(),
                count,
                pointer,
                field,
                octets.len(),
                piece,
                self.buffer.len(),
                output,
                self.room,
            )
        }
    }

    fn described(&self) -> String {
        let Frame {
            count,
            pointer,
            field,
        } = self.frame;
        let piece = self.buffer.get(..self.state.piece).unwrap_or(&[]);
        format!(
            "take_frame\n{:?}\ncount {count}\npointer {pointer}\nfield {}\npiece {}\n\
            buffer of {} octets\noutput of {} octets\n",
            FramesNumbers::from(self.state),
            hex::cut(field),
            hex::cut(piece),
            self.buffer.len(),
            self.room
        )
    }
}

/// Makes the call, compares it and counts what it met. Gives the answer with the
/// memory after it, or how the call differed.
pub fn check(
    checker: &mut Checker<'_>,
    call: &FrameCall<'_>,
) -> Result<(FramedNumbers, Memory), String> {
    let mut memory = call.memory(checker.count_call());
    let mut expected = memory.clone();
    let mut frames = call.state;
    let (buffer, output) = expected.two_mut("piece", "output");
    let answer = frames.take(&call.frame, buffer, output);
    let should = FramedNumbers::of(&answer, frames);
    let came = call.make(checker.library(), &mut memory);
    let differences = [came.difference(&should), memory.difference(&expected)];
    if differences.iter().any(Option::is_some) {
        let differences: String = differences.into_iter().flatten().collect();
        return Err(call.described() + &differences);
    }
    checker.meet(&format!("take_frame that returns {}", came.refusal));
    match came.kind {
        REPEAT => checker.meet("take_frame that answers repeat"),
        TAKEN => checker.meet("take_frame that answers taken"),
        _ => (),
    }
    let before = Before::new(&call.state, call.buffer);
    let found = things(&before, &call.frame, &answer);
    found.iter().for_each(|thing| checker.meet(thing));
    Ok((came, memory))
}
