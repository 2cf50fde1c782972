//! The memory that one call is lent: pieces with guard octets about them.

use crate::hex;
use std::array;
use std::mem::{align_of, size_of};
use std::ops::Range;
use std::slice;

const CELL: usize = size_of::<u64>();

/// The least number of guard octets before, between and after the pieces.
const LEAST_GUARD: usize = 64;

/// What is to be lent to a call, by name.
pub enum Piece<'a> {
    /// Octets to be read.
    Input(&'static str, &'a [u8]),
    /// So many octets to be written.
    Output(&'static str, usize),
    /// A struct of so many 32 bit numbers.
    Numbers(&'static str, usize),
    /// A number of the width of lengths.
    Size(&'static str),
}

impl Piece<'_> {
    fn name(&self) -> &'static str {
        match self {
            Piece::Input(name, _) | Piece::Output(name, _) => name,
            Piece::Numbers(name, _) | Piece::Size(name) => name,
        }
    }

    fn octets(&self) -> usize {
        match self {
            Piece::Input(_, octets) => octets.len(),
            Piece::Output(_, octets) => *octets,
            Piece::Numbers(_, numbers) => size_of::<u32>() * numbers,
            Piece::Size(_) => size_of::<usize>(),
        }
    }

    fn alignment(&self) -> usize {
        match self {
            Piece::Input(..) | Piece::Output(..) => 1,
            Piece::Numbers(..) => align_of::<u32>(),
            Piece::Size(_) => align_of::<usize>(),
        }
    }
}

/// One row of octets, in which the pieces lie. All of it that isn't input holds
/// the call's pattern before the call, also the pieces to be written.
#[derive(Clone)]
pub struct Memory {
    /// Cells, so that the widest numbers can be aligned.
    cells: Vec<u64>,
    places: Vec<(&'static str, Range<usize>)>,
}

impl Memory {
    pub fn new(call: usize, pieces: &[Piece<'_>]) -> Self {
        // The whole packet fits a guard, so that a function which writes it in
        // spite of a short output is found out before it does harm.
        let longest = pieces.iter().map(Piece::octets).max().unwrap_or(0);
        Memory::with_guards(call, pieces, LEAST_GUARD + longest)
    }

    /// With at least so many guard octets before, between and after the pieces.
    pub fn with_guards(call: usize, pieces: &[Piece<'_>], guard: usize) -> Self {
        let mut places = Vec::new();
        // From call to call the octets begin at other places in a cell.
        let mut end = guard + call % CELL;
        for piece in pieces {
            let start = end.next_multiple_of(piece.alignment());
            places.push((piece.name(), start..start + piece.octets()));
            end = start + piece.octets() + guard;
        }
        let cells = vec![0; end.div_ceil(CELL)];
        let mut memory = Memory { cells, places };
        memory.fill(call, pieces);
        memory
    }

    fn fill(&mut self, call: usize, pieces: &[Piece<'_>]) {
        // It rises by 7 from octet to octet, and begins elsewhere in each call.
        let first = (call as u8).wrapping_mul(41);
        for (place, octet) in self.octets_mut().iter_mut().enumerate() {
            *octet = first.wrapping_add((place as u8).wrapping_mul(7));
        }
        for piece in pieces {
            if let Piece::Input(name, octets) = piece {
                self.put(name, octets);
            }
        }
    }

    fn octets(&self) -> &[u8] {
        let octets = self.cells.len() * CELL;
        // SAFETY: these are the cells' octets, and every octet is a number.
        unsafe { slice::from_raw_parts(self.cells.as_ptr().cast(), octets) }
    }

    fn octets_mut(&mut self) -> &mut [u8] {
        let octets = self.cells.len() * CELL;
        // SAFETY: as above, and whatever is written there makes numbers again.
        unsafe { slice::from_raw_parts_mut(self.cells.as_mut_ptr().cast(), octets) }
    }

    fn place(&self, name: &str) -> Range<usize> {
        let found = self.places.iter().find(|(piece, _)| *piece == name);
        found.expect("a piece of that name").1.clone()
    }

    pub fn piece(&self, name: &str) -> &[u8] {
        &self.octets()[self.place(name)]
    }

    pub fn piece_mut(&mut self, name: &str) -> &mut [u8] {
        let place = self.place(name);
        &mut self.octets_mut()[place]
    }

    /// Puts these octets, which are all of the piece.
    pub fn put(&mut self, name: &str, octets: &[u8]) {
        self.piece_mut(name).copy_from_slice(octets);
    }

    /// Two pieces at once, the first of which lies before the second.
    pub fn two_mut(&mut self, first: &str, second: &str) -> (&mut [u8], &mut [u8]) {
        let (first, second) = (self.place(first), self.place(second));
        let (front, rest) = self.octets_mut().split_at_mut(second.start);
        (&mut front[first], &mut rest[..second.len()])
    }

    pub fn put_size(&mut self, name: &str, size: usize) {
        self.put(name, &size.to_ne_bytes());
    }

    pub fn size(&self, name: &str) -> usize {
        let octets = self.piece(name).try_into().expect("the octets of a size");
        usize::from_ne_bytes(octets)
    }

    pub fn put_numbers(&mut self, name: &str, numbers: &[u32]) {
        let octets: Vec<u8> = numbers.iter().flat_map(|n| n.to_ne_bytes()).collect();
        self.put(name, &octets);
    }

    pub fn numbers<const N: usize>(&self, name: &str) -> [u32; N] {
        let mut octets = self.piece(name).chunks_exact(size_of::<u32>());
        let number = |octets: &[u8]| u32::from_ne_bytes(octets.try_into().expect("four octets"));
        array::from_fn(|_| octets.next().map(number).expect("as many numbers"))
    }

    /// Where to lend the piece.
    pub fn pointer(&mut self, name: &str) -> *mut u8 {
        let place = self.place(name);
        // SAFETY: the place lies within the cells.
        unsafe { self.cells.as_mut_ptr().cast::<u8>().add(place.start) }
    }

    /// Tells the first octet that isn't as expected.
    pub fn difference(&self, expected: &Memory) -> Option<String> {
        let (came, expected) = (self.octets(), expected.octets());
        if came == expected {
            return None;
        }
        let mut pairs = came.iter().zip(expected);
        let at = pairs.position(|(came, expected)| came != expected)?;
        let shown = at..(at + 8).min(came.len());
        Some(format!(
            "{}: expected {}, got {}",
            self.name_of(at),
            hex::text(&expected[shown.clone()]),
            hex::text(&came[shown])
        ))
    }

    /// The octet at this place by the piece in which, or after which, it lies.
    fn name_of(&self, at: usize) -> String {
        let before = self
            .places
            .iter()
            .rev()
            .find(|(_, place)| place.start <= at);
        match before {
            Some((name, place)) if at < place.end => {
                format!("from octet {} of {name} on", at - place.start)
            }
            Some((name, place)) => {
                format!("from guard octet {} after {name} on", at - place.end)
            }
            None => format!("from octet {at} of the first guard on"),
        }
    }
}

#[cfg(test)]
mod tests {
    use super::*;

    fn memory(call: usize) -> Memory {
        let pieces = [
            Piece::Input("data", &[1, 2, 3]),
            Piece::Output("output", 5),
            Piece::Size("written"),
            Piece::Numbers("record", 2),
        ];
        Memory::new(call, &pieces)
    }

    #[test]
    fn holds_the_inputs_and_else_the_calls_pattern() {
        let memory = memory(3);
        assert_eq!(memory.piece("data"), [1, 2, 3]);
        let output = memory.place("output");
        for (place, octet) in memory.octets().iter().enumerate() {
            let pattern = (3 * 41 + place * 7) as u8;
            let input = memory.place("data").contains(&place);
            assert!(input || *octet == pattern, "octet {place}");
        }
        assert!(output.start >= memory.place("data").end + LEAST_GUARD);
        assert!(memory.octets().len() >= memory.place("record").end + LEAST_GUARD);
    }

    #[test]
    fn differs_from_call_to_call() {
        assert_ne!(memory(3).piece("output"), memory(4).piece("output"));
        assert_ne!(memory(3).octets()[0], memory(4).octets()[0]);
        let starts: Vec<usize> = (0..8)
            .map(|call| memory(call).place("output").start % 8)
            .collect();
        assert!((0..8).all(|start| starts.contains(&start)), "{starts:?}");
    }

    #[test]
    fn lends_numbers_aligned_and_each_piece_where_it_lies() {
        for call in 0..16 {
            let mut memory = memory(call);
            assert_eq!(memory.pointer("written") as usize % align_of::<usize>(), 0);
            assert_eq!(memory.pointer("record") as usize % align_of::<u32>(), 0);
            // SAFETY: the piece is five octets long.
            unsafe { memory.pointer("output").add(4).write(0xEE) };
            assert_eq!(memory.piece("output")[4], 0xEE);
        }
    }

    #[test]
    fn gives_back_the_numbers_put() {
        let mut memory = memory(1);
        memory.put_size("written", 65_542);
        assert_eq!(memory.size("written"), 65_542);
        memory.put_numbers("record", &[7, u32::MAX]);
        assert_eq!(memory.numbers("record"), [7, u32::MAX]);
    }

    /// What is told when the octet at this place is another.
    fn told(place: usize) -> String {
        let (mut came, expected) = (memory(9), memory(9));
        assert_eq!(came.difference(&expected), None);
        came.octets_mut()[place] ^= 0x80;
        came.difference(&expected).expect("one octet differs")
    }

    #[test]
    fn tells_where_memories_differ() {
        let memory = memory(9);
        let (data, output) = (memory.place("data"), memory.place("output"));
        assert!(told(0).starts_with("from octet 0 of the first guard on: expected 71 78 "));
        assert!(told(data.start + 2).starts_with("from octet 2 of data on: expected 03 "));
        assert!(told(data.end).starts_with("from guard octet 0 after data on: "));
        assert!(told(output.start - 1).contains(" after data on: "));
        assert!(told(output.end - 1).starts_with("from octet 4 of output on: "));
        assert!(told(output.end).starts_with("from guard octet 0 after output on: "));
        let last = memory.octets().len() - 1;
        assert!(told(last).contains(" after record on: "));
    }
}
