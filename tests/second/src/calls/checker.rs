//! Makes calls, compares each with what it should have done, and keeps count.

use super::library::Library;
use super::memory::{Memory, Piece};
use crate::faults;
use crate::hex;
use crate::reader::Fault;
use std::collections::BTreeMap;

/// A comparison that meets something less often than this has lost its worth.
const LEAST: usize = 50;

/// One call of one function.
pub trait Call {
    /// The function's name, without the prefix that all of them have.
    const FUNCTION: &'static str;

    /// Every number that the function can return.
    const ANSWERS: &'static [u8];

    /// The sizes of every header that it can read or write.
    const HEADERS: &'static [usize] = &[];

    /// The kinds of every fault whose place it can tell.
    const FAULTS: &'static [&'static str] = &[];

    /// The numbers that are given by value.
    fn numbers(&self) -> Vec<(&'static str, u32)> {
        Vec::new()
    }

    /// What is lent.
    fn pieces(&self) -> Vec<Piece<'_>>;

    /// Does to the memory what the library should, by this program's own
    /// functions, and gives the number that should be returned.
    fn expect(&self, memory: &mut Memory) -> u8;

    /// Calls the library on the memory.
    fn make(&self, library: &Library, memory: &mut Memory) -> u8;

    /// The octets of the header that a good call has read or written.
    fn header(&self, _after: &Memory) -> Option<usize> {
        None
    }

    /// The place that a refused call has told.
    fn place(&self, _after: &Memory) -> Option<usize> {
        None
    }
}

pub struct Checker<'a> {
    library: &'a Library,
    calls: usize,
    /// How often each thing was met.
    met: BTreeMap<String, usize>,
}

impl<'a> Checker<'a> {
    pub fn new(library: &'a Library) -> Self {
        Checker {
            library,
            calls: 0,
            met: BTreeMap::new(),
        }
    }

    pub fn library(&self) -> &'a Library {
        self.library
    }

    /// Counts one more call, and gives its number.
    pub fn count_call(&mut self) -> usize {
        self.calls += 1;
        self.calls
    }

    /// The memory after the call if 0 was returned, nothing after a refusal;
    /// or how the call differed from what was expected.
    pub fn check<C: Call>(&mut self, call: &C) -> Result<Option<Memory>, String> {
        let mut memory = Memory::new(self.count_call(), &call.pieces());
        let mut expected = memory.clone();
        let should = call.expect(&mut expected);
        let returned = call.make(self.library, &mut memory);
        let difference = memory.difference(&expected);
        if returned != should || difference.is_some() {
            let answers = format!("expected to return {should}, returned {returned}\n");
            return Err(described(call) + &answers + &difference.unwrap_or_default());
        }
        assert!(C::ANSWERS.contains(&returned), "{returned} isn't foreseen");
        self.meet(&answer::<C>(returned));
        if returned != 0 {
            if let Some(place) = call.place(&memory) {
                let number = returned;
                self.meet(&fault::<C>(faults::kind(&Fault { number, place })));
            }
            return Ok(None);
        }
        if let Some(octets) = call.header(&memory) {
            self.meet(&header::<C>(octets));
        }
        Ok(Some(memory))
    }

    /// Notes that a thing was met once more.
    pub fn meet(&mut self, thing: &str) {
        *self.met.entry(thing.to_string()).or_default() += 1;
    }

    /// How often a thing was met, if that was often enough.
    pub fn often(&self, thing: &str) -> Result<usize, String> {
        let times = self.met.get(thing).copied().unwrap_or(0);
        if times < LEAST {
            return Err(format!("{thing}: met only {times} times"));
        }
        Ok(times)
    }

    /// The line about a function.
    pub fn summary<C: Call>(&self) -> Result<String, String> {
        let mut calls = 0;
        let mut parts = Vec::new();
        for number in C::ANSWERS {
            let times = self.often(&answer::<C>(*number))?;
            calls += times;
            parts.push(format!("returned {number}: {times}"));
        }
        for octets in C::HEADERS {
            let times = self.often(&header::<C>(*octets))?;
            parts.push(format!("header of {octets}: {times}"));
        }
        for kind in C::FAULTS {
            let times = self.often(&fault::<C>(kind))?;
            parts.push(format!("refused {kind}: {times}"));
        }
        let parts = parts.join(", ");
        Ok(format!("{}: {calls} calls agree ({parts})\n", C::FUNCTION))
    }
}

fn answer<C: Call>(number: u8) -> String {
    format!("{} that returns {number}", C::FUNCTION)
}

fn header<C: Call>(octets: usize) -> String {
    format!("{} of a header of {octets} octets", C::FUNCTION)
}

fn fault<C: Call>(kind: &str) -> String {
    format!("{} that refuses {kind}", C::FUNCTION)
}

/// The call by all that it was given.
fn described<C: Call>(call: &C) -> String {
    let mut text = format!("{}\n", C::FUNCTION);
    for (name, number) in call.numbers() {
        text += &format!("{name} {number}\n");
    }
    for piece in call.pieces() {
        match piece {
            Piece::Input(name, octets) => text += &format!("{name} {}\n", hex::cut(octets)),
            Piece::Output(name, octets) => text += &format!("{name} of {octets} octets\n"),
            Piece::Numbers(..) | Piece::Size(_) => {}
        }
    }
    text
}

#[cfg(test)]
mod tests {
    use super::super::functions::write_space::WriteSpace;
    use super::super::own;
    use super::*;
    use crate::forge::SpaceHead;

    #[test]
    fn describes_a_call_by_what_it_was_given() {
        let call = WriteSpace {
            head: SpaceHead::new([0, 1, 42, 3, 5]),
            data: vec![0xAA, 0xBB],
            room: 8,
        };
        let text = "write_space\ntype 0\nsecondary 1\napid 42\nflags 3\ncount 5\n\
            data of 2 octets: aa bb\noutput of 8 octets\n";
        assert_eq!(described(&call), text);
    }

    #[test]
    fn fails_if_something_is_met_too_seldom() {
        let library = own::library();
        let mut checker = Checker::new(&library);
        let calls = [0, 1, 2].map(|fault| WriteSpace {
            head: SpaceHead::new([0, 1, [42, 2_047, 2_048][fault], 3, 5]),
            data: vec![1],
            room: 7,
        });
        for _ in 0..LEAST {
            for call in &calls {
                checker.check(call).expect("own functions agree");
            }
        }
        for number in [0, 3, 8] {
            assert_eq!(checker.often(&answer::<WriteSpace>(number)), Ok(LEAST));
        }
        let fault = checker
            .summary::<WriteSpace>()
            .expect_err("9 and 10 are missing");
        assert_eq!(fault, "write_space that returns 9: met only 0 times");
    }
}
