//! Compares a C library with this program's own functions, by calling it.
//!
//! Every call is made twice on equal memory, once by the library and once by
//! this program's own functions; then the numbers returned and the whole of
//! both memories must be the same. The functions of lanes and frames, to which a
//! state goes by value, are compared in runs of calls.

mod both_ways;
mod checker;
pub mod frames;
mod functions;
mod inputs;
pub mod lanes;
mod library;
mod memory;
#[cfg(test)]
mod own;
pub mod structs;
#[cfg(test)]
mod wrong;

pub use library::{Library, PacketNumbers, RecordNumbers};

use crate::random::Random;
use checker::Checker;
use functions::read_file::ReadFile;
use functions::read_packet::ReadPacket;
use functions::read_record::ReadRecord;
use functions::write_encap::WriteEncap;
use functions::write_record::WriteRecord;
use functions::write_space::WriteSpace;

/// The calls that begin with one function.
type Part = fn(&mut Checker<'_>) -> Result<(), String>;

const PARTS: [Part; 11] = [
    write_spaces,
    write_encaps,
    read_packets,
    write_records,
    read_records,
    read_files,
    lanes::runs,
    lanes::full_lane,
    frames::cases,
    frames::runs,
    frames::staged,
];

/// A line for each function, or the first disagreement.
pub fn compare(library: &Library) -> Result<String, String> {
    let mut checker = Checker::new(library);
    for part in PARTS {
        part(&mut checker)?;
    }
    let functions = [
        checker.summary::<ReadPacket>()?,
        checker.summary::<WriteSpace>()?,
        checker.summary::<WriteEncap>()?,
        checker.summary::<WriteRecord>()?,
        checker.summary::<ReadRecord>()?,
        checker.summary::<ReadFile>()?,
    ];
    let ways = both_ways::summary(&checker)?;
    let lanes = lanes::summary(&checker)?;
    Ok(functions.concat() + &ways + &lanes + &frames::summary(&checker)?)
}

fn write_spaces(checker: &mut Checker<'_>) -> Result<(), String> {
    let mut random = Random::new(18);
    let mut calls = inputs::space::calls().into_iter();
    calls.try_for_each(|call| both_ways::write_space_and_read(checker, &call, &mut random))
}

fn write_encaps(checker: &mut Checker<'_>) -> Result<(), String> {
    let mut random = Random::new(19);
    let mut calls = inputs::encap::calls().into_iter();
    calls.try_for_each(|call| both_ways::write_encap_and_read(checker, &call, &mut random))
}

fn read_packets(checker: &mut Checker<'_>) -> Result<(), String> {
    let mut inputs = inputs::packets::inputs().into_iter();
    inputs.try_for_each(|octets| both_ways::read_packet_and_write(checker, &octets))
}

fn write_records(checker: &mut Checker<'_>) -> Result<(), String> {
    let mut calls = inputs::records::calls().into_iter();
    calls.try_for_each(|call| both_ways::write_record_and_read(checker, &call))
}

fn read_records(checker: &mut Checker<'_>) -> Result<(), String> {
    let mut inputs = inputs::records::octets().into_iter();
    inputs.try_for_each(|octets| both_ways::read_record_and_write(checker, &octets))
}

fn read_files(checker: &mut Checker<'_>) -> Result<(), String> {
    for octets in inputs::files::files() {
        checker.check(&ReadFile { octets: &octets })?;
    }
    Ok(())
}

#[cfg(test)]
mod tests {
    use super::*;

    #[test]
    fn this_programs_own_functions_agree_with_themselves() {
        let summary = compare(&own::library()).expect("they are the same functions");
        let functions = [
            "read_packet",
            "write_space",
            "write_encapsulation",
            "write_record",
            "read_record",
            "read_record_file",
            "open_lane",
            "take_packet",
            "close_lane",
            "is_sound",
            "take_frame",
        ];
        for function in functions {
            let start = format!("{function}: ");
            let line = summary.lines().find(|line| line.starts_with(&start));
            let calls = line
                .and_then(|line| line[start.len()..].split_once(" calls agree ("))
                .map(|(calls, _)| calls.parse::<usize>().expect("a number"));
            assert!(calls.is_some_and(|calls| calls >= 5_000), "{function}");
        }
    }
}
