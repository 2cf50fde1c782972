//! Wrong versions of the functions, each of which the comparison must find.

mod frames;
mod lanes;
mod places;

use super::checker::Checker;
use super::library::{Library, PacketNumbers, RecordNumbers};
use super::{
    own, read_files, read_packets, read_records, write_encaps, write_records, write_spaces, Part,
};
use crate::forge::EncapHead;
use crate::record::{Record, MOST_MISSING_A_STEP, RECORD_OCTETS};
use std::slice;

/// This part finds the disagreement, and tells it in these words among others.
fn found(part: Part, library: Library, words: &[&str]) {
    let mut checker = Checker::new(&library);
    let fault = part(&mut checker).expect_err("a wrong version is found");
    for word in words {
        assert!(fault.contains(word), "no {word:?} in:\n{fault}");
    }
}

unsafe extern "C" fn touches_the_octet_after(
    packet_type: u32,
    secondary: u32,
    apid: u32,
    flags: u32,
    count: u32,
    data: *const u8,
    length: usize,
    output: *mut u8,
    room: usize,
    written: *mut usize,
) -> u8 {
    let answer = own::write_space(
        packet_type,
        secondary,
        apid,
        flags,
        count,
        data,
        length,
        output,
        room,
        written,
    );
    if answer == 0 && *written < room {
        *output.add(*written) ^= 1;
    }
    answer
}

#[test]
fn a_touched_octet_after_the_packet() {
    let library = Library {
        write_space: touches_the_octet_after,
        ..own::library()
    };
    let words = ["write_space\n", "returned 0\n", " of output on: expected "];
    found(write_spaces, library, &words);
}

/// At the one length at which the two headers meet.
unsafe extern "C" fn takes_four_octets_for_two(
    protocol: u32,
    user: u32,
    extension: u32,
    content: *const u8,
    length: usize,
    output: *mut u8,
    room: usize,
    written: *mut usize,
) -> u8 {
    let answer = own::write_encap(
        protocol, user, extension, content, length, output, room, written,
    );
    if answer != 0 || length != 253 || *written != 255 || room < 257 {
        return answer;
    }
    let head = EncapHead {
        protocol,
        length_of_length: 2,
        ..EncapHead::default()
    };
    let packet = head.with(slice::from_raw_parts(content, length));
    slice::from_raw_parts_mut(output, packet.len()).copy_from_slice(&packet);
    *written = packet.len();
    0
}

#[test]
fn a_header_one_size_too_long() {
    let library = Library {
        write_encap: takes_four_octets_for_two,
        ..own::library()
    };
    let words = [
        "write_encapsulation\n",
        "content of 253 octets: ",
        "from octet 0 of output on: expected e1 ff ",
        "got e2 00 01 01 ",
    ];
    found(write_encaps, library, &words);
}

unsafe extern "C" fn clears_the_struct(
    octets: *const u8,
    length: usize,
    packet: *mut PacketNumbers,
    place: *mut usize,
) -> u8 {
    *packet = [0; 11];
    own::read_packet(octets, length, packet, place)
}

#[test]
fn a_struct_cleared_by_a_refusal() {
    let library = Library {
        read_packet: clears_the_struct,
        ..own::library()
    };
    let words = ["read_packet\n", "from octet 0 of packet on: expected "];
    found(read_packets, library, &words);
}

unsafe extern "C" fn adds_in_32_bits(
    station: u16,
    apid: u16,
    units: u32,
    packets: u32,
    missing: u32,
    broken: u32,
    output: *mut u8,
    room: usize,
) -> u8 {
    let sum = units.wrapping_add(broken);
    let answer = own::write_record(station, apid, sum, packets, missing, 0, output, room);
    if answer == 0 {
        let record = Record::new(station, apid, [units, packets, missing, broken]);
        slice::from_raw_parts_mut(output, RECORD_OCTETS).copy_from_slice(&record.laid());
    }
    answer
}

#[test]
fn a_sum_that_wraps() {
    let library = Library {
        write_record: adds_in_32_bits,
        ..own::library()
    };
    let words = ["write_record\n", "expected to return 25, returned 0\n"];
    found(write_records, library, &words);
}

/// Takes 16,382 for each packet instead of each step between two.
unsafe extern "C" fn misses_a_step_more(
    octets: *const u8,
    length: usize,
    record: *mut RecordNumbers,
) -> u8 {
    let answer = own::read_record(octets, length, record);
    if answer != 25 {
        return answer;
    }
    let sent = Record::taken(slice::from_raw_parts(octets, length));
    let seen = Record {
        missing: sent.missing.saturating_sub(MOST_MISSING_A_STEP),
        ..sent
    };
    if !seen.is_possible() {
        return answer;
    }
    *record = sent.numbers();
    0
}

#[test]
fn a_limit_one_step_too_far() {
    let library = Library {
        read_record: misses_a_step_more,
        ..own::library()
    };
    let words = ["read_record\n", "expected to return 25, returned 0\n"];
    found(read_records, library, &words);
}

unsafe extern "C" fn writes_before_the_record(
    octets: *const u8,
    length: usize,
    record: *mut RecordNumbers,
) -> u8 {
    *record.cast::<u8>().sub(1) ^= 1;
    own::read_record(octets, length, record)
}

#[test]
fn a_write_before_what_was_lent() {
    let library = Library {
        read_record: writes_before_the_record,
        ..own::library()
    };
    let words = ["read_record\n", "from guard octet ", " after octets on: "];
    found(read_records, library, &words);
}

unsafe extern "C" fn counts_from_one(
    octets: *const u8,
    length: usize,
    records: *mut usize,
    index: *mut usize,
) -> u8 {
    let answer = own::read_file(octets, length, records, index);
    if answer == 25 {
        *index += 1;
    }
    answer
}

#[test]
fn an_index_from_one() {
    let library = Library {
        read_file: counts_from_one,
        ..own::library()
    };
    let words = ["from octet 0 of index on: expected 00 ", "got 01 "];
    found(read_files, library, &words);
}

unsafe extern "C" fn looks_at_the_records_first(
    octets: *const u8,
    length: usize,
    records: *mut usize,
    index: *mut usize,
) -> u8 {
    let whole = length - length % RECORD_OCTETS;
    match own::read_file(octets, whole, records, index) {
        25 => 25,
        _ => own::read_file(octets, length, records, index),
    }
}

#[test]
fn refusals_in_another_order() {
    let library = Library {
        read_file: looks_at_the_records_first,
        ..own::library()
    };
    found(
        read_files,
        library,
        &["read_record_file\n", "expected to return 26, returned "],
    );
}
