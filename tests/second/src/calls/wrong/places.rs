//! Wrong places of packets that can't be read.

use super::{found, own, read_packets};
use crate::calls::library::{Library, PacketNumbers, ReadPacket};
use crate::reader::read;
use std::slice;

/// The place that is told instead of the right one, made of the refusal's
/// number, the right place and the octets.
type Make = fn(u8, usize, &[u8]) -> usize;

/// Own's answer, but for the place.
unsafe fn with_place(
    octets: (*const u8, usize),
    packet: *mut PacketNumbers,
    place: *mut usize,
    make: Make,
) -> u8 {
    let number = own::read_packet(octets.0, octets.1, packet, place);
    if number > 0 {
        *place = make(number, *place, slice::from_raw_parts(octets.0, octets.1));
    }
    number
}

/// A `read_packet` that tells such a place.
macro_rules! misplaced {
    ($name:ident, $make:expr) => {
        unsafe extern "C" fn $name(
            octets: *const u8,
            length: usize,
            packet: *mut PacketNumbers,
            place: *mut usize,
        ) -> u8 {
            with_place((octets, length), packet, place, $make)
        }
    };
}

/// The wrong place is found, where the number is right.
fn misplaced_is_found(read_packet: ReadPacket, number: u8, [right, wrong]: [usize; 2]) {
    let library = Library {
        read_packet,
        ..own::library()
    };
    let returned = format!("expected to return {number}, returned {number}\n");
    let places = format!("from octet 0 of place on: expected {right:02x} 00 ");
    let got = format!(", got {wrong:02x} 00 ");
    let words = ["read_packet\n", &returned, &places, &got];
    found(read_packets, library, &words);
}

misplaced!(length_at_1, |number, place, _| match number {
    4 | 5 => 1,
    _ => place,
});

#[test]
fn the_length_always_after_the_first_octet() {
    misplaced_is_found(length_at_1, 5, [4, 1]);
}

/// Where the CCSDS field isn't 0, if there is one.
fn ccsds_fault(octets: &[u8]) -> Option<usize> {
    let eight = octets[0] % 4 == 3;
    [2, 3].into_iter().find(|at| eight && octets[*at] != 0)
}

misplaced!(later_of_two, |number, place, octets| match number {
    7 => ccsds_fault(octets).unwrap_or(place),
    _ => place,
});

#[test]
fn the_later_of_two_faults_of_7() {
    misplaced_is_found(later_of_two, 7, [1, 3]);
}

misplaced!(ccsds_at_2, |number, place, _| match (number, place) {
    (7, 3) => 2,
    _ => place,
});

misplaced!(last_octet_of_ccsds, |number, place, octets| {
    match (number, place) {
        (7, 2) if octets[3] != 0 => 3,
        _ => place,
    }
});

#[test]
fn another_octet_of_the_ccsds_field() {
    misplaced_is_found(ccsds_at_2, 7, [3, 2]);
    misplaced_is_found(last_octet_of_ccsds, 7, [2, 3]);
}

// What follows a front of a header is taken to be 0.
misplaced!(octets_missing, |number, place, octets| {
    let mut longer = octets.to_vec();
    longer.resize(octets.len() + 65_542, 0);
    match (number, read(&longer)) {
        (1, Ok(packet)) => packet.octets() - octets.len(),
        _ => place,
    }
});

#[test]
fn the_octets_that_are_missing() {
    misplaced_is_found(octets_missing, 1, [7, 1]);
}

unsafe extern "C" fn clears_the_place(
    octets: *const u8,
    length: usize,
    packet: *mut PacketNumbers,
    place: *mut usize,
) -> u8 {
    *place = 0;
    own::read_packet(octets, length, packet, place)
}

unsafe extern "C" fn leaves_the_place(
    octets: *const u8,
    length: usize,
    packet: *mut PacketNumbers,
    _: *mut usize,
) -> u8 {
    own::read_packet(octets, length, packet, &mut 0)
}

#[test]
fn a_place_for_nothing_and_none_for_a_fault() {
    let wrong = [
        (clears_the_place as _, "expected to return 0, returned 0\n"),
        (leaves_the_place as _, "expected to return 1, returned 1\n"),
    ];
    for (read_packet, returned) in wrong {
        let library = Library {
            read_packet,
            ..own::library()
        };
        let place = "from octet 0 of place on: expected ";
        found(read_packets, library, &["read_packet\n", returned, place]);
    }
}
