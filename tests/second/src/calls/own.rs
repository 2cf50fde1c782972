//! This program's own functions in the form in which a library exports them, to
//! try the comparison itself.

use super::frames::structs::{FramedNumbers, FramesNumbers};
use super::functions::answered;
use super::functions::read_packet::told;
use super::lanes::call::{by_value, Deed};
use super::lanes::sound;
use super::library::{Library, PacketNumbers, RecordNumbers};
use super::structs::{AnswerNumbers, ChangeNumbers, SettingsNumbers, StateNumbers};
use crate::forge::SpaceHead;
use crate::frames::{Frame, Frames};
use crate::reader::read;
use crate::record::{self, FileRefusal, Record};
use crate::writer::{self, EncapFields};
use std::slice;

pub fn library() -> Library {
    Library {
        read_packet,
        write_space,
        write_encap,
        write_record,
        read_record,
        read_file,
        fresh_start,
        is_sound,
        open_lane,
        take_packet,
        close_lane,
        fresh_frames,
        take_frame,
    }
}

pub unsafe extern "C" fn read_packet(
    octets: *const u8,
    length: usize,
    packet: *mut PacketNumbers,
    place: *mut usize,
) -> u8 {
    match read(slice::from_raw_parts(octets, length)) {
        Ok(read) => {
            *packet = told(&read);
            0
        }
        Err(fault) => {
            *place = fault.place;
            fault.number
        }
    }
}

pub unsafe extern "C" fn write_space(
    packet_type: u32,
    secondary: u32,
    apid: u32,
    flags: u32,
    count: u32,
    data: *const u8,
    length: usize,
    output: *mut u8,
    room: usize,
    written: *mut usize,
) -> u8 {
    let head = SpaceHead::new([packet_type, secondary, apid, flags, count]);
    let data = slice::from_raw_parts(data, length);
    let output = slice::from_raw_parts_mut(output, room);
    let answer = writer::write_space(&head, data, output);
    answered(answer, |octets| *written = octets)
}

pub unsafe extern "C" fn write_encap(
    protocol: u32,
    user: u32,
    extension: u32,
    content: *const u8,
    length: usize,
    output: *mut u8,
    room: usize,
    written: *mut usize,
) -> u8 {
    let fields = EncapFields::new([protocol, user, extension]);
    let content = slice::from_raw_parts(content, length);
    let output = slice::from_raw_parts_mut(output, room);
    let answer = writer::write_encap(&fields, content, output);
    answered(answer, |octets| *written = octets)
}

pub unsafe extern "C" fn write_record(
    station: u16,
    apid: u16,
    units: u32,
    packets: u32,
    missing: u32,
    broken: u32,
    output: *mut u8,
    room: usize,
) -> u8 {
    let record = Record::new(station, apid, [units, packets, missing, broken]);
    let output = slice::from_raw_parts_mut(output, room);
    answered(record::write_record(&record, output), |()| {})
}

pub unsafe extern "C" fn read_record(
    octets: *const u8,
    length: usize,
    record: *mut RecordNumbers,
) -> u8 {
    let octets = slice::from_raw_parts(octets, length);
    answered(record::read_record(octets), |read| *record = read.numbers())
}

pub unsafe extern "C" fn read_file(
    octets: *const u8,
    length: usize,
    records: *mut usize,
    index: *mut usize,
) -> u8 {
    let answer = record::read_file(slice::from_raw_parts(octets, length));
    match answer {
        Ok(number) => *records = number,
        Err(FileRefusal::NotPossible(first)) => *index = first,
        Err(FileRefusal::NotRecords) => {}
    }
    answer.map_or_else(|refusal| refusal.number(), |_| 0)
}

pub unsafe extern "C" fn fresh_start() -> StateNumbers {
    StateNumbers::FRESH
}

pub unsafe extern "C" fn is_sound(state: StateNumbers) -> u8 {
    u8::from(sound::is_sound(&state))
}

pub unsafe extern "C" fn open_lane(
    state: StateNumbers,
    lane: usize,
    settings: SettingsNumbers,
    pool: *const u8,
    pool_length: usize,
) -> ChangeNumbers {
    let deed = Deed::Open(settings.into());
    // The pool is lent to be read, and a copy can't be written in its place.
    let mut pool = slice::from_raw_parts(pool, pool_length).to_vec();
    by_value(&state, (lane, &deed), (&mut pool, &mut [])).into()
}

pub unsafe extern "C" fn take_packet(
    state: StateNumbers,
    lane: usize,
    packet: *const u8,
    packet_length: usize,
    pool: *mut u8,
    pool_length: usize,
    output: *mut u8,
    room: usize,
) -> AnswerNumbers {
    let deed = Deed::Packet(slice::from_raw_parts(packet, packet_length));
    let pool = slice::from_raw_parts_mut(pool, pool_length);
    let output = slice::from_raw_parts_mut(output, room);
    by_value(&state, (lane, &deed), (pool, output))
}

pub unsafe extern "C" fn close_lane(
    state: StateNumbers,
    lane: usize,
    pool: *const u8,
    pool_length: usize,
    output: *mut u8,
    room: usize,
) -> ChangeNumbers {
    let mut pool = slice::from_raw_parts(pool, pool_length).to_vec();
    let output = slice::from_raw_parts_mut(output, room);
    by_value(&state, (lane, &Deed::Close), (&mut pool, output)).into()
}

pub unsafe extern "C" fn fresh_frames() -> FramesNumbers {
    Frames::default().into()
}

pub unsafe extern "C" fn take_frame(
    state: FramesNumbers,
    count: u32,
    pointer: u32,
    field: *const u8,
    field_length: usize,
    piece: *mut u8,
    piece_length: usize,
    output: *mut u8,
    room: usize,
) -> FramedNumbers {
    let frame = Frame {
        count,
        pointer,
        field: slice::from_raw_parts(field, field_length),
    };
    let buffer = slice::from_raw_parts_mut(piece, piece_length);
    let output = slice::from_raw_parts_mut(output, room);
    let mut frames = Frames::from(state);
    let answer = frames.take(&frame, buffer, output);
    FramedNumbers::of(&answer, frames)
}
