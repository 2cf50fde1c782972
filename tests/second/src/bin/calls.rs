//! The program `calls`: compares every function that the C archive exports with
//! this package's own, by calling it.
//!
//! It is built with BRANMUSLIN_ARCHIVE set to the archive's whole path. It ends
//! with status 0 and lines that count what was met, with 1 at the first
//! disagreement, or if an answer that a function can give, a place that it can
//! tell, a situation of lanes or frames or a ground against a state was hardly
//! met.

use std::process::ExitCode;

#[cfg(archive)]
mod archive {
    use second::calls::frames::structs::{FramedNumbers, FramesNumbers};
    use second::calls::structs::{AnswerNumbers, ChangeNumbers, SettingsNumbers, StateNumbers};
    use second::calls::{Library, PacketNumbers, RecordNumbers};

    extern "C" {
        fn branmuslin_read_packet(
            octets: *const u8,
            octets_length: usize,
            packet: *mut PacketNumbers,
            place: *mut usize,
        ) -> u8;

        fn branmuslin_write_space(
            packet_type: u32,
            secondary: u32,
            apid: u32,
            flags: u32,
            count: u32,
            data: *const u8,
            data_length: usize,
            output: *mut u8,
            output_length: usize,
            written: *mut usize,
        ) -> u8;

        fn branmuslin_write_encapsulation(
            protocol: u32,
            user: u32,
            extension: u32,
            content: *const u8,
            content_length: usize,
            output: *mut u8,
            output_length: usize,
            written: *mut usize,
        ) -> u8;

        fn branmuslin_write_record(
            station: u16,
            apid: u16,
            units: u32,
            packets: u32,
            missing: u32,
            broken: u32,
            output: *mut u8,
            output_length: usize,
        ) -> u8;

        fn branmuslin_read_record(
            octets: *const u8,
            octets_length: usize,
            record: *mut RecordNumbers,
        ) -> u8;

        fn branmuslin_read_record_file(
            octets: *const u8,
            octets_length: usize,
            records: *mut usize,
            index: *mut usize,
        ) -> u8;

        fn branmuslin_fresh_start() -> StateNumbers;

        fn branmuslin_is_sound(state: StateNumbers) -> u8;

        fn branmuslin_open_lane(
            state: StateNumbers,
            lane: usize,
            settings: SettingsNumbers,
            pool: *const u8,
            pool_length: usize,
        ) -> ChangeNumbers;

        fn branmuslin_take_packet(
            state: StateNumbers,
            lane: usize,
            packet: *const u8,
            packet_length: usize,
            pool: *mut u8,
            pool_length: usize,
            output: *mut u8,
            output_length: usize,
        ) -> AnswerNumbers;

        fn branmuslin_close_lane(
            state: StateNumbers,
            lane: usize,
            pool: *const u8,
            pool_length: usize,
            output: *mut u8,
            output_length: usize,
        ) -> ChangeNumbers;

        fn branmuslin_fresh_frames() -> FramesNumbers;

        fn branmuslin_take_frame(
            state: FramesNumbers,
            count: u32,
            pointer: u32,
            field: *const u8,
            field_length: usize,
            piece: *mut u8,
            piece_length: usize,
            output: *mut u8,
            output_length: usize,
        ) -> FramedNumbers;
    }

    pub const LIBRARY: Library = Library {
        read_packet: branmuslin_read_packet,
        write_space: branmuslin_write_space,
        write_encap: branmuslin_write_encapsulation,
        write_record: branmuslin_write_record,
        read_record: branmuslin_read_record,
        read_file: branmuslin_read_record_file,
        fresh_start: branmuslin_fresh_start,
        is_sound: branmuslin_is_sound,
        open_lane: branmuslin_open_lane,
        take_packet: branmuslin_take_packet,
        close_lane: branmuslin_close_lane,
        fresh_frames: branmuslin_fresh_frames,
        take_frame: branmuslin_take_frame,
    };
}

#[cfg(archive)]
fn main() -> ExitCode {
    second::ending::ending(second::calls::compare(&archive::LIBRARY))
}

#[cfg(not(archive))]
fn main() -> ExitCode {
    eprintln!("calls: built without an archive; set BRANMUSLIN_ARCHIVE and build again");
    ExitCode::from(2)
}
