//! The functions that a library exports to C, as a table.
//!
//! A table and not the names themselves: so the comparison can be tested with
//! functions that are right or wrong, and only the program `calls` needs an
//! archive to link with.

use super::frames::structs::{FramedNumbers, FramesNumbers};
use super::structs::{AnswerNumbers, ChangeNumbers, SettingsNumbers, StateNumbers};

/// What reading a packet tells, one number after another: version; type,
/// secondary, apid, flags, count; protocol, user, extension; offset, length.
pub type PacketNumbers = [u32; 11];

/// Station, apid, units, packets, missing and broken.
pub type RecordNumbers = [u32; 6];

/// Octets with their length, then the packet and the place.
pub type ReadPacket = unsafe extern "C" fn(*const u8, usize, *mut PacketNumbers, *mut usize) -> u8;

/// Type, secondary, apid, flags, count; data and output, each with its length;
/// the octets written.
pub type WriteSpace = unsafe extern "C" fn(
    u32,
    u32,
    u32,
    u32,
    u32,
    *const u8,
    usize,
    *mut u8,
    usize,
    *mut usize,
) -> u8;

/// Protocol, user, extension; content and output, each with its length; the
/// octets written.
pub type WriteEncap =
    unsafe extern "C" fn(u32, u32, u32, *const u8, usize, *mut u8, usize, *mut usize) -> u8;

/// Station, apid, units, packets, missing, broken; output with its length.
pub type WriteRecord = unsafe extern "C" fn(u16, u16, u32, u32, u32, u32, *mut u8, usize) -> u8;

/// Octets with their length, then the record.
pub type ReadRecord = unsafe extern "C" fn(*const u8, usize, *mut RecordNumbers) -> u8;

/// Octets with their length, then the number of records and the index.
pub type ReadFile = unsafe extern "C" fn(*const u8, usize, *mut usize, *mut usize) -> u8;

pub type FreshStart = unsafe extern "C" fn() -> StateNumbers;

pub type IsSound = unsafe extern "C" fn(StateNumbers) -> u8;

/// State, lane and settings; the pool with its length.
pub type OpenLane =
    unsafe extern "C" fn(StateNumbers, usize, SettingsNumbers, *const u8, usize) -> ChangeNumbers;

/// State and lane; packet, pool and output, each with its length.
pub type TakePacket = unsafe extern "C" fn(
    StateNumbers,
    usize,
    *const u8,
    usize,
    *mut u8,
    usize,
    *mut u8,
    usize,
) -> AnswerNumbers;

/// State and lane; pool and output, each with its length.
pub type CloseLane =
    unsafe extern "C" fn(StateNumbers, usize, *const u8, usize, *mut u8, usize) -> ChangeNumbers;

pub type FreshFrames = unsafe extern "C" fn() -> FramesNumbers;

/// State, count and pointer; field, buffer and output, each with its length.
pub type TakeFrame = unsafe extern "C" fn(
    FramesNumbers,
    u32,
    u32,
    *const u8,
    usize,
    *mut u8,
    usize,
    *mut u8,
    usize,
) -> FramedNumbers;

#[derive(Clone, Copy)]
pub struct Library {
    pub read_packet: ReadPacket,
    pub write_space: WriteSpace,
    pub write_encap: WriteEncap,
    pub write_record: WriteRecord,
    pub read_record: ReadRecord,
    pub read_file: ReadFile,
    pub fresh_start: FreshStart,
    pub is_sound: IsSound,
    pub open_lane: OpenLane,
    pub take_packet: TakePacket,
    pub close_lane: CloseLane,
    pub fresh_frames: FreshFrames,
    pub take_frame: TakeFrame,
}
