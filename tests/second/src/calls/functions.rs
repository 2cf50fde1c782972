//! One file for each exported function: what a call of it is given, how it is
//! made, and what it should do by this program's own functions.

pub mod read_file;
pub mod read_packet;
pub mod read_record;
pub mod write_encap;
pub mod write_record;
pub mod write_space;

use crate::reader::Refusal;

/// The number to return: 0 when what is to be told has been told.
pub fn answered<T>(answer: Result<T, Refusal>, tell: impl FnOnce(T)) -> u8 {
    match answer {
        Ok(value) => {
            tell(value);
            0
        }
        Err(Refusal(number)) => number,
    }
}
