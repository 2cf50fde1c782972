//! An independent second program beside the intake.
//!
//! It rests on the paper's rules alone and shares no line with the intake, so
//! that a mistake in one of them shows as a difference between the two. The
//! programs `second` and `calls` are thin over what is here.

pub mod adler;
pub mod bits;
pub mod calls;
pub mod cases;
pub mod compare;
pub mod compare_frames;
pub mod compare_replay;
pub mod credit;
pub mod ending;
pub mod faults;
pub mod forge;
pub mod frames;
pub mod hex;
pub mod inputs;
pub mod lanes;
pub mod lister;
pub mod random;
pub mod reader;
pub mod record;
pub mod replay;
pub mod run_file;
pub mod runs;
pub mod walk;
pub mod writer;
