//! The text of a frame file: a line for each frame, from a fresh start; and the
//! packets that come out.

use super::file::FileFrame;
use super::met::Before;
use super::{Answer, Frames, Taken, BUFFER_OCTETS, LEAST_OUTPUT};
use crate::adler::adler32;
use crate::reader::Refusal;

pub const LONGEST_FILE: usize = 1_048_576;

/// Takes frames one after another, with one buffer and one output for all.
struct Player {
    frames: Frames,
    buffer: Vec<u8>,
    output: Vec<u8>,
}

impl Player {
    fn new() -> Self {
        Player {
            frames: Frames::default(),
            buffer: vec![0; BUFFER_OCTETS],
            output: vec![0; LEAST_OUTPUT],
        }
    }

    /// The answer, with the packets that came out.
    fn play(&mut self, frame: &FileFrame) -> (Result<Answer, Refusal>, &[u8]) {
        let Player {
            frames,
            buffer,
            output,
        } = self;
        let answer = frames.take(&frame.as_frame(), buffer, output);
        let octets = match answer {
            Ok(Answer::Taken(taken)) => taken.octets,
            _ => 0,
        };
        (answer, &output[..octets])
    }
}

/// The whole text, each line with its newline.
pub fn text(input: &[u8]) -> String {
    told(input).0
}

/// The whole text, and the packets of all frames.
pub fn told(input: &[u8]) -> (String, Vec<u8>) {
    watched(input, |_, _, _| ())
}

/// The packets of a file of any length.
pub fn packets(input: &[u8]) -> Vec<u8> {
    played(input, |_, _, _| ()).1
}

/// The same as `told`; the watcher is shown each frame with what was before it
/// and its answer.
pub fn watched(
    input: &[u8],
    watch: impl FnMut(&Before, &FileFrame, &Result<Answer, Refusal>),
) -> (String, Vec<u8>) {
    if input.len() > LONGEST_FILE {
        return ("too long\n".to_string(), Vec::new());
    }
    played(input, watch)
}

fn played(
    input: &[u8],
    mut watch: impl FnMut(&Before, &FileFrame, &Result<Answer, Refusal>),
) -> (String, Vec<u8>) {
    let mut player = Player::new();
    let (mut text, mut packets) = (String::new(), Vec::new());
    let (mut offset, mut frames) = (0, 0);
    while offset < input.len() {
        let Ok((frame, octets)) = FileFrame::taken(&input[offset..]) else {
            text.push_str(&format!("{offset} bad\n"));
            break;
        };
        let before = Before::new(&player.frames, &player.buffer);
        let (answer, out) = player.play(&frame);
        watch(&before, &frame, &answer);
        let shown = shown(&answer, out);
        text.push_str(&format!("{offset} frame {} {shown}\n", frame.count));
        packets.extend(out);
        offset += octets;
        frames += 1;
    }
    let sum = adler32(&player.buffer);
    (text + &format!("end {offset} {frames} {sum}\n"), packets)
}

fn shown(answer: &Result<Answer, Refusal>, out: &[u8]) -> String {
    match answer {
        Err(Refusal(number)) => format!("refused {number}"),
        Ok(Answer::Repeat) => "repeat".to_string(),
        Ok(Answer::Taken(taken)) => {
            let Taken {
                packets, octets, ..
            } = taken;
            let flags = [taken.gave_up(), taken.dropped()].map(u8::from);
            let [given_up, dropped] = flags;
            let sum = adler32(out);
            format!("taken {packets} {octets} {given_up} {dropped} {sum}")
        }
    }
}

#[cfg(test)]
mod tests;
