//! Wrong frames. Most are this program's own rule asked something else, or with
//! one thing done after it. The cases by hand must find each, and so must the
//! runs and the calls that are made up.

use super::super::frames::structs::{FramedNumbers, FramesNumbers, REFUSED, REPEAT, TAKEN};
use super::super::frames::{cases, runs, staged};
use super::{found, own};
use crate::calls::checker::Checker;
use crate::calls::library::{FreshFrames, Library, TakeFrame};
use crate::frames::{
    seen, Seen, BUFFER_OCTETS, IDLE_ONLY, LEAST_OUTPUT, LONGEST_FIELD, LONGEST_PIECE, NO_PACKET,
};
use crate::reader::{claimed, read, Packet};
use std::slice;

/// A frame with all that goes with it.
struct Given<'a> {
    state: FramesNumbers,
    count: u32,
    pointer: u32,
    field: &'a [u8],
    buffer: &'a mut [u8],
    output: &'a mut [u8],
}

impl Given<'_> {
    fn own(&mut self) -> FramedNumbers {
        // SAFETY: these are slices, which are apart and as long as is told.
        unsafe {
            own::take_frame(
                self.state,
                self.count,
                self.pointer,
                self.field.as_ptr(),
                self.field.len(),
                self.buffer.as_mut_ptr(),
                self.buffer.len(),
                self.output.as_mut_ptr(),
                self.output.len(),
            )
        }
    }

    /// What own says to another state; where the frame isn't taken, the state
    /// comes back as it was handed in.
    fn as_if(&mut self, change: impl FnOnce(&mut FramesNumbers)) -> FramedNumbers {
        let before = self.state;
        change(&mut self.state);
        let mut answer = self.own();
        self.state = before;
        if answer.kind != TAKEN {
            answer.state = before;
        }
        answer
    }

    /// What own says, with nothing changed.
    fn asked(&self) -> FramedNumbers {
        let (mut buffer, mut output) = (self.buffer.to_vec(), self.output.to_vec());
        let mut copy = Given {
            buffer: &mut buffer,
            output: &mut output,
            ..*self
        };
        copy.own()
    }

    fn in_step(&self) -> bool {
        let next = u32::from(self.state.count.wrapping_add(1));
        self.state.started == 0 || self.count == next
    }

    fn lead(&self) -> &[u8] {
        match self.pointer {
            NO_PACKET => self.field,
            offset => &self.field[..offset as usize],
        }
    }

    /// The piece, with what belongs to it if it goes on.
    fn joined(&self) -> Vec<u8> {
        [&self.buffer[..self.state.piece], self.lead()].concat()
    }

    /// Where whole packets end, from the pointer on.
    fn read_to(&self) -> usize {
        let mut at = self.pointer as usize;
        while let Seen::Packet(octets) = seen(&self.field[at..]) {
            at += octets;
        }
        at
    }

    /// Lets this be the piece after the frame.
    fn keep(&mut self, piece: &[u8], answer: &mut FramedNumbers) {
        self.buffer[..piece.len()].copy_from_slice(piece);
        answer.state.piece = piece.len();
    }

    /// Puts a packet before those that came out.
    fn put_first(&mut self, packet: &[u8], answer: &mut FramedNumbers) {
        self.output.copy_within(..answer.octets, packet.len());
        self.output[..packet.len()].copy_from_slice(packet);
        answer.octets += packet.len();
        answer.packets += 1;
    }
}

macro_rules! wrong {
    ($name:ident, $make:expr) => {
        unsafe extern "C" fn $name(
            state: FramesNumbers,
            count: u32,
            pointer: u32,
            field: *const u8,
            field_length: usize,
            piece: *mut u8,
            piece_length: usize,
            output: *mut u8,
            room: usize,
        ) -> FramedNumbers {
            let make: fn(Given<'_>) -> FramedNumbers = $make;
            make(Given {
                state,
                count,
                pointer,
                field: slice::from_raw_parts(field, field_length),
                buffer: slice::from_raw_parts_mut(piece, piece_length),
                output: slice::from_raw_parts_mut(output, room),
            })
        }
    };
}

/// Runs, and then calls that are made up.
fn generated(checker: &mut Checker<'_>) -> Result<(), String> {
    runs(checker)?;
    staged(checker)
}

fn all_find(library: Library, words: &[&str]) {
    found(cases, library, words);
    found(generated, library, &[words[0]]);
}

/// Each is found, and told in such words among others by the cases by hand.
fn each_found<const N: usize>(wrong: [(TakeFrame, &str); N]) {
    for (take_frame, word) in wrong {
        let library = Library {
            take_frame,
            ..own::library()
        };
        all_find(library, &["take_frame\n", word]);
    }
}

// A gap keeps the piece: every count but a repeat is taken for the next one.
wrong!(keeps_through_a_gap, |mut given| {
    let count = given.count as u8;
    given.as_if(|state| {
        if state.count != count {
            state.count = count.wrapping_sub(1);
        }
    })
});

wrong!(keeps_through_idle, |mut given| {
    let mut answer = given.own();
    if answer.kind == TAKEN && given.pointer == IDLE_ONLY {
        answer.given_up = 0;
        answer.state.piece = given.state.piece;
    }
    answer
});

wrong!(takes_255_to_0_for_a_gap, |mut given| {
    let count = given.count;
    given.as_if(|state| {
        if (state.count, count) == (255, 0) {
            state.count = 128;
        }
    })
});

wrong!(has_a_count_before_the_first, |mut given| {
    given.as_if(|state| state.started = 1)
});

wrong!(distrusts_a_piece_without_a_frame, |mut given| {
    let count = given.count as u8;
    given.as_if(|state| {
        if state.started == 0 && state.piece > 0 {
            (state.started, state.count) = (1, count.wrapping_add(100));
        }
    })
});

wrong!(forgets_idle_frames, |mut given| {
    let mut answer = given.own();
    if answer.kind == TAKEN && given.pointer == IDLE_ONLY {
        answer.state.count = given.state.count;
    }
    answer
});

wrong!(forgets_dropped_frames, |mut given| {
    let mut answer = given.own();
    if answer.dropped == 1 {
        answer.state.count = given.state.count;
    }
    answer
});

#[test]
fn wrong_steps() {
    each_found([
        (keeps_through_a_gap, "given_up: 1, "),
        (keeps_through_idle, "given_up: 1, "),
        (takes_255_to_0_for_a_gap, "given_up: 0, "),
        (has_a_count_before_the_first, "kind: 1, "),
        (distrusts_a_piece_without_a_frame, "got FramedNumbers { "),
        (forgets_idle_frames, "state: FramesNumbers { "),
        (forgets_dropped_frames, "state: FramesNumbers { "),
    ]);
}

// A repeat is a frame like any other, and out of step.
wrong!(tells_no_repeat, |mut given| {
    let repeat = given.asked().kind == REPEAT;
    given.as_if(|state| state.count = state.count.wrapping_add(u8::from(repeat)))
});

wrong!(loses_the_piece_by_a_repeat, |mut given| {
    let mut answer = given.own();
    if answer.kind == REPEAT {
        answer.state.piece = 0;
    }
    answer
});

wrong!(repeats_before_28_and_9, |mut given| {
    let answer = given.own();
    let same = given.count == u32::from(given.state.count);
    match given.state.started == 1 && same {
        true => FramedNumbers::told(0, REPEAT, given.state),
        false => answer,
    }
});

#[test]
fn wrong_repeats() {
    each_found([
        (tells_no_repeat, "kind: 1, "),
        (loses_the_piece_by_a_repeat, "kind: 1, "),
        (
            repeats_before_28_and_9,
            "got FramedNumbers { refusal: 0, kind: 1, ",
        ),
    ]);
}

// Pointer 0 says that no octets of the piece follow, and is believed.
wrong!(accepts_pointer_0, |mut given| {
    let mut answer = given.own();
    if given.pointer == 0 && given.in_step() {
        answer.given_up = 0;
    }
    answer
});

wrong!(hands_out_what_lacks_octets, |mut given| {
    let piece = given.buffer[..given.state.piece.min(given.buffer.len())].to_vec();
    let mut answer = given.own();
    let accepted = given.pointer == 0 && given.in_step();
    if answer.given_up == 1 && accepted && seen(&piece) == Seen::Unfinished {
        given.put_first(&piece, &mut answer);
        answer.given_up = 0;
    }
    answer
});

// A packet that ends before the pointer comes out all the same.
wrong!(leaves_octets_over, |mut given| {
    let before = given.asked();
    if before.given_up == 0 || given.pointer == IDLE_ONLY || !given.in_step() {
        return given.own();
    }
    let joined = given.joined();
    let mut answer = given.own();
    if let Seen::Packet(octets) = seen(&joined) {
        given.put_first(&joined[..octets], &mut answer);
        answer.given_up = 0;
    }
    answer
});

wrong!(begins_without_a_pointer, |mut given| {
    let front = seen(given.field) == Seen::Unfinished;
    if given.pointer == NO_PACKET && given.state.piece == 0 && front {
        given.pointer = 0;
    }
    given.own()
});

wrong!(gives_up_nothing, |mut given| {
    let mut answer = given.own();
    if answer.kind == TAKEN && given.state.piece == 0 && given.pointer != 0 {
        answer.given_up = 1;
    }
    answer
});

// With 2047, a packet that ends with the field stays in the buffer.
wrong!(keeps_what_is_whole, |mut given| {
    let before = given.asked();
    if before.packets != 1 || given.pointer != NO_PACKET || before.octets > LONGEST_PIECE {
        return given.own();
    }
    let joined = given.joined();
    let mut answer = FramedNumbers::told(0, TAKEN, before.state);
    given.keep(&joined, &mut answer);
    answer
});

wrong!(does_not_count_the_first, |mut given| {
    let mut answer = given.own();
    if answer.packets > 0 && given.state.piece > 0 && answer.given_up == 0 {
        answer.packets -= 1;
    }
    answer
});

#[test]
fn wrong_pieces() {
    each_found([
        (accepts_pointer_0, "given_up: 1, "),
        (hands_out_what_lacks_octets, "given_up: 1, "),
        (leaves_octets_over, "given_up: 1, "),
        (begins_without_a_pointer, "piece: 0 } }\ngot "),
        (gives_up_nothing, "given_up: 0, "),
        (keeps_what_is_whole, "packets: 1, "),
        (does_not_count_the_first, "packets: "),
    ]);
}

// The rest is only as long as it is; the packet in it would have 8,193 octets.
wrong!(begins_8193, |mut given| {
    let mut answer = given.own();
    if answer.dropped == 1 {
        let rest = &given.field[given.read_to()..];
        if claimed(rest) == Some(8_193) && seen(rest) == Seen::TooLong {
            answer.dropped = 0;
            given.keep(rest, &mut answer);
        }
    }
    answer
});

wrong!(finishes_8193, |mut given| {
    let before = given.asked();
    if before.given_up == 0 || given.pointer == IDLE_ONLY || !given.in_step() {
        return given.own();
    }
    let joined = given.joined();
    let mut answer = given.own();
    if joined.len() == 8_193 && seen(&joined) == Seen::TooLong && read(&joined).is_ok() {
        given.put_first(&joined, &mut answer);
        answer.given_up = 0;
    }
    answer
});

wrong!(refuses_8192, |mut given| {
    let mut answer = given.own();
    let kept = given.buffer[..answer.state.piece.min(given.buffer.len())].to_vec();
    if answer.kind == TAKEN && claimed(&kept) == Some(8_192) {
        answer.dropped = 1;
        answer.state.piece = 0;
    }
    answer
});

// Reads on one octet after what is wrong, as often as need be.
wrong!(reads_the_rest_on, |mut given| {
    let mut answer = given.own();
    while answer.dropped == 1 && given.read_to() + 1 < given.field.len() {
        given.pointer = given.read_to() as u32 + 1;
        let mut output = vec![0; LEAST_OUTPUT];
        let mut rest = Given {
            state: FramesNumbers::default(),
            buffer: given.buffer,
            output: &mut output,
            ..given
        };
        let more = rest.own();
        given.output[answer.octets..][..more.octets].copy_from_slice(&output[..more.octets]);
        answer.octets += more.octets;
        answer.packets += more.packets;
        answer.state.piece = more.state.piece;
        answer.dropped = more.dropped;
    }
    answer
});

wrong!(keeps_the_rest, |mut given| {
    let mut answer = given.own();
    if answer.dropped == 1 {
        let rest = &given.field[given.read_to()..];
        given.keep(rest, &mut answer);
    }
    answer
});

wrong!(drops_cut_headers, |mut given| {
    let mut answer = given.own();
    let kept = given.buffer[..answer.state.piece.min(given.buffer.len())].to_vec();
    if answer.kind == TAKEN && !kept.is_empty() && claimed(&kept).is_none() {
        answer.dropped = 1;
        answer.state.piece = 0;
    }
    answer
});

wrong!(leaves_idle_packets_out, |mut given| {
    let mut answer = given.own();
    let packets = given.output[..answer.octets].to_vec();
    let (mut out, mut rest) = (Vec::new(), &packets[..]);
    answer.packets = 0;
    while let Ok(packet) = read(rest) {
        let idle = match packet {
            Packet::Space(space) => space.apid == 2_047,
            Packet::Encap(encap) => encap.protocol == 0,
        };
        let octets = packet.octets();
        if !idle {
            out.extend(&rest[..octets]);
            answer.packets += 1;
        }
        rest = &rest[octets..];
    }
    given.output[..out.len()].copy_from_slice(&out);
    answer.octets = out.len();
    answer
});

#[test]
fn wrong_readings_of_the_rest() {
    each_found([
        (begins_8193, "dropped: 1, "),
        (finishes_8193, "given_up: 1, "),
        (refuses_8192, "dropped: 0, "),
        (reads_the_rest_on, "dropped: 1, "),
        (keeps_the_rest, "dropped: 1, "),
        (drops_cut_headers, "dropped: 0, "),
        (leaves_idle_packets_out, "packets: "),
    ]);
}

wrong!(counts_the_piece_one_short, |mut given| {
    let mut answer = given.own();
    if answer.kind == TAKEN {
        answer.state.piece = answer.state.piece.saturating_sub(1);
    }
    answer
});

wrong!(stores_one_octet_off, |mut given| {
    let before = given.buffer.to_vec();
    let answer = given.own();
    let (piece, end) = (answer.state.piece, answer.state.piece + 1);
    if answer.kind == TAKEN && piece > 0 {
        let stored = given.buffer[..piece].to_vec();
        given.buffer.copy_from_slice(&before);
        given.buffer[1..end].copy_from_slice(&stored);
    }
    answer
});

wrong!(touches_the_octet_after, |mut given| {
    let answer = given.own();
    if answer.kind == TAKEN && answer.octets < given.output.len() {
        given.output[answer.octets] ^= 1;
    }
    answer
});

wrong!(touches_the_last_octet, |mut given| {
    let answer = given.own();
    if answer.given_up == 1 {
        let last = given.output.len() - 1;
        given.output[last] ^= 1;
    }
    answer
});

wrong!(clears_what_it_gives_up, |mut given| {
    let answer = given.own();
    if answer.given_up == 1 && answer.state.piece < given.state.piece {
        given.buffer[answer.state.piece..given.state.piece].fill(0);
    }
    answer
});

// Piece and field are put together in the output before they are judged.
wrong!(joins_in_the_output, |mut given| {
    let before = given.asked();
    if before.kind == TAKEN && given.pointer != IDLE_ONLY && given.state.piece > 0 {
        let joined = given.joined();
        given.output[..joined.len()].copy_from_slice(&joined);
    }
    given.own()
});

#[test]
fn wrong_octets() {
    each_found([
        (counts_the_piece_one_short, "state: FramesNumbers { "),
        (stores_one_octet_off, " of piece on: expected "),
        (touches_the_octet_after, " of output on: expected "),
        (touches_the_last_octet, "from octet 10237 of output on: "),
        (clears_what_it_gives_up, " of piece on: expected "),
        (joins_in_the_output, " of output on: expected "),
    ]);
}

wrong!(refuses_and_touches_the_buffer, |mut given| {
    let answer = given.own();
    if answer.kind == REFUSED && !given.buffer.is_empty() {
        given.buffer[0] ^= 1;
    }
    answer
});

wrong!(refuses_and_moves_on, |mut given| {
    let mut answer = given.own();
    if answer.refusal == 9 {
        answer.state.count = given.count as u8;
        answer.state.started = 1;
    }
    answer
});

wrong!(refuses_and_loses_the_piece, |mut given| {
    let mut answer = given.own();
    if answer.refusal == 28 {
        answer.state.piece = answer.state.piece.min(LONGEST_PIECE);
    }
    answer
});

wrong!(refuses_9_first, |mut given| {
    match given.output.len() < LEAST_OUTPUT {
        true => FramedNumbers::told(9, REFUSED, given.state),
        false => given.own(),
    }
});

#[test]
fn wrong_refusals() {
    each_found([
        (refuses_and_touches_the_buffer, "from octet 0 of piece on: "),
        (
            refuses_and_moves_on,
            "expected FramedNumbers { refusal: 9, ",
        ),
        (
            refuses_and_loses_the_piece,
            "expected FramedNumbers { refusal: 28, ",
        ),
        (refuses_9_first, "got FramedNumbers { refusal: 9, "),
    ]);
}

wrong!(cuts_the_count, |mut given| {
    given.count &= 0xFF;
    given.own()
});

wrong!(cuts_the_pointer_to_16_bits, |mut given| {
    given.pointer &= 0xFFFF;
    given.own()
});

wrong!(cuts_the_pointer_to_11_bits, |mut given| {
    given.pointer &= 0x7FF;
    given.own()
});

// An offset at the field's end leaves nothing to read.
wrong!(takes_an_offset_at_the_end, |mut given| {
    if given.pointer as usize == given.field.len() && given.state.piece == 0 {
        given.pointer = IDLE_ONLY;
    }
    given.own()
});

wrong!(takes_fields_of_7, |mut given| {
    if given.field.len() != 7 {
        return given.own();
    }
    let field = [given.field, &[0xE0]].concat();
    let field = &field;
    Given { field, ..given }.own()
});

wrong!(takes_fields_of_2047, |mut given| {
    if given.field.len() == LONGEST_FIELD + 1 {
        given.field = &given.field[..LONGEST_FIELD];
    }
    given.own()
});

wrong!(takes_a_longer_buffer, |given| {
    let octets = given.buffer.len().min(BUFFER_OCTETS);
    let buffer = &mut given.buffer[..octets];
    Given { buffer, ..given }.own()
});

wrong!(takes_an_output_of_10237, |mut given| {
    if given.output.len() != LEAST_OUTPUT - 1 {
        return given.own();
    }
    let mut output = vec![0; LEAST_OUTPUT];
    let output_now = given.output;
    let answer = Given {
        output: &mut output,
        ..given
    }
    .own();
    output_now[..answer.octets].copy_from_slice(&output[..answer.octets]);
    answer
});

wrong!(takes_a_piece_of_8192, |mut given| {
    given.as_if(|state| {
        if state.piece == LONGEST_PIECE + 1 {
            state.piece -= 1;
        }
    })
});

#[test]
fn wrong_limits() {
    let refused = "expected FramedNumbers { refusal: 28, ";
    each_found([
        (cuts_the_count, refused),
        (cuts_the_pointer_to_16_bits, refused),
        (cuts_the_pointer_to_11_bits, refused),
        (takes_an_offset_at_the_end, refused),
        (takes_fields_of_7, refused),
        (takes_fields_of_2047, refused),
        (takes_a_longer_buffer, refused),
        (takes_a_piece_of_8192, refused),
        (
            takes_an_output_of_10237,
            "expected FramedNumbers { refusal: 9, ",
        ),
    ]);
}

unsafe extern "C" fn starts_after_a_frame() -> FramesNumbers {
    FramesNumbers {
        started: 1,
        ..FramesNumbers::default()
    }
}

unsafe extern "C" fn starts_with_a_piece() -> FramesNumbers {
    FramesNumbers {
        piece: 1,
        ..FramesNumbers::default()
    }
}

#[test]
fn wrong_starts() {
    let starts: [FreshFrames; 2] = [starts_after_a_frame, starts_with_a_piece];
    for fresh_frames in starts {
        let library = Library {
            fresh_frames,
            ..own::library()
        };
        let words = ["fresh_frames\n", "expected FramesNumbers { started: 0, "];
        found(runs, library, &words);
    }
}
