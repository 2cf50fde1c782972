//! Counts what the frames met, and judges whether it was enough.

use super::text::LONGEST_FILE;
use super::{Answer, Fate, Frame, Frames, Rest, Seen, Taken};
use super::{IDLE_ONLY, LONGEST_FRAMED, LONGEST_PIECE, NO_PACKET};
use crate::reader::{claimed, Refusal};
use std::collections::BTreeMap;

/// What frames of a run should lead to, in the order in which it is printed.
pub const NAMES: [&str; 50] = [
    "refused 28 for a field under 8 octets alone",
    "refused 28 for a field over 2046 octets alone",
    "refused 28 for a count over 255 alone",
    "refused 28 for an offset at or past the field's end alone",
    "refused 28 for an offset at the field's end alone",
    "repeat without a piece",
    "repeat with a piece",
    "taken",
    "taken, the first frame",
    "taken, count 0 after 255",
    "taken, a field of 8 octets",
    "taken, a field of 2046 octets",
    "taken, an offset of the last octet",
    "no piece, pointer 0",
    "no piece, another offset",
    "no piece, 2046",
    "no piece, 2047",
    "no piece, a gap",
    "finished at an offset",
    "finished by the whole field",
    "finished, its header was not whole",
    "finished, 8192 octets",
    "longer",
    "longer, its header was not whole",
    "longer, 6000 octets or more",
    "given up for a gap",
    "given up for a gap, 2046",
    "given up for a gap, 2047",
    "given up for a gap, an offset that would fit",
    "given up for 2046",
    "given up, octets left over",
    "given up, octets left over with 2047",
    "given up, octets lacking",
    "given up, pointer 0 and octets lacking",
    "given up, too long together",
    "given up, refused together",
    "read to its end",
    "a new piece, its header not whole",
    "a new piece, its header whole",
    "a new piece after a finished one",
    "a new piece after one given up",
    "dropped for refusal 2",
    "dropped for refusal 3",
    "dropped for refusal 4",
    "dropped for refusal 5",
    "dropped for refusal 6",
    "dropped for refusal 7",
    "dropped for over 8192 octets",
    "dropped after packets",
    "dropped, and a piece given up",
];

/// What no file leads to, but calls with any state, buffer and output do.
pub const CALL_NAMES: [&str; 9] = [
    "refused 28 for a buffer that has not 8192 octets alone",
    "refused 28 for a piece over 8191 octets alone",
    "refused 28 for several causes",
    "refused 9",
    "taken, a piece and no frame before",
    "finished, pointer 0",
    "longer, to 8191 octets",
    "given up, octets left over with pointer 0",
    "given up, 8191 octets",
];

const FILE_NAMES: [(&str, usize); 6] = [
    ("file cut off in a frame", 20),
    ("file cut off in a frame's first six octets", 20),
    ("file without octets", 1),
    ("file of the longest length", 4),
    ("file that is too long", 4),
    ("file of which a packet is promised", 500),
];

/// Fewer than these are too few.
const FLOOR: usize = 20;

/// What there was before a frame.
pub struct Before {
    frames: Frames,
    buffer_octets: usize,
    /// The octets of the piece.
    piece: Vec<u8>,
}

impl Before {
    pub fn new(frames: &Frames, buffer: &[u8]) -> Self {
        // A state that is refused may tell of a piece that isn't there.
        let piece = buffer.get(..frames.piece).unwrap_or(&[]);
        Before {
            frames: *frames,
            buffer_octets: buffer.len(),
            piece: piece.to_vec(),
        }
    }
}

/// What holds of a frame.
pub fn things(before: &Before, frame: &Frame<'_>, answer: &Result<Answer, Refusal>) -> Vec<String> {
    match answer {
        Err(_) => refused(before, frame),
        Ok(Answer::Repeat) => {
            let piece = !before.piece.is_empty();
            holding([
                ("repeat without a piece", !piece),
                ("repeat with a piece", piece),
            ])
        }
        Ok(Answer::Taken(taken)) => [
            of_frame(&before.frames, frame),
            of_piece(before, frame, taken),
            of_rest(frame, taken),
        ]
        .concat(),
    }
}

fn refused(before: &Before, frame: &Frame<'_>) -> Vec<String> {
    let grounds = before.frames.grounds(frame, before.buffer_octets);
    match grounds[..] {
        [] => holding([("refused 9", true)]),
        [ground] => {
            let at_end = frame.pointer as usize == frame.field.len();
            let more = holding([("refused 28 for an offset at the field's end alone", at_end)]);
            [vec![format!("refused 28 for {ground} alone")], more].concat()
        }
        _ => holding([("refused 28 for several causes", true)]),
    }
}

/// The names whose conditions hold.
fn holding<const N: usize>(names: [(&str, bool); N]) -> Vec<String> {
    let held = names.into_iter().filter(|(_, holds)| *holds);
    held.map(|(name, _)| name.to_string()).collect()
}

fn of_frame(before: &Frames, frame: &Frame<'_>) -> Vec<String> {
    let octets = frame.field.len();
    let handed = before.piece > 0 && !before.started;
    let wraps = before.started && before.count == 255 && frame.count == 0;
    holding([
        ("taken", true),
        ("taken, the first frame", !before.started),
        ("taken, count 0 after 255", wraps),
        ("taken, a piece and no frame before", handed),
        ("taken, a field of 8 octets", octets == 8),
        ("taken, a field of 2046 octets", octets == 2_046),
        (
            "taken, an offset of the last octet",
            frame.pointer as usize + 1 == octets,
        ),
    ])
}

fn of_piece(before: &Before, frame: &Frame<'_>, taken: &Taken) -> Vec<String> {
    let piece = &before.piece[..];
    let cut_header = claimed(piece).is_none();
    let longer = piece.len() + frame.field.len();
    match taken.fate {
        Fate::NoPiece => no_piece(&before.frames, frame),
        Fate::Finished => holding([
            ("finished at an offset", frame.pointer < IDLE_ONLY),
            ("finished, pointer 0", frame.pointer == 0),
            ("finished by the whole field", frame.pointer == NO_PACKET),
            ("finished, its header was not whole", cut_header),
            (
                "finished, 8192 octets",
                claimed(piece) == Some(LONGEST_FRAMED),
            ),
        ]),
        Fate::Longer => holding([
            ("longer", true),
            ("longer, its header was not whole", cut_header),
            ("longer, 6000 octets or more", longer >= 6_000),
            ("longer, to 8191 octets", longer == LONGEST_PIECE),
        ]),
        Fate::OutOfStep => gap(piece, frame),
        Fate::MetIdle => holding([("given up for 2046", true)]),
        Fate::Contradicted(seen) => {
            let longest = piece.len() == LONGEST_PIECE;
            let more = holding([("given up, 8191 octets", longest)]);
            [contradicted(frame, seen), more].concat()
        }
    }
}

fn no_piece(before: &Frames, frame: &Frame<'_>) -> Vec<String> {
    let next = (u32::from(before.count) + 1) % 256;
    holding([
        ("no piece, pointer 0", frame.pointer == 0),
        (
            "no piece, another offset",
            (1..IDLE_ONLY).contains(&frame.pointer),
        ),
        ("no piece, 2046", frame.pointer == IDLE_ONLY),
        ("no piece, 2047", frame.pointer == NO_PACKET),
        ("no piece, a gap", before.started && frame.count != next),
    ])
}

fn gap(piece: &[u8], frame: &Frame<'_>) -> Vec<String> {
    let joined = [piece, frame.lead()].concat();
    let fits = super::seen(&joined) == Seen::Packet(joined.len());
    holding([
        ("given up for a gap", true),
        ("given up for a gap, 2046", frame.pointer == IDLE_ONLY),
        ("given up for a gap, 2047", frame.pointer == NO_PACKET),
        (
            "given up for a gap, an offset that would fit",
            fits && frame.pointer < IDLE_ONLY,
        ),
    ])
}

fn contradicted(frame: &Frame<'_>, seen: Seen) -> Vec<String> {
    let over = matches!(seen, Seen::Packet(_));
    let lacking = seen == Seen::Unfinished;
    holding([
        ("given up, octets left over", over),
        (
            "given up, octets left over with 2047",
            over && frame.pointer == NO_PACKET,
        ),
        (
            "given up, octets left over with pointer 0",
            over && frame.pointer == 0,
        ),
        ("given up, octets lacking", lacking),
        (
            "given up, pointer 0 and octets lacking",
            lacking && frame.pointer == 0,
        ),
        ("given up, too long together", seen == Seen::TooLong),
        (
            "given up, refused together",
            matches!(seen, Seen::Refused(_)),
        ),
    ])
}

fn of_rest(frame: &Frame<'_>, taken: &Taken) -> Vec<String> {
    match taken.rest {
        Rest::Unread => Vec::new(),
        Rest::Even => holding([("read to its end", true)]),
        Rest::Piece(octets) => {
            let piece = &frame.field[frame.field.len() - octets..];
            let whole = claimed(piece).is_some();
            holding([
                ("a new piece, its header not whole", !whole),
                ("a new piece, its header whole", whole),
                (
                    "a new piece after a finished one",
                    taken.fate == Fate::Finished,
                ),
                ("a new piece after one given up", taken.gave_up()),
            ])
        }
        Rest::Dropped(seen) => {
            let cause = match seen {
                Seen::Refused(number) => format!("dropped for refusal {number}"),
                _ => "dropped for over 8192 octets".to_string(),
            };
            let more = holding([
                ("dropped after packets", taken.packets > 0),
                ("dropped, and a piece given up", taken.gave_up()),
            ]);
            [vec![cause], more].concat()
        }
    }
}

#[derive(Default)]
pub struct Met {
    times: BTreeMap<String, usize>,
    files: usize,
    frames: usize,
}

impl Met {
    pub fn frame(&mut self, things: Vec<String>) {
        self.frames += 1;
        things.into_iter().for_each(|thing| self.add(thing));
    }

    fn add(&mut self, thing: String) {
        *self.times.entry(thing).or_default() += 1;
    }

    pub fn file(&mut self, file: &[u8], text: &str, promised: bool) {
        self.files += 1;
        let cut = text.lines().find_map(|line| line.strip_suffix(" bad"));
        let at = cut.and_then(|offset| offset.parse::<usize>().ok());
        let left = at.map_or(0, |offset| file.len() - offset);
        let found = holding([
            ("file cut off in a frame", left > 0),
            (
                "file cut off in a frame's first six octets",
                (1..6).contains(&left),
            ),
            ("file without octets", file.is_empty()),
            ("file of the longest length", file.len() == LONGEST_FILE),
            ("file that is too long", file.len() > LONGEST_FILE),
            ("file of which a packet is promised", promised),
        ]);
        found.into_iter().for_each(|thing| self.add(thing));
    }

    /// A line for each thing that should be met, or what was met too seldom.
    pub fn table(&self) -> Result<String, String> {
        let frames = NAMES.into_iter().map(|name| (name, FLOOR));
        let (mut lines, mut seldom) = (String::new(), String::new());
        for (name, floor) in frames.chain(FILE_NAMES) {
            let times = self.times.get(name).copied().unwrap_or(0);
            lines += &format!("{times:>9}  {name}\n");
            if times < floor {
                seldom += &format!("met {times} times of {floor}: {name}\n");
            }
        }
        let (files, frames) = (self.files, self.frames);
        match seldom.is_empty() {
            true => Ok(format!(
                "{lines}{files} files of {frames} frames taken alike\n"
            )),
            false => Err(seldom),
        }
    }
}
