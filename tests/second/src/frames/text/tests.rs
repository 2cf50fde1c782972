use super::*;
use crate::hex;

/// A packet over three frames, a repeat, a gap, a refused frame, and more: the
/// sample.
const FILE: &[u8] = include_bytes!("../../../../../samples/pass.frames");
const TEXT: &str = include_str!("../../../../../samples/pass.txt");

/// Of 8,192 octets of 0 the first sum is 1, the second 8,192.
const ZEROS: u32 = (8_192 << 16) + 1;

fn gives(input: &[u8], lines: &[&str]) {
    let expected: String = lines.iter().map(|line| format!("{line}\n")).collect();
    assert_eq!(text(input), expected);
}

#[test]
fn the_sample() {
    assert_eq!(text(FILE), TEXT);
}

#[test]
fn a_file_cut_off_in_a_frame() {
    let first = "00 07 00 00 00 08 E0 E0 E0 E0 E0 E0 E0 E0";
    let file = hex::octets(&[first, first].join(" "));
    let end = format!("end 14 1 {ZEROS}");
    // Of eight octets E0 the first sum is 1 + 8 x 224, the second 8 + 36 x 224.
    let line = format!("0 frame 7 taken 8 8 0 0 {}", (8_072 << 16) + 1_793);
    for kept in 15..28 {
        gives(&file[..kept], &[&line, "14 bad", &end]);
    }
    gives(&file[..14], &[&line, &end]);
    let end = format!("end 28 2 {ZEROS}");
    gives(&file, &[&line, "14 frame 7 repeat", &end]);
    gives(&[0], &["0 bad", &format!("end 0 0 {ZEROS}")]);
    gives(&[], &[&format!("end 0 0 {ZEROS}")]);
}

#[test]
fn refused_frames_are_whole_frames() {
    let file = hex::octets("FF FF FF FF 00 00  01 00 00 00 00 00  00 00 00 08 00 01 E0");
    let lines = [
        "0 frame 65535 refused 28",
        "6 frame 256 refused 28",
        "12 frame 0 refused 28",
        &format!("end 19 3 {ZEROS}"),
    ];
    gives(&file, &lines);
}

#[test]
fn the_piece_lies_in_the_buffer() {
    let file = hex::octets("00 00 00 00 00 08 E0 E0 00 2A C0 05 00 01");
    let piece = [&hex::octets("00 2A C0 05 00 01")[..], &[0; 8_186]].concat();
    let lines = [
        &format!("0 frame 0 taken 2 2 0 0 {}", adler32(&[0xE0; 2])),
        &format!("end 14 1 {}", adler32(&piece)),
    ];
    gives(&file, &lines.map(String::as_str));
    assert_eq!(packets(&file), [0xE0; 2]);
}

#[test]
fn the_longest_file_and_one_octet_more() {
    let longest = told(&[0; LONGEST_FILE]);
    assert!(longest
        .0
        .ends_with(&format!("\nend 1048572 174762 {ZEROS}\n")));
    assert!(longest.0.contains("\n1048572 bad\n") && longest.1.is_empty());
    let frame = hex::octets("00 00 00 00 00 08 E0 E0 E0 E0 E0 E0 E0 E0");
    let longer = frame.repeat(LONGEST_FILE / 14 + 1);
    assert_eq!(told(&longer), ("too long\n".to_string(), Vec::new()));
    assert_eq!(packets(&longer), [0xE0; 8]);
}
