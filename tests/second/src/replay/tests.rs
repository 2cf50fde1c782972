use super::*;
use crate::hex;

/// Two openings, six packets and two closings, with one of each kind of answer.
const RUN: &str = "
    4F 00 00 07 00 2A 00 01 02  4F 00 00 07 00 2A 00 01 02
    50 00 00 00 00 40 00 00 00 08 00 2A 40 05 00 01 11 22
    50 00 00 00 00 40 00 00 00 07 00 2A 80 06 00 00 33
    50 00 00 00 00 40 00 00 00 07 00 2A 80 06 00 00 33
    50 00 00 00 00 40 00 00 00 07 00 2A 40 07 00 00 44
    50 00 00 00 00 40 00 00 00 07 00 2A 00 09 00 00 55
    50 00 00 00 00 00 00 00 00 07 00 2A C0 0A 00 00 66
    43 00 00 00 00 14  43 00 00 00 00 14";

const LINES: [&str; 11] = [
    "0 open 0 ok",
    "9 open 0 refused 21",
    "18 packet 0 held 0 0",
    "36 packet 0 unit 0 0 3 11337831",
    "53 packet 0 repeat",
    "70 packet 0 held 0 0",
    "87 packet 0 stray 1 1",
    "104 packet 0 refused 20",
    "121 close 0 record 7 42 1 4 1 1",
    "127 close 0 refused 11",
    "end 133 10 3243573351",
];

fn gives(input: &[u8], lines: &[&str]) {
    let expected: String = lines.iter().map(|line| format!("{line}\n")).collect();
    assert_eq!(text(input), expected);
}

#[test]
fn one_of_each_answer() {
    let run = hex::octets(RUN);
    assert_eq!(run.len(), 133);
    gives(&run, &LINES);
}

#[test]
fn a_run_cut_off_in_a_call() {
    let run = hex::octets(RUN);
    let expected = [&LINES[..9], &["127 bad", "end 127 9 3243573351"]].concat();
    gives(&run[..132], &expected);
    gives(&run[..128], &expected);
    // At the end of a call nothing is cut off.
    let expected = [&LINES[..9], &["end 127 9 3243573351"]].concat();
    gives(&run[..127], &expected);
}

#[test]
fn another_first_octet_stops_the_run() {
    let open = hex::octets("4F 07 00 07 00 2A 00 01 02");
    let run = [&open[..], &[0x6F], &open].concat();
    // Of 16,384 octets of 0 the first sum is 1, the second 16,384.
    gives(&run, &["0 open 7 ok", "9 bad", "end 9 1 1073741825"]);
    gives(&[], &["end 0 0 1073741825"]);
}

#[test]
fn no_octets_are_a_call() {
    let run = hex::octets("4F 07 00 07 00 2A 00 01 02 50 07 00 00 00 00 00 00 00 00");
    let expected = [
        "0 open 7 ok",
        "9 packet 7 refused 1 0",
        "end 19 2 1073741825",
    ];
    gives(&run, &expected);
}

#[test]
fn only_what_cannot_be_read_has_a_place() {
    let run = hex::octets(
        "4F 00 00 07 00 2A 00 01 02  50 00 00 00 00 00 00 00 00 02 00 2A
        50 00 00 00 00 00 00 00 00 05 EA 13 00 05 55
        50 00 00 00 00 00 00 00 00 08 EB 00 00 00 00 00 00 07
        50 00 00 00 00 00 00 00 00 01 E0  50 01 00 00 00 00 00 00 00 01 20",
    );
    let expected = [
        "0 open 0 ok",
        "9 packet 0 refused 1 2",
        "21 packet 0 refused 7 1",
        "36 packet 0 refused 4 4",
        "54 packet 0 refused 13",
        "65 packet 1 refused 11",
        "end 76 6 1073741825",
    ];
    gives(&run, &expected);
}

#[test]
fn a_lane_over_7_is_told_by_its_number() {
    let run = hex::octets("4F FF 00 07 00 2A 00 01 02 43 08 FF FF FF FF");
    let expected = [
        "0 open 255 refused 11",
        "9 close 8 refused 11",
        "end 15 2 1073741825",
    ];
    gives(&run, &expected);
}

#[test]
fn the_longest_run_and_one_octet_more() {
    let longest = text(&[0x43; LONGEST_RUN]);
    assert_eq!(longest.lines().count(), LONGEST_RUN / 6 + 2);
    assert!(longest.ends_with("\n1048572 bad\nend 1048572 174762 1073741825\n"));
    assert_eq!(text(&[0x43; LONGEST_RUN + 1]), "too long\n");
}
