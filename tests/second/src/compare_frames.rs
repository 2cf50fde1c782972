//! Lays another program's texts of frame files, and the packets that it takes
//! out of them, beside this program's own.

use crate::compare::{about_input, difference};
use crate::frames::met::{self, Met};
use crate::frames::runs::{self, Run};
use crate::frames::text::{self, LONGEST_FILE};
use crate::hex;
use std::ffi::OsString;
use std::io::{self, Read, Write};
use std::process::{Command, Stdio};
use std::thread;

/// A shell opens file descriptor 3 for the program, as one would who wants the
/// packets, or closes it. Open, it is the pipe of standard error: there too
/// nothing but packets may come.
const OPEN: &str = "exec \"$@\" 3>&2";
const CLOSED: &str = "exec \"$@\" 3>&-";

/// One in so many files is also given without the descriptor.
const CLOSED_TOO: usize = 8;

/// A table of what the files met, or the first difference.
pub fn compare_frames(program: &[OsString]) -> Result<String, String> {
    let mut met = Met::default();
    for (turn, run) in runs::all().enumerate() {
        let (text, packets) = expected(&run, &mut met);
        let about = |fault: String| about_run(&run) + &fault;
        same(program, OPEN, &run.file, (&text, &packets)).map_err(about)?;
        if turn % CLOSED_TOO == 0 {
            same(program, CLOSED, &run.file, (&text, &[])).map_err(about)?;
        }
    }
    met.table()
}

/// The file's text and packets, with what it met counted.
fn expected(run: &Run, met: &mut Met) -> (String, Vec<u8>) {
    let (text, packets) = text::watched(&run.file, |before, frame, answer| {
        met.frame(met::things(before, &frame.as_frame(), answer));
    });
    let promised = run.promised.as_ref();
    met.file(
        &run.file,
        &text,
        promised.is_some_and(|promised| !promised.is_empty()),
    );
    (text, packets)
}

/// Whether the program gives this text and these packets.
fn same(
    program: &[OsString],
    shell: &str,
    file: &[u8],
    (text, packets): (&str, &[u8]),
) -> Result<(), String> {
    let (came, out) = answer(program, shell, file)?;
    if came != text.as_bytes() {
        return Err(difference(text.as_bytes(), &came));
    }
    if out != packets {
        let pairs = out.iter().zip(packets);
        let same = pairs.take_while(|(one, other)| one == other).count();
        let shown = [packets, &out].map(|octets| hex::cut(&octets[same..]));
        let [expected, came] = shown;
        return Err(format!(
            "after {same} octets of packets\nexpected {expected}\ncame {came}\n"
        ));
    }
    Ok(())
}

/// What the program writes to standard output, and to standard error and file
/// descriptor 3.
fn answer(program: &[OsString], shell: &str, input: &[u8]) -> Result<(Vec<u8>, Vec<u8>), String> {
    let fault = |error: io::Error| format!("the program can't be run: {error}");
    let mut child = Command::new("sh")
        .args(["-c", shell, "sh"])
        .args(program)
        .stdin(Stdio::piped())
        .stdout(Stdio::piped())
        .stderr(Stdio::piped())
        .spawn()
        .map_err(fault)?;
    let mut stdin = child.stdin.take().expect("its input is a pipe");
    let mut stdout = child.stdout.take().expect("its output is a pipe");
    let mut packets = child.stderr.take().expect("its packets are a pipe");
    let (mut came, mut out) = (Vec::new(), Vec::new());
    let read = thread::scope(|scope| {
        // Each from a thread of its own: the program may fill any of the pipes
        // before it turns to another, and may stop reading early.
        scope.spawn(move || {
            let _ = stdin.write_all(input);
        });
        let reader = scope.spawn(|| packets.read_to_end(&mut out));
        let read = stdout.read_to_end(&mut came);
        reader.join().expect("reading does not panic").and(read)
    });
    let status = child.wait().map_err(fault)?;
    read.map_err(fault)?;
    match status.code() {
        Some(0) => Ok((came, out)),
        _ => Err(format!("the program ended badly: {status}")),
    }
}

fn about_run(run: &Run) -> String {
    let Run { name, seed, .. } = run;
    let too_long = if run.file.len() > LONGEST_FILE {
        ", too long"
    } else {
        ""
    };
    format!(
        "run of seed {seed} ({name}{too_long}), {}",
        about_input(&run.file)
    )
}

#[cfg(test)]
mod tests {
    use super::*;

    #[test]
    fn the_files_meet_enough() {
        let mut met = Met::default();
        for run in runs::all() {
            expected(&run, &mut met);
        }
        let table = met.table().expect("nothing is met too seldom");
        assert!(table.ends_with(" frames taken alike\n"));
    }

    /// `sh` as the program: a script that prints and writes packets or not.
    fn script(lines: &str) -> Vec<OsString> {
        ["sh", "-c", lines].map(OsString::from).to_vec()
    }

    #[test]
    fn finds_other_texts_and_other_packets() {
        let given = |lines: &str, shell| same(&script(lines), shell, b"x", ("a\n", b"pq"));
        assert_eq!(given("cat >/dev/null; echo a; printf pq >&3", OPEN), Ok(()));
        let fault = given("echo b; printf pq >&3", OPEN).expect_err("another text");
        assert!(fault.starts_with("first difference in line 1\n"));
        let fault = given("echo a; printf pr >&3", OPEN).expect_err("another packet");
        assert_eq!(
            fault,
            "after 1 octets of packets\nexpected of 1 octets: 71\ncame of 1 octets: 72\n"
        );
        let fault = given("echo a; printf pq >&3; echo no >&2", OPEN);
        assert!(fault
            .expect_err("a message")
            .contains("came of 3 octets: 6e 6f 0a"));
        let fault = given("exit 3", OPEN).expect_err("no good end");
        assert!(fault.starts_with("the program ended badly: "));
    }

    #[test]
    fn the_descriptor_is_closed_where_it_should_be() {
        let lines = "if { true >&3; } 2>/dev/null; then echo open; else echo closed; fi";
        assert_eq!(same(&script(lines), CLOSED, b"", ("closed\n", b"")), Ok(()));
        assert_eq!(same(&script(lines), OPEN, b"", ("open\n", b"")), Ok(()));
    }
}
