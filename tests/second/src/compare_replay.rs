//! Lays another program's replays beside this program's own.

use crate::compare::{about_input, answer, difference};
use crate::hex;
use crate::replay;
use crate::run_file::Call;
use crate::runs::{self, met::Met, Run};
use std::ffi::OsString;

/// A table of what the runs met, or the first difference.
pub fn compare_replays(program: &[OsString]) -> Result<String, String> {
    let mut met = Met::default();
    for run in runs::all() {
        let expected = expected(&run, &mut met);
        let came = answer(program, &run.file).map_err(|fault| about_run(&run) + &fault)?;
        if came != expected.as_bytes() {
            let call = about_call(&run.file, expected.as_bytes(), &came);
            let difference = difference(expected.as_bytes(), &came);
            return Err(about_run(&run) + &call + &difference);
        }
    }
    met.table()
}

/// The run's text, with what it met counted.
fn expected(run: &Run, met: &mut Met) -> String {
    let text = replay::watched(&run.file, |call, told, lanes| met.call(call, told, lanes));
    met.file(&run.file, &text);
    text
}

fn about_run(run: &Run) -> String {
    let (name, seed) = (run.name, run.seed);
    format!("run of seed {seed} ({name}), {}", about_input(&run.file))
}

/// The call at whose line the texts part, if they part at a call.
fn about_call(file: &[u8], expected: &[u8], came: &[u8]) -> String {
    let pairs = expected.iter().zip(came);
    let same = pairs.take_while(|(one, other)| one == other).count();
    let lines = expected[..same]
        .iter()
        .filter(|octet| **octet == b'\n')
        .count();
    let mut offset = 0;
    for _ in 0..lines {
        let Ok((_, octets)) = Call::taken(&file[offset..]) else {
            return String::new();
        };
        offset += octets;
    }
    match Call::taken(&file[offset..]) {
        Ok((_, octets)) => {
            let call = hex::cut(&file[offset..offset + octets]);
            format!("they part at the call at {offset}, {call}\n")
        }
        Err(_) => String::new(),
    }
}

#[cfg(test)]
mod tests {
    use super::*;

    #[test]
    fn the_runs_meet_enough() {
        let mut met = Met::default();
        for run in runs::all() {
            expected(&run, &mut met);
        }
        let table = met.table().expect("nothing is met too seldom");
        assert!(table.ends_with(" calls replayed alike\n"));
    }

    #[test]
    fn nothing_met_is_too_little() {
        let fault = Met::default().table().expect_err("nothing was met");
        assert!(
            fault.starts_with("met 0 times of 20: open: ok\nmet 0 times of 20: open: refused 11\n")
        );
    }

    #[test]
    fn names_the_run_and_the_call() {
        let file = hex::octets("43 00 00 00 00 14 43 01 00 00 00 14");
        let expected = b"0 close 0 refused 11\n6 close 1 refused 11\n";
        let came = b"0 close 0 refused 11\n6 close 1 refused 9\n";
        let call = about_call(&file, expected, came);
        assert_eq!(
            call,
            "they part at the call at 6, of 6 octets: 43 01 00 00 00 14\n"
        );
        let (name, seed) = ("talk", 10_000);
        let shown = about_run(&Run { name, seed, file });
        assert!(shown.starts_with("run of seed 10000 (talk), input of 12 octets: 43 00 "));
    }
}
