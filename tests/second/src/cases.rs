//! The cases: the lines of a text, each with its answer, to lay beside the
//! intake's own.
//!
//! The file of them says what each line means. It is only data; here every line
//! is run by this program's own rules.

mod lanes;
mod line;
mod reading;
mod writing;

use lanes::LaneCases;
use line::Line;

/// The paper's cases without a star, and more.
pub const FILE: &str = include_str!("../../../crates/cases/stdin");

/// Of more octets nothing is run.
pub const LONGEST: usize = 65_535;

/// The paper's starred reading cases. They are proved elsewhere, so of them only
/// those that are refused are printed, for their places; but all are compared
/// and tested here.
pub const STARRED: &[&str] = &[
    "00 2A C0 05 00 01 AA BB",
    "00 2A C0 05 00 01 AA",
    "0F FF C0 00 00 00 00",
    "20",
    "",
    "E0",
    "E4",
    "E9 02",
    "E9 05 11 22 33",
    "EB 00 00 00 00 01 00 07",
];

/// Each case with its answer and a newline; or the first line that is none.
pub fn text(input: &[u8]) -> Result<String, String> {
    if input.len() > LONGEST {
        return Ok("too long\n".to_string());
    }
    let lines = std::str::from_utf8(input).map_err(|error| error.to_string())?;
    if !lines.is_empty() && !lines.ends_with('\n') {
        return Err("the last line has no end".to_string());
    }
    let (mut text, mut lanes) = (String::new(), LaneCases::fresh());
    for (place, line) in lines.lines().enumerate() {
        let answer = told(line, &mut lanes);
        let answer = answer.map_err(|fault| format!("line {}: {fault}", place + 1))?;
        if let Some(answer) = answer {
            text.push_str(&format!("{line}:{answer}\n"));
        }
    }
    Ok(text)
}

/// The answer to a line, unless it has none.
fn told(text: &str, lanes: &mut LaneCases) -> Result<Option<String>, String> {
    if text.is_empty() || text.starts_with('#') {
        return Ok(None);
    }
    let line = Line::new(text)?;
    match line.verb {
        "lane" => lanes.make_lane(&line).map(|()| None),
        "mark" => lanes.make_mark(&line).map(|()| None),
        "pool" => lanes.make_pool(&line).map(|()| None),
        verb if verb.starts_with("write ") => writing::told(&line).map(Some),
        verb if verb.starts_with("read") || verb == "walk" => reading::told(&line).map(Some),
        _ => lanes.told(&line).map(Some),
    }
}

/// The octets of the cases that are about reading packets.
pub fn packets() -> Vec<Vec<u8>> {
    let lines = FILE.lines().filter_map(|line| Line::new(line).ok());
    let about = lines.filter(|line| ["read", "walk"].contains(&line.verb));
    about.filter_map(|line| line.octets().ok()).collect()
}

#[cfg(test)]
mod tests {
    use super::*;

    /// What these lines give, without the lines.
    pub fn answers(lines: &[&str]) -> Vec<String> {
        let input: String = lines.iter().map(|line| format!("{line}\n")).collect();
        let text = text(input.as_bytes()).expect("every line is a case");
        let answers = text.lines().filter_map(|line| line.split_once(':'));
        answers
            .map(|(_, answer)| answer.trim().to_string())
            .collect()
    }

    #[test]
    fn every_line_of_the_file_is_a_case() {
        let text = text(FILE.as_bytes()).expect("every line is a case");
        let starting = |start: &str| text.lines().filter(|line| line.starts_with(start)).count();
        assert_eq!(starting("read record"), 5 + 6);
        assert_eq!(starting("read"), 15 + 13 + 5 + 6);
        assert_eq!(starting("walk"), 3 + 1);
        assert_eq!(starting("write encap "), 6 + 15);
        assert_eq!(starting("write space "), 16);
        assert_eq!(starting("write record "), 16);
        assert_eq!(starting("fresh "), 8 + 27);
        assert_eq!(starting("sound: sound"), 9);
        assert_eq!(starting("sound: unsound"), 18);
        assert_eq!(packets().len(), 15 + 13 + 3 + 1);
    }

    #[test]
    fn a_text_is_cases_to_its_end() {
        assert_eq!(text(b""), Ok(String::new()));
        assert_eq!(text(b"# E0\n\nread e0\n"), text(b"read e0\n"));
        let fault = text(b"read e0\nreads e0\n").expect_err("no such verb");
        assert!(fault.starts_with("line 2: "), "{fault}");
        for wrong in [
            "read e0",
            "read E0\n",
            "read e\n",
            "open 0 7\n",
            "mark 64 0\n",
        ] {
            assert!(text(wrong.as_bytes()).is_err(), "{wrong}");
        }
        let longest = format!("{}\n", "#".repeat(LONGEST - 1));
        assert_eq!(text(longest.as_bytes()), Ok(String::new()));
        let longer = format!("#{longest}");
        assert_eq!(text(longer.as_bytes()), Ok("too long\n".to_string()));
    }
}
