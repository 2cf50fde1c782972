//! The cases of lanes: calls on a state that earlier lines made, by calls or by
//! hand.
//!
//! A state that was made by hand may be anything. Whether it is sound is judged
//! here, by the paper's sentence, and every call asks that first.

use super::line::{narrow, Line};
use super::reading::record;
use super::writing::{about_end, data, lent, UNTOUCHED};
use crate::calls::lanes::call::{by_value, Deed};
use crate::calls::lanes::sound::is_sound;
use crate::calls::structs::{AnswerNumbers, LaneNumbers, SettingsNumbers, StateNumbers};
use crate::calls::structs::{HELD, REPEAT, STRAY};
use crate::forge::SpaceHead;
use crate::lanes::{Settings, COUNTS, POOL_OCTETS};
use crate::record::{Record, MOST_PACKETS, RECORD_OCTETS};

/// The longest unit, and eight octets that must stay as they are.
const OUTPUT: usize = 81_928;

pub struct LaneCases {
    state: StateNumbers,
    pool: Vec<u8>,
    /// How much of the pool is lent.
    lent: u32,
}

impl LaneCases {
    pub fn fresh() -> Self {
        LaneCases {
            state: StateNumbers::FRESH,
            pool: vec![0; POOL_OCTETS + 1],
            lent: POOL_OCTETS as u32,
        }
    }

    /// The fields follow the lane's number in the order of the struct.
    pub fn make_lane(&mut self, line: &Line<'_>) -> Result<(), String> {
        let [lane, opened, rest @ ..] = line.numbers::<14>()?;
        let [station, apid, secondary, share, cap, rest @ ..] = rest;
        let [units, packets, missing, broken, last, grouped, octets] = rest;
        let made = LaneNumbers {
            opened: truth(opened)?,
            settings: settings([station, apid, secondary, share, cap])?,
            units,
            packets,
            missing,
            broken,
            last: narrow(last)?,
            grouped: truth(grouped)?,
            octets: narrow(octets)?,
        };
        let place = self.state.lanes.get_mut(lane as usize);
        *place.ok_or("no such lane")? = made;
        Ok(())
    }

    pub fn make_mark(&mut self, line: &Line<'_>) -> Result<(), String> {
        let [block, mark] = line.numbers()?;
        let place = self.state.marks.get_mut(block as usize);
        *place.ok_or("no such block")? = narrow(mark)?;
        Ok(())
    }

    pub fn make_pool(&mut self, line: &Line<'_>) -> Result<(), String> {
        let [octets] = line.numbers()?;
        lent(&mut self.pool, octets)?;
        self.lent = octets;
        Ok(())
    }

    pub fn told(&mut self, line: &Line<'_>) -> Result<String, String> {
        match line.verb {
            "fresh" => {
                self.state = StateNumbers::FRESH;
                Ok(String::new())
            }
            "open" => self.open(line.numbers()?),
            "packet" => self.packet(line.numbers()?),
            "close" => self.close(line.numbers()?),
            "fill" => line.numbers::<0>().map(|_| self.fill()),
            _ => line.numbers::<0>().map(|_| self.sound()),
        }
    }

    fn call(&mut self, lane: u32, deed: &Deed<'_>, output: &mut [u8]) -> AnswerNumbers {
        let pool = &mut self.pool[..self.lent as usize];
        let answer = by_value(&self.state, (lane as usize, deed), (pool, output));
        self.state = answer.state;
        answer
    }

    fn open(&mut self, [lane, numbers @ ..]: [u32; 6]) -> Result<String, String> {
        let deed = Deed::Open(Settings::from(settings(numbers)?));
        let answer = self.call(lane, &deed, &mut []);
        Ok(refused(&answer).unwrap_or(" ok".to_string()))
    }

    fn packet(&mut self, numbers: [u32; 6]) -> Result<String, String> {
        let [lane, room, apid, flags, count, octets] = numbers;
        let data = data(octets)?;
        if apid > 2_047 || flags > 3 || count >= COUNTS || !(1..=65_536).contains(&octets) {
            return Err("no packet is so".to_string());
        }
        let packet = SpaceHead::new([0, 0, apid, flags, count]).with(&data);
        let mut output = vec![UNTOUCHED; OUTPUT];
        let answer = self.call(lane, &Deed::Packet(&packet), lent(&mut output, room)?);
        Ok(refused(&answer).unwrap_or_else(|| shown(&answer, &output)))
    }

    fn close(&mut self, [lane, room]: [u32; 2]) -> Result<String, String> {
        let mut output = [0; RECORD_OCTETS];
        let answer = self.call(lane, &Deed::Close, lent(&mut output, room)?);
        Ok(refused(&answer).unwrap_or_else(|| record(&Record::taken(&output))))
    }

    /// Gives lane 0 as many packets as a lane may take, which no run file can
    /// hold. What came of them shows in its record.
    fn fill(&mut self) -> String {
        for number in 0..MOST_PACKETS {
            let packet = SpaceHead::new([0, 0, 42, 3, number % COUNTS]).with(&[0]);
            self.call(0, &Deed::Packet(&packet), &mut [0]);
        }
        String::new()
    }

    fn sound(&self) -> String {
        match is_sound(&self.state) {
            true => " sound".to_string(),
            false => " unsound".to_string(),
        }
    }
}

fn settings(numbers: [u32; 5]) -> Result<SettingsNumbers, String> {
    let [station, apid, secondary, share, cap] = numbers;
    Ok(SettingsNumbers {
        station: narrow(station)?,
        apid: narrow(apid)?,
        secondary: narrow(secondary)?,
        share: narrow(share)?,
        cap: narrow(cap)?,
    })
}

fn truth(number: u32) -> Result<u8, String> {
    match number {
        0 | 1 => Ok(number as u8),
        _ => Err(format!("{number} is neither 0 nor 1")),
    }
}

/// With the place, where the packet can't be read.
fn refused(answer: &AnswerNumbers) -> Option<String> {
    match (answer.refusal, answer.fault()) {
        (0, _) => None,
        (_, Some(fault)) => Some(format!(" refused {fault}")),
        (number, None) => Some(format!(" refused {number}")),
    }
}

/// What a packet that isn't refused tells, and of a unit what lies in the output.
fn shown(answer: &AnswerNumbers, output: &[u8]) -> String {
    let step = format!("{} {}", answer.missing, answer.given_up);
    match answer.kind {
        REPEAT => " repeat".to_string(),
        STRAY => format!(" stray {step}"),
        HELD => format!(" held {step}"),
        _ => {
            let octets = answer.octets;
            format!(" unit {step} {octets}{}", about_end(output, octets))
        }
    }
}

#[cfg(test)]
mod tests {
    use super::super::tests::answers;
    use super::{refused, AnswerNumbers, StateNumbers};
    use crate::reader::Fault;

    const HELD: [&str; 3] = [
        "lane 0 1 7 42 0 1 3 0 1 0 0 0 1 257",
        "mark 0 0",
        "mark 1 1",
    ];

    /// The answers to these lines and then to a question for soundness, an
    /// opening, a packet and a closing.
    fn asked(lines: &[&str]) -> Vec<String> {
        let asks = [
            "sound",
            "open 2 7 42 0 0 0",
            "packet 0 20 42 3 1 1",
            "close 0 20",
        ];
        answers(&[lines, &asks].concat())
    }

    #[test]
    fn two_blocks() {
        let lines = [
            "open 3 9 5 0 0 2",
            "packet 3 0 5 1 7 513",
            "packet 3 0 5 1 7 257",
            "packet 3 0 5 0 8 255",
            "packet 3 0 5 0 9 1",
            "close 3 19",
            "close 3 20",
        ];
        let expected = [
            "ok",
            "refused 19",
            "held 0 0",
            "held 0 0",
            "refused 19",
            "refused 9",
            "record 9 5 0 2 0 1",
        ];
        assert_eq!(answers(&lines), expected);
    }

    #[test]
    fn over_the_cap_and_over_the_pool() {
        let lines = [
            "open 0 1 42 0 63 63",
            "open 1 2 43 0 1 2",
            "packet 1 0 43 1 0 513",
            "packet 1 0 43 1 0 257",
            "close 0 20",
            "packet 1 0 43 1 0 513",
            "packet 1 0 43 1 0 257",
        ];
        let expected = [
            "ok",
            "ok",
            "refused 19",
            "refused 27",
            "record 1 42 0 0 0 0",
            "refused 19",
            "held 0 0",
        ];
        assert_eq!(answers(&lines), expected);
    }

    #[test]
    fn a_unit_and_what_lies_in_the_output() {
        let lines = [
            "open 0 7 42 0 0 0",
            "packet 0 4 42 3 9 3",
            "packet 0 2 42 3 5 3",
        ];
        let untouched = " a5".repeat(21);
        let unit = format!("unit 0 0 3 output 00 01 02{untouched} end 02 a5");
        assert_eq!(answers(&lines), ["ok", &unit, "refused 20"]);
    }

    #[test]
    fn states_by_hand() {
        let sound = asked(&HELD);
        assert_eq!(sound[..2], ["sound", "ok"]);
        assert!(sound[2].starts_with("unit 0 1 1 output 00 a5 "));
        assert_eq!(sound[3], "record 7 42 1 2 0 1");
        let twice = asked(&[&HELD[..], &["mark 2 0"]].concat());
        assert_eq!(twice, ["unsound", "refused 24", "refused 24", "refused 24"]);
        let again = asked(&[&HELD[..], &["mark 2 0", "fresh start"]].concat());
        assert_eq!(again[1..], ["sound", "ok", "refused 11", "refused 11"]);
    }

    #[test]
    fn other_pools() {
        for pool in ["pool 0", "pool 16383", "pool 16385"] {
            let answers = asked(&[pool]);
            assert_eq!(answers, ["sound", "refused 24", "refused 24", "refused 24"]);
        }
        assert_eq!(asked(&["pool 0", "pool 16384"])[1], "ok");
    }

    /// The packets of the cases can all be read, so no line shows it.
    #[test]
    fn a_place_where_there_is_one() {
        let state = &StateNumbers::FRESH;
        let fault = Fault {
            number: 7,
            place: 1,
        };
        let unread = AnswerNumbers::unread(&fault, state);
        assert_eq!(refused(&unread).as_deref(), Some(" refused 7 1"));
        let other = AnswerNumbers::refused(15, state);
        assert_eq!(refused(&other).as_deref(), Some(" refused 15"));
        assert_eq!(refused(&AnswerNumbers::refused(0, state)), None);
    }

    #[test]
    fn a_full_lane() {
        let lines = [
            "open 0 7 42 0 0 0",
            "fill",
            "packet 0 1 42 3 0 1",
            "packet 0 1 42 3 16383 1",
            "close 0 20",
        ];
        let expected = [
            "ok",
            "",
            "refused 18",
            "repeat",
            "record 7 42 262144 262144 0 0",
        ];
        assert_eq!(answers(&lines), expected);
    }
}
