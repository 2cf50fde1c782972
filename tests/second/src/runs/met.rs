//! Counts what the runs met, and judges whether it was enough.

use super::situations::{self, Past};
use crate::faults;
use crate::lanes::Lanes;
use crate::replay::Told;
use crate::run_file::Call;
use std::collections::BTreeMap;

/// Fewer than these are too few, unless a thing has a floor of its own.
const FLOOR: usize = 20;

/// Things that few files can show, most of them for their length.
const SELDOM: [(&str, usize); 4] = [
    ("file of the longest length", 4),
    ("file that is too long", 4),
    ("file without octets", 1),
    ("file of more than 50,000 calls", 2),
];

/// Beside those of reading. What no run can meet: 18 needs 262,144 packets and a
/// run file has no room for 62,000; 24 and 25 need a state that is not sound or
/// another pool, and calls from a fresh start lead to neither.
const PACKET_REFUSALS: [u8; 10] = [11, 12, 13, 14, 15, 16, 17, 19, 20, 27];

#[derive(Default)]
pub struct Met {
    times: BTreeMap<String, usize>,
    pub files: usize,
    pub calls: usize,
    /// How the run stood before the call that is looked at.
    pub past: Past,
}

impl Met {
    pub fn add(&mut self, thing: impl Into<String>) {
        *self.times.entry(thing.into()).or_default() += 1;
    }

    pub fn add_if(&mut self, thing: &str, holds: bool) {
        if holds {
            self.add(thing);
        }
    }

    pub fn call(&mut self, call: &Call, told: &Told, lanes: &Lanes) {
        self.calls += 1;
        self.add(answer(call, told));
        situations::after(self, call, told, lanes);
    }

    pub fn file(&mut self, file: &[u8], text: &str) {
        self.files += 1;
        situations::of_file(self, file, text);
    }

    fn times(&self, thing: &str) -> usize {
        self.times.get(thing).copied().unwrap_or(0)
    }

    /// Begins another run, where no file is counted.
    pub fn next_run(&mut self) {
        self.files += 1;
        self.past = Past::default();
    }

    /// How many things the calls met often enough, whatever their files were;
    /// or what they met too seldom.
    pub fn by_calls(&self) -> Result<usize, String> {
        let mut things = expected();
        things.retain(|(thing, _)| !thing.starts_with("file "));
        self.none_seldom(&things)?;
        Ok(things.len())
    }

    fn none_seldom(&self, things: &[(String, usize)]) -> Result<(), String> {
        let seldom: String = things
            .iter()
            .filter(|(thing, floor)| self.times(thing) < *floor)
            .map(|(thing, floor)| format!("met {} times of {floor}: {thing}\n", self.times(thing)))
            .collect();
        match seldom.is_empty() {
            true => Ok(()),
            false => Err(seldom),
        }
    }

    /// A line for each thing that should be met, or what was met too seldom.
    pub fn table(&self) -> Result<String, String> {
        let things = expected();
        self.none_seldom(&things)?;
        let line = |(thing, _): &(String, usize)| format!("{:>9}  {thing}\n", self.times(thing));
        let lines: String = things.iter().map(line).collect();
        let (files, calls) = (self.files, self.calls);
        Ok(format!(
            "{lines}{files} runs of {calls} calls replayed alike\n"
        ))
    }
}

/// Every thing that the runs should meet, with the least number of times.
fn expected() -> Vec<(String, usize)> {
    let mut things = vec!["open: ok".to_string()];
    things.extend([11, 21, 22, 23].map(|number| format!("open: refused {number}")));
    things.extend(faults::KINDS.map(|kind| format!("packet: refused {kind}")));
    things.extend(PACKET_REFUSALS.map(|number| format!("packet: refused {number}")));
    things.push("packet: repeat".to_string());
    for kind in ["stray", "held", "unit"] {
        for missing in ["0", "some"] {
            let steps = ["0", "1"].map(|gave_up| format!("packet: {kind} {missing} {gave_up}"));
            things.extend(steps);
        }
    }
    // Only a gap gives up the group of a packet that is then a stray.
    things.retain(|thing| thing != "packet: stray 0 1");
    things.push("close: record".to_string());
    things.extend([9, 11].map(|number| format!("close: refused {number}")));
    things.extend(situations::NAMES.map(str::to_string));
    let floor = |thing: &str| {
        let own = SELDOM.iter().find(|(name, _)| *name == thing);
        own.map_or(FLOOR, |(_, floor)| *floor)
    };
    let with_floor = |thing: String| (thing.clone(), floor(&thing));
    things.into_iter().map(with_floor).collect()
}

fn answer(call: &Call, told: &Told) -> String {
    let kind = match call {
        Call::Open { .. } => "open",
        Call::Packet { .. } => "packet",
        Call::Close { .. } => "close",
    };
    let (name, step) = match told {
        Told::Opened => ("ok", None),
        Told::Repeat => ("repeat", None),
        Told::Closed(_) => ("record", None),
        Told::Unread(fault) => return format!("{kind}: refused {}", faults::kind(fault)),
        Told::Refused(number) => return format!("{kind}: refused {number}"),
        Told::Stray(step) => ("stray", Some(step)),
        Told::Held(step) => ("held", Some(step)),
        Told::Unit(step, ..) => ("unit", Some(step)),
    };
    let Some(step) = step else {
        return format!("{kind}: {name}");
    };
    let missing = if step.missing == 0 { "0" } else { "some" };
    format!("{kind}: {name} {missing} {}", u8::from(step.gave_up))
}
