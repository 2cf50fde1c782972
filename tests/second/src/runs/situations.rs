//! Situations that the runs should lead to, beside the answers themselves.

use super::longest::LONGEST_UNIT;
use super::met::Met;
use crate::lanes::{blocks_for, Lane, Lanes, Settings, BLOCKS, BLOCK_OCTETS, LANES};
use crate::reader::{read, Packet, Space};
use crate::record::RECORD_OCTETS;
use crate::replay::{Told, LONGEST_RUN, MOST_SPACE};
use crate::run_file::Call;
use std::collections::BTreeMap;

/// In the order in which they are printed.
pub const NAMES: [&str; 59] = [
    "open: eight lanes then",
    "open: station and APID of another lane",
    "open: secondary length 0",
    "open: secondary length 1",
    "open: secondary length 63",
    "open: secondary length 64, refused",
    "open: share 0",
    "open: share 64",
    "open: cap 0",
    "open: cap 64",
    "open: 64 blocks promised then",
    "open: refused for one block",
    "packet: refused 11 over 7",
    "packet: refused 11 not open",
    "packet: refused 19 with cap 0",
    "packet: refused 19 for one block",
    "packet: refused 19, an older group stays",
    "packet: refused 19, no other lane open",
    "packet: refused 19, the others in the way too",
    "packet: refused 27 below the cap",
    "packet: refused 27 at the cap",
    "packet: refused 27 for one block",
    "packet: refused 27, an older group stays",
    "packet: refused 27, enough blocks free",
    "packet: refused 20 for one octet",
    "packet: refused 20 with space 0",
    "packet: no octets",
    "packet: the count after 16383",
    "packet: missing 16382",
    "packet: a step back",
    "packet: repeat with an open group",
    "packet: empty, flags 0",
    "packet: empty, flags 1",
    "packet: empty, flags 2",
    "packet: empty, flags 3",
    "packet: held, eight groups then",
    "packet: held, as many blocks as its share",
    "packet: held, more blocks than its share",
    "packet: held, as many blocks as its cap",
    "packet: held, a group of no octets",
    "packet: held, its last block just full",
    "packet: held, a later block below an earlier",
    "packet: held, all 64 blocks then",
    "packet: held, all 64 blocks again",
    "packet: held, refused 27 before",
    "packet: unit, exact space",
    "packet: unit, space 4294967295",
    "packet: unit, space over 131072",
    "packet: unit of 81920 octets",
    "packet: unit of 81920 octets, one short",
    "close: an open group",
    "close: space 19",
    "close: space 20",
    "file cut off in a call",
    "file with another first octet",
    "file without octets",
    "file of the longest length",
    "file that is too long",
    "file of more than 50,000 calls",
];

/// What the lanes were before a call, as far as it matters here.
#[derive(Default)]
pub struct Past {
    /// The lanes with an open group.
    groups: Vec<u8>,
    /// Whether all blocks were held once, and whether some were free since.
    was_full: bool,
    freed: bool,
    /// Of each open lane the last packet that was refused 27.
    kept_out: BTreeMap<u8, Vec<u8>>,
}

impl Past {
    fn move_on(&mut self, lanes: &Lanes) {
        let has_group = |lane: &u8| group_octets(lanes, *lane).is_some();
        self.groups = (0..LANES).filter(has_group).collect();
        let full = lanes.blocks_held().len() == BLOCKS;
        self.freed = self.was_full && (self.freed || !full);
        self.was_full |= full;
        self.kept_out.retain(|lane, _| lanes.lane(*lane).is_some());
    }
}

fn group_octets(lanes: &Lanes, lane: u8) -> Option<usize> {
    let group = lanes.lane(lane)?.group.as_ref()?;
    Some(group.octets.len())
}

/// Counts the situations that hold after a call.
pub fn after(met: &mut Met, call: &Call, told: &Told, lanes: &Lanes) {
    match call {
        Call::Open { settings, .. } => opening(met, settings, told, lanes),
        Call::Close { lane, space } => closing(met, *lane, *space, told),
        Call::Packet {
            lane,
            space,
            octets,
        } => {
            met.add_if("packet: no octets", octets.is_empty());
            let not_open = *told == Told::Refused(11);
            met.add_if("packet: refused 11 over 7", not_open && *lane >= LANES);
            met.add_if("packet: refused 11 not open", not_open && *lane < LANES);
            kept_out(met, *lane, octets, told);
            if let (Some(open), Ok(Packet::Space(packet))) = (lanes.lane(*lane), read(octets)) {
                let sent = Sent::new(open, &packet, *space);
                sent.no_room(met, told, lanes);
                sent.no_space(met, told);
                sent.accepted(met, told);
                sent.held(met, told, lanes);
                sent.unit(met, told);
            }
        }
    }
    met.past.move_on(lanes);
}

fn opening(met: &mut Met, settings: &Settings, told: &Told, lanes: &Lanes) {
    let promised = lanes.blocks_promised();
    let one_over = usize::from(settings.share) + promised == BLOCKS + 1;
    met.add_if(
        "open: refused for one block",
        *told == Told::Refused(23) && one_over,
    );
    let too_long = *told == Told::Refused(22) && settings.secondary == 64;
    met.add_if("open: secondary length 64, refused", too_long);
    if *told != Told::Opened {
        return;
    }
    let name = |lane: &Lane| (lane.settings.station, lane.settings.apid);
    let own = (settings.station, settings.apid);
    let alike = lanes.open_lanes().filter(|lane| name(lane) == own).count();
    met.add_if("open: eight lanes then", lanes.open_lanes().count() == 8);
    met.add_if("open: station and APID of another lane", alike > 1);
    met.add_if("open: 64 blocks promised then", promised == BLOCKS);
    for (name, number) in [
        ("secondary length", settings.secondary),
        ("share", settings.share),
        ("cap", settings.cap),
    ] {
        met.add(format!("open: {name} {number}"));
    }
}

fn closing(met: &mut Met, lane: u8, space: u32, told: &Told) {
    let closed = matches!(told, Told::Closed(_));
    let with_group = met.past.groups.contains(&lane);
    met.add_if("close: an open group", closed && with_group);
    let short = *told == Told::Refused(9) && space as usize == RECORD_OCTETS - 1;
    met.add_if("close: space 19", short);
    met.add_if("close: space 20", closed && space as usize == RECORD_OCTETS);
}

/// Whether a packet that the other lanes kept out is held when it comes again.
fn kept_out(met: &mut Met, lane: u8, octets: &[u8], told: &Told) {
    let before = met.past.kept_out.get(&lane);
    let again = before.is_some_and(|before| before == octets);
    let held = matches!(told, Told::Held(_));
    met.add_if("packet: held, refused 27 before", held && again);
    if *told == Told::Refused(27) {
        met.past.kept_out.insert(lane, octets.to_vec());
    }
}

/// A packet sent to an open lane, and the lane after it.
struct Sent<'a> {
    lane: &'a Lane,
    packet: &'a Space<'a>,
    user: usize,
    space: usize,
}

impl<'a> Sent<'a> {
    fn new(lane: &'a Lane, packet: &'a Space<'a>, space: u32) -> Self {
        let secondary = usize::from(lane.settings.secondary);
        Sent {
            lane,
            packet,
            user: packet.data.len().saturating_sub(secondary),
            space: space as usize,
        }
    }

    /// The octets of group and user data together, for a packet that was
    /// refused and so left the group.
    fn together(&self) -> usize {
        let group = self
            .lane
            .group
            .as_ref()
            .map_or(0, |group| group.octets.len());
        match self.packet.flags {
            0 | 2 => group + self.user,
            _ => self.user,
        }
    }

    fn no_room(&self, met: &mut Met, told: &Told, lanes: &Lanes) {
        let cap = usize::from(self.lane.settings.cap);
        let wanted = blocks_for(self.together());
        let stays = self.packet.flags == 1 && self.lane.group.is_some();
        // A lane that lacks room wants more than its share.
        let promised = wanted + lanes.blocks_promised_beside(self.lane);
        if *told == Told::Refused(19) {
            let alone = lanes.open_lanes().count() == 1;
            // Wanting more than the pool has is too much without others.
            let others_too = wanted <= BLOCKS && promised > BLOCKS;
            met.add_if("packet: refused 19 with cap 0", cap == 0);
            met.add_if("packet: refused 19 for one block", wanted == cap + 1);
            met.add_if("packet: refused 19, an older group stays", stays);
            met.add_if("packet: refused 19, no other lane open", alone);
            met.add_if("packet: refused 19, the others in the way too", others_too);
        }
        if *told == Told::Refused(27) {
            let held_beside = lanes.blocks_held().len() - self.lane.blocks_held();
            let free = wanted + held_beside <= BLOCKS;
            met.add_if("packet: refused 27 below the cap", wanted < cap);
            met.add_if("packet: refused 27 at the cap", wanted == cap);
            met.add_if("packet: refused 27 for one block", promised == BLOCKS + 1);
            met.add_if("packet: refused 27, an older group stays", stays);
            met.add_if("packet: refused 27, enough blocks free", free);
        }
    }

    fn no_space(&self, met: &mut Met, told: &Told) {
        if *told == Told::Refused(20) {
            let one_short = self.space + 1 == self.together();
            let longest = one_short && self.together() == LONGEST_UNIT;
            met.add_if("packet: refused 20 for one octet", one_short);
            met.add_if("packet: refused 20 with space 0", self.space == 0);
            met.add_if("packet: unit of 81920 octets, one short", longest);
        }
    }

    fn accepted(&self, met: &mut Met, told: &Told) {
        let with_group = *told == Told::Repeat && self.lane.group.is_some();
        met.add_if("packet: repeat with an open group", with_group);
        let (Told::Stray(step) | Told::Held(step) | Told::Unit(step, ..)) = told else {
            return;
        };
        let later = self.lane.packets() > 1;
        let wraps = later && step.missing == 0 && self.packet.count == 0;
        met.add_if("packet: the count after 16383", wraps);
        met.add_if("packet: missing 16382", step.missing == 16_382);
        met.add_if("packet: a step back", step.missing > 16_300);
        if self.user == 0 {
            met.add(format!("packet: empty, flags {}", self.packet.flags));
        }
    }

    fn held(&self, met: &mut Met, told: &Told, lanes: &Lanes) {
        let (Told::Held(_), Some(group)) = (told, &self.lane.group) else {
            return;
        };
        let (blocks, settings) = (group.blocks.len(), &self.lane.settings);
        let groups = lanes.open_lanes().filter(|lane| lane.group.is_some());
        let eight = groups.count() == 8;
        let at_share = blocks > 0 && blocks == settings.share.into();
        let at_cap = blocks > 0 && blocks == settings.cap.into();
        let just_full = blocks > 0 && group.octets.len() % BLOCK_OCTETS == 0;
        let full = lanes.blocks_held().len() == BLOCKS;
        let again = full && met.past.freed;
        let falls = group.blocks.windows(2).any(|pair| pair[1] < pair[0]);
        met.add_if("packet: held, eight groups then", eight);
        met.add_if("packet: held, as many blocks as its share", at_share);
        met.add_if(
            "packet: held, more blocks than its share",
            blocks > settings.share.into(),
        );
        met.add_if("packet: held, as many blocks as its cap", at_cap);
        met.add_if(
            "packet: held, a group of no octets",
            group.octets.is_empty(),
        );
        met.add_if("packet: held, its last block just full", just_full);
        met.add_if("packet: held, a later block below an earlier", falls);
        met.add_if("packet: held, all 64 blocks then", full);
        met.add_if("packet: held, all 64 blocks again", again);
    }

    fn unit(&self, met: &mut Met, told: &Told) {
        let Told::Unit(_, length, _) = told else {
            return;
        };
        met.add_if("packet: unit, exact space", self.space == *length);
        met.add_if(
            "packet: unit, space 4294967295",
            self.space == u32::MAX as usize,
        );
        met.add_if("packet: unit, space over 131072", self.space > MOST_SPACE);
        met.add_if("packet: unit of 81920 octets", *length == LONGEST_UNIT);
    }
}

/// Counts what a whole file shows by its length and by how its text ends.
pub fn of_file(met: &mut Met, file: &[u8], text: &str) {
    let bad = text
        .lines()
        .rev()
        .nth(1)
        .and_then(|line| line.strip_suffix(" bad"));
    let bad: Option<usize> = bad.map(|offset| offset.parse().expect("a number"));
    if let Some(offset) = bad {
        let known = b"OPC".contains(&file[offset]);
        met.add_if("file cut off in a call", known);
        met.add_if("file with another first octet", !known);
    }
    met.add_if("file without octets", file.is_empty());
    met.add_if("file of the longest length", file.len() == LONGEST_RUN);
    met.add_if("file that is too long", file.len() > LONGEST_RUN);
    met.add_if(
        "file of more than 50,000 calls",
        text.lines().count() > 50_001,
    );
    met.past = Past::default();
}
