//! The inputs on which two programs are compared. They are the same in every run.

pub(crate) mod chance;
mod exact;
mod limits;
pub(crate) mod packets;
mod single;

use std::collections::HashSet;

pub type Inputs = Vec<Vec<u8>>;

const LONGEST_SHORT: usize = 600;

/// Every input once, in a fixed order.
pub fn all() -> Inputs {
    let families = [
        exact::paper_cases(),
        exact::first_octets(),
        exact::space_fields(),
        exact::encap_fields(),
        exact::cut_short_packets(),
        exact::cut_long_packets(),
        limits::space_lengths(),
        limits::encap_lengths(),
        limits::input_lengths(),
        single::filled_packets(),
        single::empty_packets(),
        chance::runs(),
        chance::damaged_runs(),
        chance::shifted_runs(),
        chance::wrong_after_good(),
        chance::noise(),
        chance::leaning_noise(),
    ];
    let mut seen = HashSet::new();
    let mut inputs = families.concat();
    inputs.retain(|input| seen.insert(input.clone()));
    inputs
}

/// The inputs for the cases, which print each octet: none so long that it
/// would only add to the printing, and not the empty one, which adds no case.
pub fn short() -> Inputs {
    let mut inputs = all();
    inputs.retain(|input| (1..=LONGEST_SHORT).contains(&input.len()));
    inputs
}

#[cfg(test)]
mod tests {
    use super::*;
    use crate::faults;
    use crate::lister::LONGEST_INPUT;
    use crate::reader::{read, Packet};
    use crate::walk::walk;
    use std::collections::HashMap;

    /// Where a packet stands in a run.
    const FRONT: &str = ", at the front";
    const LATER: &str = ", later";

    /// How often each thing that a comparison should meet is met.
    fn tally(inputs: &Inputs) -> HashMap<String, usize> {
        let mut tally = HashMap::new();
        for input in inputs.iter().filter(|input| input.len() <= LONGEST_INPUT) {
            for (offset, answer) in walk(input) {
                let stands = if offset == 0 { FRONT } else { LATER };
                let what = match answer {
                    Ok(Packet::Space(p)) => format!("space {} {}", p.packet_type, p.flags),
                    Ok(Packet::Encap(p)) => format!("encap {} {}", p.protocol, p.header_octets),
                    Err(fault) => format!("refused {}", faults::kind(&fault)),
                };
                *tally.entry(format!("{what}{stands}")).or_default() += 1;
            }
        }
        tally
    }

    /// All refusals at all their places, both types with all flags, and all
    /// protocols in all the header sizes that may carry them, each at the front
    /// and later.
    fn everything() -> Vec<String> {
        let faults = faults::KINDS.iter();
        let walked = faults.filter(|kind| **kind != faults::NO_OCTETS);
        let mut whats: Vec<String> = walked.map(|kind| format!("refused {kind}")).collect();
        for packet_type in 0..2 {
            whats.extend((0..4).map(|flags| format!("space {packet_type} {flags}")));
        }
        whats.push("encap 0 1".to_string());
        for protocol in 0..8 {
            let sizes: &[usize] = if protocol == 6 { &[4, 8] } else { &[2, 4, 8] };
            whats.extend(sizes.iter().map(|size| format!("encap {protocol} {size}")));
        }
        let both = |what: &String| [FRONT, LATER].map(|stands| format!("{what}{stands}"));
        whats.iter().flat_map(both).collect()
    }

    #[test]
    fn meet_everything_at_the_front_and_later() {
        requires(10, &everything(), &tally(&all()));
        requires(10, &everything(), &tally(&short()));
    }

    fn requires(least: usize, things: &[String], tally: &HashMap<String, usize>) {
        for thing in things {
            let times = tally.get(thing).copied().unwrap_or(0);
            assert!(times >= least, "{thing} is met only {times} times");
        }
    }

    /// How often each thing that the cases show, but a listing doesn't, is met
    /// at the front of a short input.
    fn tally_of_fronts() -> HashMap<String, usize> {
        let mut tally = HashMap::new();
        for input in short() {
            let things = read(&input).map(|packet| things(&packet, input.len()));
            for thing in things.unwrap_or_default() {
                *tally.entry(thing).or_default() += 1;
            }
        }
        tally
    }

    fn things(packet: &Packet<'_>, input_octets: usize) -> Vec<String> {
        let after = packet.octets() < input_octets;
        match packet {
            Packet::Space(p) => vec![space_thing(p.packet_type, p.secondary, after)],
            Packet::Encap(p) => {
                let size = p.header_octets;
                let mut things = vec![content_thing(p.content.is_empty(), size, after)];
                // A user field that isn't there is no field of value 0.
                if size >= 4 {
                    things.push(format!("user {} in {size}", p.user));
                }
                if p.protocol == 6 {
                    things.push(format!("extension {} in {size}", p.extension));
                }
                things
            }
        }
    }

    fn space_thing(packet_type: u32, secondary: u32, after: bool) -> String {
        format!("type {packet_type} secondary {secondary} octets after {after}")
    }

    fn content_thing(empty: bool, size: usize, after: bool) -> String {
        format!("empty {empty} in {size} octets after {after}")
    }

    #[test]
    fn meet_every_field_at_the_front_of_short_ones() {
        let mut things = Vec::new();
        for after in [false, true] {
            for bits in 0..4 {
                things.push(space_thing(bits & 1, bits >> 1, after));
            }
            things.extend([2, 4, 8].map(|size| content_thing(false, size, after)));
            things.extend([4, 8].map(|size| content_thing(true, size, after)));
        }
        things.extend([1, 2].map(|size| content_thing(true, size, true)));
        for nibble in 0..16 {
            things.extend([4, 8].map(|size| format!("user {nibble} in {size}")));
            things.extend([4, 8].map(|size| format!("extension {nibble} in {size}")));
        }
        let tally = tally_of_fronts();
        requires(10, &things, &tally);
        // E0 alone and E1 02 alone: there are no others of their kind.
        let only = [1, 2].map(|size| content_thing(true, size, false));
        requires(1, &only, &tally);
    }

    #[test]
    fn show_many_different_data_at_the_front_of_short_ones() {
        let (mut spaces, mut encaps) = (HashSet::new(), HashSet::new());
        for input in short() {
            match read(&input) {
                Ok(Packet::Space(p)) => spaces.insert(p.data.to_vec()),
                Ok(Packet::Encap(p)) => encaps.insert(p.content.to_vec()),
                Err(_) => false,
            };
        }
        assert!(spaces.len() >= 500, "only {} data fields", spaces.len());
        assert!(encaps.len() >= 500, "only {} contents", encaps.len());
    }

    #[test]
    fn have_every_length_that_the_cases_take_up_to_100() {
        let lengths: HashSet<usize> = short().iter().map(Vec::len).collect();
        assert!((1..=100).all(|length| lengths.contains(&length)));
        assert!(lengths.iter().all(|length| (1..=600).contains(length)));
    }

    #[test]
    fn are_thousands_and_the_same_each_time() {
        let inputs = all();
        assert!(inputs.len() >= 4_000, "only {} inputs", inputs.len());
        assert!(inputs == all());
    }

    #[test]
    fn show_a_place_that_two_octets_cannot_hold() {
        let inputs = all();
        let faults = inputs.iter().filter_map(|input| read(input).err());
        assert!(faults.map(|fault| fault.place).max() > Some(65_535));
        // Reading no octets is compared too, and refused.
        assert!(inputs.contains(&Vec::new()));
    }

    #[test]
    fn have_every_short_length_and_those_at_the_limit() {
        let lengths: HashSet<usize> = all().iter().map(Vec::len).collect();
        let near = [65_535, 65_536, 65_537, 70_000];
        for length in (0..=100).chain(near) {
            assert!(lengths.contains(&length), "no input of {length} octets");
        }
    }

    #[test]
    fn single_packets_are_good() {
        for input in [single::filled_packets(), single::empty_packets()].concat() {
            assert!(read(&input).is_ok(), "{input:02x?}");
        }
    }

    #[test]
    fn undamaged_runs_are_never_refused() {
        for input in chance::runs() {
            assert!(walk(&input).all(|(_, answer)| answer.is_ok()));
            assert!(walk(&input).count() >= 2);
        }
    }
}
