use super::hand::{self, Case, Given, Gives, Step};
use super::*;
use crate::hex;

/// Beyond what a state's piece may be, the buffer holds this.
const FILL: u8 = 0xB5;

/// What this program's own rule gives in a step, with everything that it should
/// leave alone looked at.
fn given(frames: &mut Frames, buffer: &mut Vec<u8>, step: &Step) -> Gives {
    buffer.resize(step.buffer, FILL);
    let (before, old) = (*frames, buffer.clone());
    let mut output = vec![0xEE; step.room];
    let frame = Frame {
        count: step.count,
        pointer: step.pointer,
        field: &step.field,
    };
    let answer = frames.take(&frame, buffer, &mut output);
    let Ok(Answer::Taken(taken)) = answer else {
        assert!(*frames == before && *buffer == old, "something changed");
        assert!(output.iter().all(|octet| *octet == 0xEE));
        return answer.map_or_else(|Refusal(number)| Gives::Refused(number), |_| Gives::Repeat);
    };
    assert_eq!((frames.started, frames.count.into()), (true, step.count));
    assert!(buffer[frames.piece..] == old[frames.piece..]);
    assert!(output[taken.octets..].iter().all(|octet| *octet == 0xEE));
    Gives::Taken(Given {
        packets: taken.packets,
        out: output[..taken.octets].to_vec(),
        given_up: taken.gave_up(),
        dropped: taken.dropped(),
        piece: buffer[..frames.piece].to_vec(),
    })
}

fn holds(case: &Case) {
    let mut frames = case.state;
    let mut buffer = case.piece.clone();
    buffer.resize(BUFFER_OCTETS, FILL);
    for (place, step) in case.steps.iter().enumerate() {
        let gives = given(&mut frames, &mut buffer, step);
        assert!(
            gives == step.gives,
            "{}, step {place}: expected {:?}\ngot {gives:?}",
            case.name,
            step.gives
        );
    }
}

#[test]
fn the_cases_by_hand() {
    let cases = hand::all();
    assert!(cases.len() > 350, "only {} cases", cases.len());
    cases.iter().for_each(holds);
    let files = cases.iter().filter_map(Case::file);
    assert!(files.count() > 90);
}

#[test]
fn what_octets_are() {
    let seen = |text: &str| seen(&hex::octets(text));
    assert_eq!(seen(""), Seen::Unfinished);
    assert_eq!(seen("E0 20"), Seen::Packet(1));
    assert_eq!(seen("00 2A C0 05 00 01 AA BB CC"), Seen::Packet(8));
    assert_eq!(seen("00 2A C0 05 00 01 AA"), Seen::Unfinished);
    assert_eq!(seen("00 2A C0 05 1F F9"), Seen::Unfinished);
    assert_eq!(seen("00 2A C0 05 1F FA"), Seen::TooLong);
    assert_eq!(seen("00 2A C0 05 FF"), Seen::Unfinished);
    assert_eq!(seen("F9"), Seen::Unfinished);
    assert_eq!(seen("F9 03"), Seen::Refused(7));
    assert_eq!(seen("EB 00 00 00 00 01 00 07"), Seen::Refused(5));
    let whole = [&hex::octets("00 2A C0 05 1F F9")[..], &[0; 8_187]].concat();
    assert_eq!(super::seen(&whole), Seen::Packet(8_192));
    let longer = [&hex::octets("00 2A C0 05 1F FA")[..], &[0; 8_187]].concat();
    assert_eq!(super::seen(&longer), Seen::TooLong);
}

#[test]
fn every_ground_of_28_by_itself_and_all_at_once() {
    let grounds = |state: Frames, count, pointer, octets: usize, buffer| {
        let field = vec![0xE0; octets];
        let frame = Frame {
            count,
            pointer,
            field: &field,
        };
        state.grounds(&frame, buffer)
    };
    let fresh = Frames::default();
    let long = Frames {
        piece: 8_192,
        ..fresh
    };
    assert_eq!(grounds(fresh, 255, 7, 8, 8_192), [""; 0]);
    assert_eq!(grounds(fresh, 0, 6, 7, 8_192), GROUNDS[..1]);
    assert_eq!(grounds(fresh, 0, 0, 2_047, 8_192), GROUNDS[1..2]);
    assert_eq!(grounds(fresh, 0, 0, 8, 8_191), GROUNDS[2..3]);
    assert_eq!(grounds(fresh, 256, 0, 8, 8_192), GROUNDS[3..4]);
    assert_eq!(grounds(fresh, 0, 8, 8, 8_192), GROUNDS[4..5]);
    assert_eq!(grounds(long, 0, 0, 8, 8_192), GROUNDS[5..]);
    assert_eq!(grounds(long, 256, 2_048, 2_048, 0), GROUNDS[1..]);
}
