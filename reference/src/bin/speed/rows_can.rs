//! What is measured of the CAN side: a report with 256 bytes of payload, split, and all its frames joined, with a list of 128 pairs.

use std::hint::black_box;

use reference::can::frames_of;
use reference::lent_can::{Frame, Joined, Joining, Lists};
use reference::lent_message::Message;
use reference::proved::can;

use crate::quick_can::{self, List};
use crate::rows::{repeat, Row};

const NODE: u64 = 0x0A00_0000_0001;
const EVENT: u64 = 0x0A00_0000_0001_0000;
const PAIRS: usize = 128;
/// The place of the sender's pair.
const PLACE: usize = PAIRS / 2;
const ROOM: usize = 512;

pub fn all() -> Vec<Row> {
    vec![splitting_row(), joining_row()]
}

/// The list of aliases, no alias in order.
#[derive(Clone)]
struct Pairs {
    aliases: [u64; PAIRS],
    nodes: [u64; PAIRS],
}

impl Pairs {
    fn new() -> Pairs {
        Pairs {
            aliases: std::array::from_fn(|place| (0x7AB + 0x9D * place as u64) & 0xFFF),
            nodes: std::array::from_fn(|place| NODE + place as u64),
        }
    }

    fn lent(&mut self) -> Lists<'_> {
        Lists {
            aliases: &mut self.aliases,
            nodes: &mut self.nodes,
        }
    }

    fn list(&self) -> List<'_> {
        List {
            aliases: &self.aliases,
            nodes: &self.nodes,
        }
    }
}

fn payload() -> [u8; 256] {
    std::array::from_fn(|place| place as u8)
}

/// Into the same bytes every time, which are not cleared between the calls.
fn splitting_row() -> Row {
    let pairs = Pairs::new();
    let message = Message {
        mti: 0x0F14,
        source: pairs.nodes[PLACE],
        has_destination: 0,
        destination: 0,
        has_event: 1,
        event: EVENT,
    };
    let expected = can::split(pairs.clone().lent(), message, &payload(), &mut [0; ROOM]);
    assert_eq!((expected.refusal, expected.bytes), (0, 33 * 13));
    let mut out = [0; ROOM];
    can::split(pairs.clone().lent(), message, &payload(), &mut out);
    let quick = |check| {
        let (pairs, payload, mut other) = (pairs.clone(), payload(), [0; ROOM]);
        let list = pairs.list();
        assert_eq!(
            quick_can::split(list, message, &payload, &mut other, check),
            expected
        );
        assert_eq!(out, other);
        repeat(move || {
            let list = black_box(&pairs).list();
            let message = *black_box(&message);
            quick_can::split(
                list,
                message,
                black_box(&payload),
                black_box(&mut other),
                check,
            )
        })
    };
    let (checked, unchecked) = (quick(true), quick(false));
    let (mut pairs, payload) = (pairs, payload());
    Row {
        name: "split-256".to_string(),
        calls: [
            Some(repeat(move || {
                let lists = black_box(&mut pairs).lent();
                let message = *black_box(&message);
                can::split(lists, message, black_box(&payload), black_box(&mut out))
            })),
            None,
            Some(checked),
            Some(unchecked),
            None,
        ],
    }
}

/// All 33 frames, one after the other, from a state in which nobody has begun anything to the message that is handed out.
fn joining_row() -> Row {
    let mut pairs = Pairs::new();
    let frames = frames_of(pairs.aliases[PLACE], EVENT, &payload());
    let frames: Vec<Frame> = frames.iter().map(Frame::of).collect();
    assert_eq!(frames.len(), 33);
    let proved = join_all(&frames, |state, frame| {
        can::join(pairs.lent(), state, frame)
    });
    assert_eq!(
        (proved.refusal, proved.mti, proved.state.count),
        (0, 0x0F14, 0)
    );
    assert_eq!(proved.message.sender, pairs.nodes[PLACE]);
    assert_eq!(
        (proved.message.event, proved.message.payload),
        (EVENT, payload())
    );
    let quick = |check| {
        let (pairs, frames) = (pairs.clone(), frames.clone());
        let join = move |state: &Joining, frame| {
            quick_can::join(black_box(&pairs).list(), *state, frame, check)
        };
        let joined = join_all(&frames, &join);
        assert_eq!(
            (joined.refusal, joined.mti, joined.state.count),
            (0, 0x0F14, 0)
        );
        assert_eq!(joined.message, proved.message);
        repeat(move || join_all(black_box(&frames), &join))
    };
    let (checked, unchecked) = (quick(true), quick(false));
    Row {
        name: "join-256".to_string(),
        calls: [
            Some(repeat(move || {
                join_all(black_box(&frames), |state, frame| {
                    can::join(black_box(&mut pairs).lent(), state, frame)
                })
            })),
            None,
            Some(checked),
            Some(unchecked),
            None,
        ],
    }
}

/// The last answer.
fn join_all(frames: &[Frame], mut join: impl FnMut(&Joining, Frame) -> Joined) -> Joined {
    let mut joined = join(&Joining::EMPTY, frames[0]);
    for frame in &frames[1..] {
        joined = join(&joined.state, *frame);
    }
    joined
}
