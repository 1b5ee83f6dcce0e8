//! What is joined, and what is refused (02, W3).

use super::*;
use crate::can::{frames_of, split};
use crate::message::Message;

const A: u64 = 0x0A0000000001;
const B: u64 = 0x0A0000000002;
const C: u64 = 0x0A0000000003;
const EVENT: u64 = 0x0A00000000010001;

/// A has alias 2, B has 3 and C has 1: no alias is its place.
fn list() -> Aliases {
    Aliases::of(&[(3, B), (1, C), (2, A)])
}

fn alias(sender: u64) -> u64 {
    list().alias_of(sender).unwrap()
}

fn payload(length: usize) -> Vec<u8> {
    (0..length).map(|place| place as u8 ^ 0x80).collect()
}

fn frames(sender: u64, event: u64, length: usize) -> Vec<Frame> {
    frames_of(alias(sender), event, &payload(length))
}

fn gathered(sender: u64, event: u64, payload: &[u8]) -> Gathered {
    Gathered {
        sender,
        event,
        payload: payload.to_vec(),
    }
}

fn handed_out(mti: u16, sender: u64, event: u64, payload: &[u8]) -> Joined {
    Joined {
        refusal: 0,
        report: Some((mti, gathered(sender, event, payload))),
    }
}

fn refused(refusal: u8) -> Joined {
    Joined {
        refusal,
        report: None,
    }
}

/// Joins frames one after the other; what came of the last.
fn join_all(joining: &mut Joining, frames: &[Frame]) -> Joined {
    let mut last = refused(0);
    for frame in frames {
        last = joining.join(&list(), frame);
    }
    last
}

/// A state in which these have begun, each with so many bytes.
fn state(begun: &[(u64, usize)]) -> Joining {
    let one = |(sender, length): &(u64, usize)| gathered(*sender, EVENT, &payload(*length));
    Joining {
        unfinished: begun.iter().map(one).collect(),
    }
}

/// Joins a frame that is refused; 18 aside the state stays.
fn refusal_in(state: &Joining, list: &Aliases, frame: Frame) -> u8 {
    let mut after = state.clone();
    let joined = after.join(list, &frame);
    assert_eq!(joined.report, None);
    assert!(joined.refusal == 18 || after == *state);
    joined.refusal
}

/// 02, W3, "Splitting then joining gives the message back": every length, and nothing is left behind.
#[test]
fn split_then_joined() {
    for length in 0..=256 {
        let mti = if length == 0 { 0x05B4 } else { 0x0F14 };
        let message = Message {
            mti,
            source: A,
            destination: None,
            event: Some(EVENT),
        };
        let frames = split(&list(), &message, &payload(length), 429).unwrap();
        let mut joining = Joining::default();
        for (place, frame) in frames[..frames.len() - 1].iter().enumerate() {
            assert_eq!(joining.join(&list(), frame), refused(0));
            assert_eq!(joining, state(&[(A, 8 * place)]));
        }
        let last = joining.join(&list(), &frames[frames.len() - 1]);
        assert_eq!(last, handed_out(mti, A, EVENT, &payload(length)));
        assert_eq!(joining, Joining::default());
    }
}

/// 02, W3, 18: at 256 bytes it is handed out, at 257 to 264 it is dropped, and what comes after has no start.
#[test]
fn longest_payload() {
    for length in 257..=264 {
        let mut joining = Joining::default();
        let frames = frames(A, EVENT, length);
        assert_eq!(join_all(&mut joining, &frames), refused(18));
        assert_eq!(joining, Joining::default());
    }
    for (begun, more, refusal) in [
        (248, 8, 0),
        (249, 8, 18),
        (256, 8, 18),
        (255, 1, 0),
        (256, 1, 18),
    ] {
        let part = if more == 8 { Part::Middle } else { Part::Last };
        let frame = Frame::of(part, alias(A), &payload(more));
        let mut joining = state(&[(B, 9), (A, begun)]);
        assert_eq!(joining.join(&list(), &frame).refusal, refusal);
        let left = if refusal == 18 {
            1
        } else {
            1 + usize::from(part == Part::Middle)
        };
        assert_eq!(joining.unfinished.len(), left);
        assert_eq!(joining.unfinished[0], gathered(B, EVENT, &payload(9)));
    }
    let mut joining = state(&[(A, 256), (B, 256)]);
    let more = Frame::of(Part::Middle, alias(A), &[7; 8]);
    assert_eq!(joining.join(&list(), &more), refused(18));
    assert_eq!(joining, state(&[(B, 256)]));
    assert_eq!(joining.join(&list(), &more), refused(17));
    let next = frames(A, EVENT + 1, 17);
    let expected = handed_out(0x0F14, A, EVENT + 1, &payload(17));
    assert_eq!(join_all(&mut joining, &next), expected);
}

/// 02, W3, "also with a second sender's frames in between": frame by frame, with a 05B4 of both in between too.
#[test]
fn two_at_once() {
    let (ours, theirs) = (frames(A, EVENT, 20), frames(B, EVENT + 1, 17));
    assert_eq!((ours.len(), theirs.len()), (4, 4));
    let mut joining = Joining::default();
    let mut reports = Vec::new();
    for (one, other) in ours.iter().zip(&theirs) {
        for frame in [one, other] {
            let sender = list().node_of(u64::from(frame.header & 0xFFF)).unwrap();
            let plain = frames(sender, 5, 0)[0];
            let before = joining.clone();
            assert_eq!(
                joining.join(&list(), &plain),
                handed_out(0x05B4, sender, 5, &[])
            );
            assert_eq!(joining, before);
            reports.extend(joining.join(&list(), frame).report);
        }
    }
    let expected = [
        (0x0F14, gathered(A, EVENT, &payload(20))),
        (0x0F14, gathered(B, EVENT + 1, &payload(17))),
    ];
    assert_eq!(reports, expected);
    assert_eq!(joining, Joining::default());
}

/// 02, W3, 20: a third sender's start is refused until one of the two is done, and its other frames have no start.
#[test]
fn a_third_sender() {
    let mut joining = state(&[(A, 8), (B, 16)]);
    let before = joining.clone();
    let third = frames(C, EVENT, 9);
    let refusals: Vec<u8> = third
        .iter()
        .map(|frame| joining.join(&list(), frame).refusal)
        .collect();
    assert_eq!(refusals, [20, 17, 17]);
    assert_eq!(joining, before);
    assert_eq!(
        joining.join(&list(), &frames(C, 9, 0)[0]),
        handed_out(0x05B4, C, 9, &[])
    );
    let last = Frame::of(Part::Last, alias(A), &[1]);
    let whole = [payload(8), vec![1]].concat();
    assert_eq!(
        joining.join(&list(), &last),
        handed_out(0x0F14, A, EVENT, &whole)
    );
    assert_eq!(joining, state(&[(B, 16)]));
    assert_eq!(
        join_all(&mut joining, &third),
        handed_out(0x0F14, C, EVENT, &payload(9))
    );
}

/// 02, W3, "A new 0F16 from a sender drops that sender's unfinished message": the new one stands last, also beside another sender.
#[test]
fn a_new_start() {
    for (before, after) in [
        (state(&[(A, 24)]), state(&[(A, 0)])),
        (state(&[(A, 24), (B, 8)]), state(&[(B, 8), (A, 0)])),
        (state(&[(B, 8), (A, 256)]), state(&[(B, 8), (A, 0)])),
        (state(&[(B, 8)]), state(&[(B, 8), (A, 0)])),
    ] {
        let mut joining = before;
        assert_eq!(joining.join(&list(), &frames(A, EVENT, 1)[0]), refused(0));
        assert_eq!(joining, after);
    }
}

/// 02, W3: a message of five frames loses one; the next complete message is handed out right, whatever came of the lossy one.
#[test]
fn each_loss() {
    let lossy = frames(A, EVENT, 30);
    assert_eq!(lossy.len(), 5);
    let next = frames(A, EVENT + 1, 30);
    let expected = handed_out(0x0F14, A, EVENT + 1, &payload(30));
    for lost in 0..5 {
        for beside in [vec![], vec![(B, 9)]] {
            let mut joining = state(&beside);
            let mut left = lossy.clone();
            left.remove(lost);
            let last = join_all(&mut joining, &left);
            let shorter = || {
                let at = 8 * (lost - 1);
                [&payload(30)[..at], &payload(30)[at + 8..]].concat()
            };
            match lost {
                0 => assert_eq!(last, refused(17)),
                4 => assert_eq!(last, refused(0)),
                _ => assert_eq!(last, handed_out(0x0F14, A, EVENT, &shorter())),
            }
            assert_eq!(join_all(&mut joining, &next), expected);
            assert_eq!(joining, state(&beside));
        }
    }
}

/// 02, W3: each refusal of joining where only its own reason is there; the limits of a length.
#[test]
fn each_refusal() {
    let empty = Joining::default();
    let begun = state(&[(A, 8)]);
    let last = |length: u8| Frame {
        length,
        ..Frame::of(Part::Last, alias(A), &[1; 8])
    };
    assert_eq!(refusal_in(&empty, &Aliases::of(&[(2, 0)]), last(1)), 7);
    let other = Frame {
        header: 0x19F17002,
        ..last(8)
    };
    assert_eq!(refusal_in(&begun, &list(), other), 29);
    let unknown = Frame::of(Part::Last, 4, &[1]);
    assert_eq!(refusal_in(&begun, &list(), unknown), 16);
    for length in [0, 9, 16, 128, 255] {
        assert_eq!(refusal_in(&begun, &list(), last(length)), 19);
    }
    for length in 1..=8 {
        assert_eq!(begun.clone().join(&list(), &last(length)).refusal, 0);
    }
    for part in [Part::Whole, Part::First, Part::Middle] {
        for length in [0, 1, 7, 9, 255] {
            let frame = Frame {
                length,
                ..Frame::of(part, alias(A), &[1; 8])
            };
            assert_eq!(refusal_in(&begun, &list(), frame), 19);
        }
    }
    for state in [&empty, &state(&[(B, 8)]), &state(&[(B, 8), (C, 8)])] {
        assert_eq!(refusal_in(state, &list(), last(1)), 17);
        let middle = Frame::of(Part::Middle, alias(A), &[1; 8]);
        assert_eq!(refusal_in(state, &list(), middle), 17);
    }
    let third = frames(A, EVENT, 1)[0];
    assert_eq!(refusal_in(&state(&[(B, 8), (C, 8)]), &list(), third), 20);
    assert_eq!(refusal_in(&state(&[(A, 256)]), &list(), last(1)), 18);
}

/// 02, W3, 7: a sender twice, over 256 bytes, or more than two; one that is not in the list, or is no Node ID, is not.
#[test]
fn states_out_of_bounds() {
    let plain = frames(A, EVENT, 0)[0];
    for bad in [
        state(&[(A, 1), (A, 2)]),
        state(&[(C, 257)]),
        state(&[(B, 0), (C, 257)]),
        state(&[(A, 1), (B, 1), (C, 1)]),
    ] {
        assert_eq!(refusal_in(&bad, &list(), plain), 7);
    }
    for good in [state(&[(A, 256), (B, 256)]), state(&[(0x77, 1), (0, 1)])] {
        assert_eq!(good.clone().join(&list(), &plain).refusal, 0);
    }
}

/// 02, W3, "joining takes 7, 29, 16, 19, 17, 20, 18": of two reasons the earlier counts. 17 and 20 cannot both be there, nor can either beside 18.
#[test]
fn order() {
    let bad_list = Aliases::of(&[(2, A), (2, B)]);
    let full = state(&[(B, 1), (C, 1)]);
    let wrong = |header, length| Frame {
        header,
        length,
        bytes: [0; 8],
    };
    for (list, header, length, refusal) in [
        (&bad_list, 0, 9, 7),
        (&bad_list, 0x19F16002, 8, 7),
        (&list(), 0x19F17004, 9, 29),
        (&list(), 0x39F16002, 9, 29),
        (&list(), 0x19F16004, 9, 16),
        (&list(), 0x19F15004, 8, 16),
        (&list(), 0x19F16002, 9, 19),
        (&list(), 0x19F15002, 7, 19),
        (&list(), 0x19F14002, 0, 19),
        (&list(), 0x19F15002, 8, 17),
        (&list(), 0x19F16002, 8, 20),
    ] {
        assert_eq!(refusal_in(&full, list, wrong(header, length)), refusal);
    }
    let over = state(&[(A, 256)]);
    assert_eq!(refusal_in(&over, &list(), wrong(0x19F15002, 7)), 19);
    assert_eq!(refusal_in(&over, &list(), wrong(0x19F15002, 8)), 18);
}

/// 02, W3: a sender is a Node ID: where the list gives its alias to another, what it had begun stays behind.
#[test]
fn another_list() {
    let mut joining = state(&[(A, 8)]);
    let moved = Aliases::of(&[(2, B), (9, A)]);
    let last = |alias| Frame::of(Part::Last, alias, &[1]);
    assert_eq!(joining.join(&moved, &last(2)), refused(17));
    let whole = [payload(8), vec![1]].concat();
    assert_eq!(
        joining.join(&moved, &last(9)),
        handed_out(0x0F14, A, EVENT, &whole)
    );
}

/// 02, W3, "unused ones": data bytes past the length do not matter where a frame comes in.
#[test]
fn unused_bytes() {
    let frame = Frame {
        length: 3,
        ..Frame::of(Part::Last, alias(A), &[1, 2, 3, 4, 5, 6, 7, 8])
    };
    let mut joining = state(&[(A, 0)]);
    assert_eq!(
        joining.join(&list(), &frame),
        handed_out(0x0F14, A, EVENT, &[1, 2, 3])
    );
}
