//! The reference's CAN side, with a count of what it went through.

use std::collections::BTreeMap;

use crate::aliases::Aliases;
use crate::can::{self, part_of, Frame, Part, FRAME_BYTES};
use crate::frame_file::{self, Step};
use crate::joining::{Joined, Joining, MOST_PAYLOAD};
use crate::message::Message;
use crate::refusal;

use super::can_lists::ways_of;
use super::counts::Column;
use super::functions::Function;
use super::legs::Leg;
use super::rows::Row;

/// What has befallen a sender.
#[derive(Default)]
struct Past {
    /// The row of its next message that is handed out right, after one that was not.
    next: Option<Leg>,
    /// Its start was refused or its message was dropped, so that what comes without a start has lost no frame.
    cut_off: bool,
    /// Another's message was handed out since its own began.
    overtaken: bool,
    /// A third sender was refused since then.
    beside_third: bool,
}

/// Joins frames one after the other and remembers what has befallen each sender.
#[derive(Default)]
pub struct Follower {
    pasts: BTreeMap<u64, Past>,
}

impl Follower {
    /// Puts a frame to the reference and counts what came of it.
    pub fn join(
        &mut self,
        joining: &mut Joining,
        aliases: &Aliases,
        frame: &Frame,
        column: &mut Column,
    ) -> Joined {
        let before = joining.clone();
        let joined = joining.join(aliases, frame);
        column.saw_answer(Function::Join, joined.refusal);
        if joined.refusal == refusal::BOUNDS {
            saw_ways(aliases, column);
            return joined;
        }
        let Some((part, alias)) = part_of(frame.header) else {
            return joined;
        };
        if let Some(sender) = aliases.node_of(alias) {
            self.saw(&before, (part, sender), joined.refusal, column);
            if let Some((0x0F14, report)) = &joined.report {
                self.saw_payload(joining, sender, &report.payload, column);
                saw_unused(frame, column);
            }
        }
        joined
    }

    /// Counts what a frame did, but for a payload that it ends.
    fn saw(
        &mut self,
        before: &Joining,
        (part, sender): (Part, u64),
        refusal: u8,
        column: &mut Column,
    ) {
        let place = before.place_of(sender);
        let two = before.unfinished.len() == 2;
        let past = self.pasts.entry(sender).or_default();
        match (part, refusal) {
            (Part::Whole, refusal::NONE) => {
                column.saw(Row::Leg(Leg::WholeHandedOut));
                if place.is_some() {
                    column.saw(Row::Leg(Leg::WholeBetween));
                }
            }
            (Part::First, refusal::NONE) => {
                let next = match place {
                    Some(_) => Some(Leg::AfterLastLost),
                    None => past.next,
                };
                *past = Past {
                    next,
                    ..Past::default()
                };
                if place.is_some() {
                    column.saw(Row::Leg(Leg::OldDropped));
                }
                if place == Some(0) && two {
                    column.saw(Row::Leg(Leg::FirstOfTwoDropped));
                }
            }
            (Part::First, refusal::THIRD_SENDER) => {
                past.cut_off = true;
                for one in &before.unfinished {
                    self.pasts.entry(one.sender).or_default().beside_third = true;
                }
            }
            (Part::Last, refusal::NOT_BEGUN) if !past.cut_off => {
                past.next = Some(Leg::AfterFirstLost);
            }
            (_, refusal::PAYLOAD) => {
                past.next = Some(Leg::AfterTooLong);
                past.cut_off = true;
                if two {
                    column.saw(Row::Leg(Leg::KeptBesideTooLong));
                }
            }
            _ => {}
        }
    }

    /// Counts a payload that is handed out, and who is unfinished by then.
    fn saw_payload(&mut self, after: &Joining, sender: u64, payload: &[u8], column: &mut Column) {
        column.saw(Row::Leg(Leg::PayloadHandedOut));
        match payload.len() {
            1 => column.saw(Row::Leg(Leg::ShortestHandedOut)),
            MOST_PAYLOAD => column.saw(Row::Leg(Leg::LongestHandedOut)),
            _ => {}
        }
        let past = self.pasts.entry(sender).or_default();
        if past.overtaken {
            column.saw(Row::Leg(Leg::TwoAtOnce));
        }
        if past.beside_third {
            column.saw(Row::Leg(Leg::BesideThird));
        }
        if lacks_a_frame(payload) {
            past.next = Some(Leg::AfterMiddleLost);
        } else if gaps_in(payload).is_empty() {
            past.next
                .take()
                .map(Row::Leg)
                .into_iter()
                .for_each(|row| column.saw(row));
        }
        for one in &after.unfinished {
            self.pasts.entry(one.sender).or_default().overtaken = true;
        }
    }
}

/// The places where a payload does not count up.
fn gaps_in(payload: &[u8]) -> Vec<usize> {
    let goes_on = |place: &usize| payload[*place] == payload[place - 1].wrapping_add(1);
    (1..payload.len()).filter(|place| !goes_on(place)).collect()
}

/// Whether a payload counts up but for one frame's eight bytes that are not there.
fn lacks_a_frame(payload: &[u8]) -> bool {
    match gaps_in(payload)[..] {
        [place] => place % 8 == 0 && payload[place] == payload[place - 1].wrapping_add(9),
        _ => false,
    }
}

/// Counts a frame whose data bytes past the length are not all zero.
fn saw_unused(frame: &Frame, column: &mut Column) {
    let unused = &frame.bytes[usize::from(frame.length)..];
    if unused.iter().any(|byte| *byte != 0) {
        column.saw(Row::Leg(Leg::UnusedBytes));
    }
}

/// Counts the ways in which a list is out of bounds.
fn saw_ways(aliases: &Aliases, column: &mut Column) {
    for way in ways_of(aliases) {
        column.saw(Row::CanWay(way));
    }
}

/// Has the reference split a message and counts what came of it.
pub fn split(
    aliases: &Aliases,
    message: &Message,
    content: &[u8],
    room: usize,
    column: &mut Column,
) -> Result<Vec<Frame>, u8> {
    let answer = can::split(aliases, message, content, room);
    let refusal = answer.as_ref().err().copied();
    column.saw_answer(Function::Split, refusal.unwrap_or(refusal::NONE));
    match &answer {
        Ok(frames) => {
            Row::of_split(content.len())
                .into_iter()
                .for_each(|row| column.saw(row));
            if FRAME_BYTES * frames.len() == room {
                column.saw(Row::Leg(Leg::ExactRoom));
            }
        }
        Err(refusal::BOUNDS) => saw_ways(aliases, column),
        Err(refusal::ROOM) if can::split(aliases, message, content, room + 1).is_ok() => {
            column.saw(Row::Leg(Leg::OneByteShort));
        }
        Err(refusal::CONTENT) if content.len() == MOST_PAYLOAD + 1 => {
            let shorter = &content[..MOST_PAYLOAD];
            if can::split(aliases, message, shorter, usize::MAX).is_ok() {
                column.saw(Row::Leg(Leg::TooLongToSplit));
            }
        }
        Err(_) => {}
    }
    answer
}

/// Counts what the reference goes through on a frame file.
pub fn frame_file(column: &mut Column, file: &[u8]) {
    let Some((aliases, steps)) = frame_file::parts_of(file) else {
        return column.saw(Row::BadFile);
    };
    let mut joining = Joining::default();
    let mut follower = Follower::default();
    for step in &steps {
        match step {
            Step::Join(frame) => {
                follower.join(&mut joining, &aliases, frame, column);
            }
            Step::Split {
                message,
                content,
                room,
            } => {
                let _ = split(&aliases, message, content, *room, column);
            }
        }
    }
}

#[cfg(test)]
mod tests {
    use super::*;
    use crate::can::frames_of;

    const A: (u64, u64) = (7, 0x0A0000000001);
    const B: (u64, u64) = (0, 0x0A0000000002);
    const C: (u64, u64) = (0xFFF, 0x0A0000000003);

    fn counting(length: usize) -> Vec<u8> {
        (0..length)
            .map(|place| 250u8.wrapping_add(place as u8))
            .collect()
    }

    fn frames(sender: (u64, u64), length: usize) -> Vec<Frame> {
        frames_of(sender.0, 5, &counting(length))
    }

    fn without(mut frames: Vec<Frame>, lost: usize) -> Vec<Frame> {
        frames.remove(lost);
        frames
    }

    /// What is seen of these frames beside the answers.
    fn seen(frames: &[Vec<Frame>]) -> Vec<Leg> {
        let list = Aliases::of(&[A, B, C]);
        let mut joining = Joining::default();
        let mut follower = Follower::default();
        let mut column = Column::default();
        for frame in frames.concat() {
            follower.join(&mut joining, &list, &frame, &mut column);
        }
        let legs = column.reached().filter_map(|row| match row {
            Row::Leg(leg) => Some(leg),
            _ => None,
        });
        legs.collect()
    }

    /// 02, W3: each loss is seen where the next message is handed out, and not before.
    #[test]
    fn losses() {
        use Leg::*;
        assert_eq!(seen(&[frames(A, 30), frames(A, 30)]), [PayloadHandedOut]);
        for (lost, after) in [
            (0, AfterFirstLost),
            (2, AfterMiddleLost),
            (3, AfterMiddleLost),
        ] {
            let lossy = without(frames(A, 30), lost);
            assert!(!seen(std::slice::from_ref(&lossy)).contains(&after));
            assert_eq!(
                seen(&[lossy.clone(), frames(A, 9)]),
                [PayloadHandedOut, after]
            );
            assert!(!seen(&[lossy, frames(B, 9)]).contains(&after));
        }
        let lossy = without(frames(A, 30), 4);
        let expected = [PayloadHandedOut, OldDropped, AfterLastLost];
        assert_eq!(seen(&[lossy, frames(A, 9)]), expected);
    }

    /// 02, W3: what follows refusal 18 or 20 has lost no first frame.
    #[test]
    fn cut_off() {
        use Leg::*;
        let expected = [PayloadHandedOut, AfterTooLong];
        assert_eq!(seen(&[frames(A, 280), frames(A, 9)]), expected);
        let (begun, other) = (frames(A, 20), frames(B, 20));
        let third = [begun[..2].to_vec(), other[..3].to_vec(), frames(C, 20)];
        assert_eq!(seen(&third), []);
        let expected = [PayloadHandedOut, BesideThird];
        assert_eq!(
            seen(&[&third[..], &[begun[2..].to_vec(), frames(C, 7)]].concat()),
            expected
        );
        let over = [other[..1].to_vec(), frames(A, 257)];
        assert_eq!(seen(&over), [KeptBesideTooLong]);
    }

    /// 02, W3: two at once, in either order; a new start of the first of two; the shortest and the longest; a whole one in between.
    #[test]
    fn two() {
        use Leg::*;
        let (one, other) = (frames(A, 20), frames(B, 20));
        for (first, rest) in [(&one, &other), (&other, &one)] {
            let both = [vec![first[0]], rest.clone(), first[1..].to_vec()];
            assert_eq!(seen(&both), [PayloadHandedOut, TwoAtOnce]);
        }
        let again = [vec![one[0]], vec![other[0]], vec![one[0]]];
        assert_eq!(seen(&again), [OldDropped, FirstOfTwoDropped]);
        assert_eq!(seen(&[frames(A, 1)]), [PayloadHandedOut, ShortestHandedOut]);
        assert_eq!(
            seen(&[frames(A, 256)]),
            [PayloadHandedOut, LongestHandedOut]
        );
        assert_eq!(seen(&[frames(A, 0)]), [WholeHandedOut]);
        assert_eq!(
            seen(&[vec![one[0]], frames(A, 0)]),
            [WholeHandedOut, WholeBetween]
        );
    }
}
