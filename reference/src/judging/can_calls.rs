//! Calls of the CAN side: frames that are joined one after the other, single ones in any state, messages that are split and joined again, and lists and states
//! out of bounds.

use crate::aliases::Aliases;
use crate::can::{frames_of, Frame, FRAME_BYTES};
use crate::frame_file::written_out;
use crate::joining;
use crate::lent_can::{self, Gathered, Joined, Joining, Lists};
use crate::lent_message::{Message, Writing};
use crate::refusal;

use super::can_talk::{any_event, any_frames, any_payload};
use super::legs::{Leg, CAN_WAY_COUNT, FIRST_OF_STATE};
use super::observed_can::{self, Follower};
use super::parts::Parts;
use super::random::Dice;
use super::rows::Row;
use super::witness::{Hex, Witness};
use super::{can_lists, can_splits, can_states};

/// Entries of each list past what is lent of it, which no call may touch.
const GUARD: usize = 2;
/// Bytes past the lent room, which no call may touch.
const GUARD_BYTES: usize = 8;
/// Content lengths whose low 8 or 16 bits would be allowed.
const LONG: [usize; 4] = [512, 513, 65_536 + 256, 65_537];

/// The proved side.
pub trait CanSide {
    fn join(&self, lists: Lists, state: &Joining, frame: lent_can::Frame) -> Joined;
    fn split(&self, lists: Lists, message: Message, content: &[u8], out: &mut [u8]) -> Writing;
    fn frame_text(&self, file: &[u8], skip: usize, text: &mut [u8]) -> usize;
}

/// A list of aliases as it is lent, and all that stands there, past its ends too.
struct Guarded {
    list: Aliases,
    all: Aliases,
}

impl Guarded {
    fn of(dice: &mut Dice, list: Aliases) -> Guarded {
        let mut all = list.clone();
        for _ in 0..GUARD {
            all.aliases.push(dice.number());
            all.nodes.push(dice.number());
        }
        Guarded { list, all }
    }

    /// Lends the lists for one call; what it answers, and whether every number stands as it did.
    fn lend<T>(&self, call: impl FnOnce(Lists) -> T) -> (T, bool) {
        let mut lent = self.all.clone();
        let answer = call(Lists {
            aliases: &mut lent.aliases[..self.list.aliases.len()],
            nodes: &mut lent.nodes[..self.list.nodes.len()],
        });
        (answer, lent == self.all)
    }
}

/// What is to be seen of a message: its numbers, and so much of the payload as its length says.
#[derive(PartialEq, Debug)]
struct Shown {
    sender: u64,
    event: u64,
    length: usize,
    payload: Hex,
}

impl Shown {
    fn of(gathered: &Gathered) -> Shown {
        let joining::Gathered { mut payload, .. } = gathered.gathered();
        payload.truncate(gathered.length);
        Shown {
            sender: gathered.sender,
            event: gathered.event,
            length: gathered.length,
            payload: Hex(payload),
        }
    }

    fn of_reference(gathered: &joining::Gathered) -> Shown {
        Shown {
            sender: gathered.sender,
            event: gathered.event,
            length: gathered.payload.len(),
            payload: Hex(gathered.payload.clone()),
        }
    }
}

/// What is to be seen of the state after a call: every byte where it is kept, else the first places, as many as the count says.
#[derive(PartialEq, Debug)]
enum After {
    Kept(Box<Joining>),
    Next(usize, Vec<Shown>),
}

/// What joining answers.
#[derive(PartialEq, Debug)]
struct JoinAnswer {
    refusal: u8,
    mti: u16,
    message: Shown,
    /// Where there is no payload all of its bytes are 0.
    clean: bool,
    after: After,
    lists_unchanged: bool,
}

impl JoinAnswer {
    /// Of the reference: beside a refusal the state is kept, but for 18.
    fn of_reference(
        given: &Joining,
        joined: &joining::Joined,
        after: &joining::Joining,
    ) -> JoinAnswer {
        let (mti, message) = match &joined.report {
            Some((mti, report)) => (*mti, Shown::of_reference(report)),
            None => (0, Shown::of(&Gathered::NONE)),
        };
        let after = match joined.refusal {
            refusal::NONE | refusal::PAYLOAD => {
                let all = &after.unfinished;
                After::Next(all.len(), all.iter().map(Shown::of_reference).collect())
            }
            _ => After::Kept(Box::new(*given)),
        };
        JoinAnswer {
            refusal: joined.refusal,
            mti,
            message,
            clean: true,
            after,
            lists_unchanged: true,
        }
    }

    /// Of the proved side, so much as the reference's answer asks for.
    fn of_proved(joined: &Joined, asked: &JoinAnswer, lists_unchanged: bool) -> JoinAnswer {
        let Joined {
            refusal,
            mti,
            message,
            state,
        } = joined;
        let after = match asked.after {
            After::Kept(_) => After::Kept(Box::new(*state)),
            After::Next(..) => {
                let places = state.places();
                After::Next(state.count, places.into_iter().map(Shown::of).collect())
            }
        };
        JoinAnswer {
            refusal: *refusal,
            mti: *mti,
            message: Shown::of(message),
            clean: message.length != 0 || message.payload == Gathered::NONE.payload,
            after,
            lists_unchanged,
        }
    }
}

/// What splitting answers, and the whole output afterwards with its guard.
#[derive(PartialEq, Debug)]
struct SplitAnswer {
    refusal: u8,
    bytes: usize,
    output: Hex,
    lists_unchanged: bool,
}

/// One list, and calls with it; then it or a state is put out of bounds.
pub fn judge(dice: &mut Dice, witness: &mut Witness, side: &impl CanSide) {
    let list = can_lists::in_bounds(dice);
    let mut guarded = Guarded::of(dice, list);
    witness.show(|| format!("list: {:X?}", guarded.list));
    if dice.chance(60) {
        judge_run(dice, witness, side, &guarded);
    }
    for _ in 0..6 {
        judge_one(dice, witness, side, &guarded, None);
    }
    for _ in 0..3 {
        judge_split(dice, witness, side, &guarded);
    }
    let way = dice.between(0, CAN_WAY_COUNT - 1);
    if way < FIRST_OF_STATE {
        can_lists::spoil(dice, &mut guarded.list, way, false);
        guarded = Guarded::of(dice, guarded.list);
        witness.show(|| format!("list: {:X?}", guarded.list));
        judge_one(dice, witness, side, &guarded, None);
        judge_split(dice, witness, side, &guarded);
    } else {
        judge_one(dice, witness, side, &guarded, Some(way));
    }
}

/// Joins a frame on both sides; the proved answer, and whether they agree.
fn join(
    witness: &mut Witness,
    side: &impl CanSide,
    guarded: &Guarded,
    follower: &mut Follower,
    state: &Joining,
    frame: &Frame,
) -> (Joined, bool) {
    let mut after = state.joining();
    let joined = follower.join(&mut after, &guarded.list, frame, witness.column);
    let expected = JoinAnswer::of_reference(state, &joined, &after);
    let given = lent_can::Frame::of(frame);
    let (proved, unchanged) = guarded.lend(|lists| side.join(lists, state, given));
    let answer = JoinAnswer::of_proved(&proved, &expected, unchanged);
    let asked = || format!("join {:?} in {state:X?}", Hex(frame.written()));
    let same = witness.compare(asked, &answer, &expected);
    (proved, same)
}

/// Frames one after the other, from a state in which mostly nobody has begun anything; what stands past the state is changed at times.
fn judge_run(dice: &mut Dice, witness: &mut Witness, side: &impl CanSide, guarded: &Guarded) {
    let mut follower = Follower::default();
    let mut state = can_states::in_bounds(dice, &guarded.list);
    if dice.chance(80) {
        state.count = 0;
    }
    for frame in any_frames(dice, &guarded.list) {
        if dice.chance(15) {
            can_states::refill(dice, &guarded.list, &mut state);
        }
        let (joined, same) = join(witness, side, guarded, &mut follower, &state, &frame);
        if !same {
            return;
        }
        state = joined.state;
    }
}

/// One frame in any state, which is out of bounds in a way if one is given.
fn judge_one(
    dice: &mut Dice,
    witness: &mut Witness,
    side: &impl CanSide,
    guarded: &Guarded,
    way: Option<usize>,
) {
    let mut state = can_states::in_bounds(dice, &guarded.list);
    if let Some(way) = way {
        can_states::spoil(dice, &guarded.list, &mut state, way);
    }
    for way in can_states::ways_of(&state) {
        witness.column.saw(Row::CanWay(way));
    }
    let frame = can_states::any_frame(dice, &guarded.list, &state);
    join(
        witness,
        side,
        guarded,
        &mut Follower::default(),
        &state,
        &frame,
    );
}

/// One message, split; its frames are joined again.
fn judge_split(dice: &mut Dice, witness: &mut Witness, side: &impl CanSide, guarded: &Guarded) {
    let mut parts = can_splits::any_parts(dice, &guarded.list);
    if dice.chance(1) {
        parts.content.resize(dice.pick(&LONG), 0x5A);
    }
    let room = can_splits::any_room(dice, &parts);
    let message = given_fields(dice, &parts);
    let before = any_output(dice, room);
    let split = observed_can::split(
        &guarded.list,
        &message.fields(),
        &parts.content,
        room,
        witness.column,
    );
    let expected = answer_of_reference(&before, &split);
    let mut output = before.clone();
    let (writing, lists_unchanged) =
        guarded.lend(|lists| side.split(lists, message, &parts.content, &mut output[..room]));
    let answer = SplitAnswer {
        refusal: writing.refusal,
        bytes: writing.bytes,
        output: Hex(output),
        lists_unchanged,
    };
    let asked = || {
        let (content, before) = (Hex(parts.content.clone()), Hex(before.clone()));
        format!("split {message:X?} with content {content:?} into {before:?}, {GUARD_BYTES} bytes of it past the room")
    };
    if witness.compare(asked, &answer, &expected) && split.is_ok() {
        let written = &answer.output.0[..answer.bytes];
        join_again(dice, witness, side, guarded, &parts, written);
    }
}

/// Joins the frames that were written, with another sender's in between; what is handed out is what was split.
fn join_again(
    dice: &mut Dice,
    witness: &mut Witness,
    side: &impl CanSide,
    guarded: &Guarded,
    parts: &Parts,
    written: &[u8],
) {
    let others = frames_of_another(dice, guarded, parts.source);
    let mut others = others.iter();
    let mut follower = Follower::default();
    let mut state = Joining::EMPTY;
    let (ours, _) = written.as_chunks::<FRAME_BYTES>();
    let mut given_back = None;
    for frame in ours.iter().map(Frame::read) {
        for frame in others.next().into_iter().chain([&frame]) {
            let (joined, same) = join(witness, side, guarded, &mut follower, &state, frame);
            if !same {
                return;
            }
            state = joined.state;
            given_back = Some((joined.mti, Shown::of(&joined.message)));
        }
    }
    witness.column.saw(Row::Leg(Leg::SplitThenJoined));
    let sent = Shown {
        sender: parts.source,
        event: parts.event.unwrap_or(0),
        length: parts.content.len(),
        payload: Hex(parts.content.clone()),
    };
    let asked = || "what was split, joined again".to_string();
    witness.compare(asked, &given_back, &Some((parts.mti, sent)));
}

/// The frames of another node of the list than that one, nothing where there is none.
fn frames_of_another(dice: &mut Dice, guarded: &Guarded, node: u64) -> Vec<Frame> {
    let place = dice.between(0, guarded.list.nodes.len() - 1);
    if guarded.list.nodes[place] == node {
        return Vec::new();
    }
    let length = dice.between(0, 256);
    let payload = any_payload(dice, length);
    frames_of(guarded.list.aliases[place], any_event(dice), &payload)
}

/// The fields as the proved side takes them: any number but 0 is yes, and an absent field's number means nothing.
fn given_fields(dice: &mut Dice, parts: &Parts) -> Message {
    let yes = dice.pick(&[1, 1, 2, 128, 255]);
    Message {
        mti: parts.mti,
        source: parts.source,
        has_destination: parts.destination.map_or(0, |_| yes),
        destination: parts.destination.unwrap_or(dice.number()),
        has_event: parts.event.map_or(0, |_| yes),
        event: parts.event.unwrap_or(dice.number()),
    }
}

/// What stands in the output before a call, with its guard: no byte as its neighbours, and few of them zero.
fn any_output(dice: &mut Dice, room: usize) -> Vec<u8> {
    let first = dice.number() as u8;
    (0..room + GUARD_BYTES)
        .map(|place| first.wrapping_add(place as u8))
        .collect()
}

/// What the reference wrote, over the output as it stood.
fn answer_of_reference(before: &[u8], split: &Result<Vec<Frame>, u8>) -> SplitAnswer {
    let mut output = before.to_vec();
    let (refusal, bytes) = match split {
        Ok(frames) => {
            let written = written_out(frames);
            output[..written.len()].copy_from_slice(&written);
            (refusal::NONE, written.len())
        }
        Err(refusal) => (*refusal, 0),
    };
    SplitAnswer {
        refusal,
        bytes,
        output: Hex(output),
        lists_unchanged: true,
    }
}
