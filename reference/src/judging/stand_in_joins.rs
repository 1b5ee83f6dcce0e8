//! Slips in joining, of a stand-in for the archive's CAN side.

use crate::aliases::Aliases;
use crate::can::{part_of, Frame, Part};
use crate::joining::{self, MOST_PAYLOAD};
use crate::lent_can::{Gathered, Joined, Joining, PAYLOAD};
use crate::refusal;

use super::can_lists;
use super::can_states;
use super::legs::FIRST_OF_STATE;
use super::sort::Sort;
use super::stand_in_can::{is_found, StandIn};

/// What stands past the count and the lengths after a call that is not refused, where it means nothing.
const NOTHING: u8 = 0xEE;

/// What a call is asked.
pub struct AskedToJoin<'a> {
    pub list: &'a Aliases,
    pub state: &'a Joining,
    pub frame: Frame,
}

/// A slip: what it makes of the right answer.
pub type Slip = fn(&AskedToJoin, &mut Joined);

impl AskedToJoin<'_> {
    /// The right answer.
    pub fn rightly(&self) -> Joined {
        self.answer(self.list, self.state.joining(), &self.frame)
    }

    /// The answer to another list, another state or another frame.
    fn answer(&self, list: &Aliases, mut after: joining::Joining, frame: &Frame) -> Joined {
        let joined = after.join(list, frame);
        let mut answer = Joined {
            refusal: joined.refusal,
            mti: 0,
            message: Gathered::NONE,
            state: *self.state,
        };
        if let Some((mti, report)) = &joined.report {
            answer.mti = *mti;
            if !report.payload.is_empty() {
                answer.message.payload = [NOTHING; PAYLOAD];
            }
            answer.message.set(report);
        }
        if matches!(joined.refusal, refusal::NONE | refusal::PAYLOAD) {
            answer.state = left(&after);
        }
        answer
    }

    /// The answer where the list is another.
    fn with_list(&self, change: impl FnOnce(&mut Aliases)) -> Joined {
        let mut list = self.list.clone();
        change(&mut list);
        self.answer(&list, self.state.joining(), &self.frame)
    }

    /// The answer where the frame is another.
    fn with_frame(&self, change: impl FnOnce(&mut Frame)) -> Joined {
        let mut frame = self.frame;
        change(&mut frame);
        self.answer(self.list, self.state.joining(), &frame)
    }

    /// The part and the alias of the frame, and its sender.
    fn sent(&self) -> Option<(Part, u64, u64)> {
        let (part, alias) = part_of(self.frame.header)?;
        Some((part, alias, self.list.node_of(alias)?))
    }

    /// The part of the frame, if its sender is in the list.
    fn part(&self) -> Option<Part> {
        self.sent().map(|(part, ..)| part)
    }

    /// Where what the sender has begun stands.
    fn place(&self) -> Option<usize> {
        let (_, _, sender) = self.sent()?;
        self.state.joining().place_of(sender)
    }

    fn data(&self) -> &[u8] {
        &self.frame.bytes[..usize::from(self.frame.length).min(8)]
    }
}

/// A state as a call may leave it, with anything past the count and the lengths.
fn left(state: &joining::Joining) -> Joining {
    let nothing = Gathered {
        sender: 7,
        event: 7,
        length: usize::MAX,
        payload: [NOTHING; PAYLOAD],
    };
    let mut left = Joining {
        count: 0,
        first: nothing,
        second: nothing,
    };
    left.set(state);
    left
}

pub fn none(_: &AskedToJoin, _: &mut Joined) {}

fn bytes_go_to_the_other_sender(asked: &AskedToJoin, joined: &mut Joined) {
    let mut state = asked.state.joining();
    if let (Some(Part::Middle), Some(place), refusal::NONE, 2) = (
        asked.part(),
        asked.place(),
        joined.refusal,
        state.unfinished.len(),
    ) {
        let payload = &mut state.unfinished[1 - place].payload;
        payload.extend(asked.data());
        payload.truncate(MOST_PAYLOAD);
        joined.state = left(&state);
    }
}

fn eighteen_keeps_the_message(asked: &AskedToJoin, joined: &mut Joined) {
    if joined.refusal == refusal::PAYLOAD {
        joined.state = *asked.state;
    }
}

fn eighteen_drops_everything(_: &AskedToJoin, joined: &mut Joined) {
    if joined.refusal == refusal::PAYLOAD {
        joined.state.count = 0;
    }
}

fn a_start_keeps_the_old_payload(asked: &AskedToJoin, joined: &mut Joined) {
    if let (Some(Part::First), Some(place), refusal::NONE) =
        (asked.part(), asked.place(), joined.refusal)
    {
        let mut state = joined.state.joining();
        let old = &asked.state.joining().unfinished[place];
        let new = state.unfinished.last_mut().expect("what was begun");
        new.payload = old.payload.clone();
        joined.state = left(&state);
    }
}

fn a_start_is_not_taken_twice(asked: &AskedToJoin, joined: &mut Joined) {
    if let (Some(Part::First), Some(_), refusal::NONE) =
        (asked.part(), asked.place(), joined.refusal)
    {
        joined.state = *asked.state;
    }
}

fn a_start_stands_where_the_old_one_stood(asked: &AskedToJoin, joined: &mut Joined) {
    if let (Some(Part::First), Some(0), refusal::NONE) =
        (asked.part(), asked.place(), joined.refusal)
    {
        let mut state = joined.state.joining();
        state.unfinished.reverse();
        joined.state = left(&state);
    }
}

fn middle_frames_have_seven_bytes(asked: &AskedToJoin, joined: &mut Joined) {
    if let (Some(Part::Middle), Some(place), refusal::NONE) =
        (asked.part(), asked.place(), joined.refusal)
    {
        let mut state = joined.state.joining();
        state.unfinished[place].payload.pop();
        joined.state = left(&state);
    }
}

fn a_whole_report_drops_what_was_begun(asked: &AskedToJoin, joined: &mut Joined) {
    if let (Some(Part::Whole), Some(place), refusal::NONE) =
        (asked.part(), asked.place(), joined.refusal)
    {
        let mut state = joined.state.joining();
        state.unfinished.remove(place);
        joined.state = left(&state);
    }
}

fn the_list_is_looked_up_by_place(asked: &AskedToJoin, joined: &mut Joined) {
    if joined.refusal != refusal::BOUNDS {
        *joined = asked.with_list(|list| {
            list.aliases = (0..list.nodes.len() as u64).collect();
        });
    }
}

fn senders_are_known_by_their_alias(asked: &AskedToJoin, joined: &mut Joined) {
    if let (Some((Part::First, alias, _)), refusal::NONE) = (asked.sent(), joined.refusal) {
        let mut state = joined.state.joining();
        state.unfinished.last_mut().expect("what was begun").sender = alias;
        joined.state = left(&state);
    }
}

fn senders_are_known_by_their_place(asked: &AskedToJoin, joined: &mut Joined) {
    let Some((_, alias, sender)) = asked.sent() else {
        return;
    };
    let place = asked
        .list
        .aliases
        .iter()
        .position(|listed| *listed == alias);
    for one in [&mut joined.state.first, &mut joined.state.second] {
        if joined.refusal == refusal::NONE && one.sender == sender {
            one.sender = place.unwrap_or(0) as u64;
        }
    }
}

fn a_sender_is_32_bits(asked: &AskedToJoin, joined: &mut Joined) {
    let Some((Part::Middle | Part::Last, _, sender)) = asked.sent() else {
        return;
    };
    let mut state = asked.state.joining();
    let near = |one: &&mut joining::Gathered| one.sender as u32 == sender as u32;
    if joined.refusal == refusal::NOT_BEGUN {
        if let Some(one) = state.unfinished.iter_mut().find(near) {
            one.sender = sender;
            *joined = asked.answer(asked.list, state, &asked.frame);
        }
    }
}

fn a_third_sender_takes_the_first_place(asked: &AskedToJoin, joined: &mut Joined) {
    if joined.refusal == refusal::THIRD_SENDER {
        let mut state = asked.state.joining();
        state.unfinished.remove(0);
        *joined = asked.answer(asked.list, state, &asked.frame);
    }
}

fn a_third_sender_drops_the_others(_: &AskedToJoin, joined: &mut Joined) {
    if joined.refusal == refusal::THIRD_SENDER {
        joined.state.count = 0;
    }
}

fn a_second_sender_is_one_too_many(asked: &AskedToJoin, joined: &mut Joined) {
    if asked.part() == Some(Part::First)
        && joined.refusal == refusal::NONE
        && joined.state.count > asked.state.count.max(1)
    {
        joined.refusal = refusal::THIRD_SENDER;
        joined.state = *asked.state;
    }
}

fn the_upper_bits_of_a_header_are_not_looked_at(asked: &AskedToJoin, joined: &mut Joined) {
    *joined = asked.with_frame(|frame| frame.header &= 0x1FFF_FFFF);
}

fn the_prefix_is_not_looked_at(asked: &AskedToJoin, joined: &mut Joined) {
    *joined = asked.with_frame(|frame| frame.header = 0x1900_0000 | frame.header & 0xFF_FFFF);
}

fn an_mti_has_11_bits(asked: &AskedToJoin, joined: &mut Joined) {
    if joined.refusal == refusal::NOT_FOR_CAN {
        *joined = asked.with_frame(|frame| frame.header ^= 1 << 23);
    }
}

fn longer_frames_are_taken(asked: &AskedToJoin, joined: &mut Joined) {
    if joined.refusal == refusal::FRAME_LENGTH {
        *joined = asked.with_frame(|frame| frame.length = frame.length.min(8));
    }
}

fn an_empty_last_frame_is_taken(asked: &AskedToJoin, joined: &mut Joined) {
    if let (Some(Part::Last), 0, Some(place)) = (asked.part(), asked.frame.length, asked.place()) {
        if joined.refusal == refusal::FRAME_LENGTH {
            let mut state = asked.state.joining();
            joined.refusal = refusal::NONE;
            joined.mti = 0x0F14;
            joined.message.set(&state.unfinished.remove(place));
            joined.state = left(&state);
        }
    }
}

fn a_shorter_middle_frame_is_taken(asked: &AskedToJoin, joined: &mut Joined) {
    if (asked.part(), asked.frame.length) == (Some(Part::Middle), 7)
        && joined.refusal == refusal::FRAME_LENGTH
    {
        *joined = asked.with_frame(|frame| frame.length = 8);
    }
}

fn bytes_past_256_are_cut(asked: &AskedToJoin, joined: &mut Joined) {
    if let (refusal::PAYLOAD, Some(Part::Last), Some(place)) =
        (joined.refusal, asked.part(), asked.place())
    {
        let mut whole = asked.state.joining().unfinished.remove(place);
        whole.payload.extend(asked.data());
        whole.payload.truncate(MOST_PAYLOAD);
        joined.refusal = refusal::NONE;
        joined.mti = 0x0F14;
        joined.message.set(&whole);
    }
}

fn two_hundred_and_fifty_six_are_too_many(_: &AskedToJoin, joined: &mut Joined) {
    if joined.mti == 0x0F14 && joined.message.length == MOST_PAYLOAD {
        joined.refusal = refusal::PAYLOAD;
        joined.mti = 0;
        joined.message = Gathered::NONE;
    }
}

fn only_last_frames_are_too_many(asked: &AskedToJoin, joined: &mut Joined) {
    if asked.part() == Some(Part::Middle) && joined.refusal == refusal::PAYLOAD {
        joined.refusal = refusal::NONE;
        joined.state = *asked.state;
    }
}

fn the_last_frame_forgets_nothing(asked: &AskedToJoin, joined: &mut Joined) {
    if joined.mti == 0x0F14 {
        joined.state = *asked.state;
    }
}

fn the_second_is_not_moved_up(asked: &AskedToJoin, joined: &mut Joined) {
    if asked.place() == Some(0) && joined.state.count < asked.state.count {
        joined.state = Joining {
            count: joined.state.count,
            ..*asked.state
        };
    }
}

fn a_wrong_length_drops_the_message(asked: &AskedToJoin, joined: &mut Joined) {
    if let (refusal::FRAME_LENGTH, Some(place)) = (joined.refusal, asked.place()) {
        let mut state = asked.state.joining();
        state.unfinished.remove(place);
        joined.state = left(&state);
    }
}

fn a_refusal_clears_what_is_no_part_of_the_state(_: &AskedToJoin, joined: &mut Joined) {
    if joined.refusal != refusal::NONE && joined.state.count < 2 {
        joined.state.second = Gathered::NONE;
    }
}

/// Says one refusal in place of another where the frame alone would be refused so.
fn before(first: u8, later: u8, joined: &mut Joined, would_be: bool) {
    if joined.refusal == first && would_be {
        joined.refusal = later;
    }
}

fn sixteen_before_twenty_nine(asked: &AskedToJoin, joined: &mut Joined) {
    let alias = u64::from(asked.frame.header & 0xFFF);
    let unknown = asked.list.node_of(alias).is_none();
    before(refusal::NOT_FOR_CAN, refusal::NOT_LISTED, joined, unknown);
}

fn twenty_nine_before_seven(asked: &AskedToJoin, joined: &mut Joined) {
    let other = part_of(asked.frame.header).is_none();
    before(refusal::BOUNDS, refusal::NOT_FOR_CAN, joined, other);
}

fn nineteen_before_sixteen(asked: &AskedToJoin, joined: &mut Joined) {
    let wrong =
        part_of(asked.frame.header).is_some_and(|(part, _)| !part.allows(asked.frame.length));
    before(refusal::NOT_LISTED, refusal::FRAME_LENGTH, joined, wrong);
}

fn seventeen_before_nineteen(asked: &AskedToJoin, joined: &mut Joined) {
    let goes_on = matches!(asked.part(), Some(Part::Middle | Part::Last));
    before(
        refusal::FRAME_LENGTH,
        refusal::NOT_BEGUN,
        joined,
        goes_on && asked.place().is_none(),
    );
}

fn twenty_before_nineteen(asked: &AskedToJoin, joined: &mut Joined) {
    let third =
        asked.part() == Some(Part::First) && asked.state.count == 2 && asked.place().is_none();
    before(refusal::FRAME_LENGTH, refusal::THIRD_SENDER, joined, third);
}

fn eighteen_before_nineteen(asked: &AskedToJoin, joined: &mut Joined) {
    let state = asked.state.joining();
    let length = usize::from(asked.frame.length);
    let over = |place: usize| state.unfinished[place].payload.len() + length > MOST_PAYLOAD;
    let goes_on = matches!(asked.part(), Some(Part::Middle | Part::Last));
    before(
        refusal::FRAME_LENGTH,
        refusal::PAYLOAD,
        joined,
        goes_on && asked.place().is_some_and(over),
    );
}

fn twenty_for_seventeen(asked: &AskedToJoin, joined: &mut Joined) {
    before(
        refusal::NOT_BEGUN,
        refusal::THIRD_SENDER,
        joined,
        asked.state.count == 2,
    );
}

fn twenty_before_the_old_one_is_dropped(asked: &AskedToJoin, joined: &mut Joined) {
    if asked.part() == Some(Part::First)
        && asked.state.count == 2
        && joined.refusal == refusal::NONE
    {
        joined.refusal = refusal::THIRD_SENDER;
        joined.state = *asked.state;
    }
}

fn a_sender_beside_a_refusal(asked: &AskedToJoin, joined: &mut Joined) {
    if let (refusal::NOT_BEGUN, Some((_, _, sender))) = (joined.refusal, asked.sent()) {
        joined.message.sender = sender;
    }
}

fn an_event_where_nothing_is_handed_out(_: &AskedToJoin, joined: &mut Joined) {
    if joined.refusal == refusal::NONE && joined.mti == 0 {
        joined.message.event = joined.state.first.event;
    }
}

fn the_event_is_low_byte_first(_: &AskedToJoin, joined: &mut Joined) {
    joined.message.event = joined.message.event.swap_bytes();
}

fn what_stands_past_the_count_is_taken(asked: &AskedToJoin, joined: &mut Joined) {
    if let (refusal::NOT_BEGUN, Some((.., sender))) = (joined.refusal, asked.sent()) {
        if asked.state.count == 0 && asked.state.first.sender == sender {
            let count = 1;
            let state = Joining {
                count,
                ..*asked.state
            };
            *joined = asked.answer(asked.list, state.joining(), &asked.frame);
        }
    }
}

fn a_sender_past_the_count_is_there_twice(asked: &AskedToJoin, joined: &mut Joined) {
    if asked.state.count < 2 && asked.state.first.sender == asked.state.second.sender {
        joined.refusal = refusal::BOUNDS;
        joined.state = *asked.state;
    }
}

/// A list that is out of bounds in one way is taken without what makes it so.
fn list_is_taken<const WAY: usize>(asked: &AskedToJoin, joined: &mut Joined) {
    if joined.refusal == refusal::BOUNDS && can_lists::ways_of(asked.list) == [WAY] {
        *joined = asked.with_list(|list| *list = Aliases::default());
    }
}

/// A state that is out of bounds in one way is taken as one in which nobody has begun anything.
fn state_is_taken<const WAY: usize>(asked: &AskedToJoin, joined: &mut Joined) {
    if joined.refusal == refusal::BOUNDS
        && can_states::ways_of(asked.state) == [FIRST_OF_STATE + WAY]
    {
        *joined = asked.answer(asked.list, joining::Joining::default(), &asked.frame);
    }
}

/// Bytes of the given state stand beside a silent answer.
fn bytes_beside_silence(asked: &AskedToJoin, joined: &mut Joined) {
    if joined.mti == 0 {
        joined.message.payload = asked.state.first.payload;
    }
}

/// Slips that show in the text of a file too.
const SLIPS: [Slip; 40] = [
    bytes_go_to_the_other_sender,
    eighteen_keeps_the_message,
    eighteen_drops_everything,
    a_start_keeps_the_old_payload,
    a_start_is_not_taken_twice,
    middle_frames_have_seven_bytes,
    a_whole_report_drops_what_was_begun,
    the_list_is_looked_up_by_place,
    senders_are_known_by_their_alias,
    senders_are_known_by_their_place,
    a_sender_is_32_bits,
    a_third_sender_takes_the_first_place,
    a_third_sender_drops_the_others,
    a_second_sender_is_one_too_many,
    the_upper_bits_of_a_header_are_not_looked_at,
    the_prefix_is_not_looked_at,
    an_mti_has_11_bits,
    longer_frames_are_taken,
    an_empty_last_frame_is_taken,
    a_shorter_middle_frame_is_taken,
    bytes_past_256_are_cut,
    two_hundred_and_fifty_six_are_too_many,
    only_last_frames_are_too_many,
    the_last_frame_forgets_nothing,
    the_second_is_not_moved_up,
    a_wrong_length_drops_the_message,
    sixteen_before_twenty_nine,
    twenty_nine_before_seven,
    nineteen_before_sixteen,
    seventeen_before_nineteen,
    twenty_before_nineteen,
    eighteen_before_nineteen,
    twenty_for_seventeen,
    twenty_before_the_old_one_is_dropped,
    the_event_is_low_byte_first,
    list_is_taken::<0>,
    list_is_taken::<1>,
    list_is_taken::<2>,
    list_is_taken::<3>,
    list_is_taken::<4>,
];
/// Slips that show in calls only.
const SLIPS_OF_CALLS: [Slip; 11] = [
    bytes_beside_silence,
    a_start_stands_where_the_old_one_stood,
    a_refusal_clears_what_is_no_part_of_the_state,
    a_sender_beside_a_refusal,
    an_event_where_nothing_is_handed_out,
    what_stands_past_the_count_is_taken,
    a_sender_past_the_count_is_there_twice,
    list_is_taken::<5>,
    state_is_taken::<0>,
    state_is_taken::<1>,
    state_is_taken::<2>,
];

/// Every slip is found by calls.
#[test]
fn slips_in_calls() {
    for (place, slip) in SLIPS.into_iter().chain(SLIPS_OF_CALLS).enumerate() {
        let stand_in = StandIn::with_join(slip);
        assert!(is_found(Sort::Can, 400, &stand_in), "slip {place}");
    }
}

/// Every slip that shows in files is found by files alone.
#[test]
fn slips_in_files() {
    for (place, slip) in SLIPS.into_iter().enumerate() {
        let stand_in = StandIn::with_join(slip);
        assert!(is_found(Sort::Frame, 1_000, &stand_in), "slip {place}");
    }
}
