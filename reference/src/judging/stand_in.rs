//! Stands in for the archive in tests of the judge: the reference itself, with a slip in it or without.

use crate::call::Call;
use crate::lent_board::LentBoard;
use crate::node::{Slot, ADVERTISED, INITIALIZED};
use crate::refusal;

use super::calls::{self, Faces, Left};
use super::command::{Amounts, Judge, Options};
use super::counts::Columns;
use super::random::Dice;
use super::reached;
use super::sort::Sort;
use super::witness::Witness;

/// A slip: what it makes of what a call rightly leaves, beside the board before the call and the call.
type Slip = fn(&LentBoard, &Call, &mut Left);

/// A stand-in with a slip on each face.
struct StandIn {
    on_records: Slip,
    on_lists: Slip,
}

/// What a call leaves, with a slip.
fn left(board: &LentBoard, call: &Call, output: &[u8], slip: Slip) -> Left {
    let mut after = board.clone();
    let answer = after.call(|node| call.make(node));
    let mut left = Left::of_reference(&after, &answer, output);
    slip(board, call, &mut left);
    left
}

impl Faces for StandIn {
    fn on_records(&self, board: &LentBoard, call: &Call, output: &[u8]) -> Left {
        left(board, call, output, self.on_records)
    }

    fn on_lists(&self, board: &LentBoard, call: &Call, output: &[u8]) -> Left {
        left(board, call, output, self.on_lists)
    }
}

fn none(_: &LentBoard, _: &Call, _: &mut Left) {}

fn announce_marks_its_slot_only(before: &LentBoard, call: &Call, left: &mut Left) {
    if let (Call::Announce { slot, .. }, refusal::NONE) = (call, left.refusal) {
        left.slots.0 = before.slots.clone();
        left.slots.0[*slot].mark = ADVERTISED;
    }
}

fn status_is_set_in_the_next_slot(before: &LentBoard, call: &Call, left: &mut Left) {
    if let (Call::SetStatus { slot, status }, refusal::NONE) = (call, left.refusal) {
        left.slots.0 = before.slots.clone();
        left.slots.0[(slot + 1) % before.lengths[0]].status = *status;
    }
}

fn status_is_set_to_any_number(before: &LentBoard, call: &Call, left: &mut Left) {
    if let (Call::SetStatus { slot, status }, refusal::NO_SLOT) = (call, left.refusal) {
        if *slot < before.lengths[0] {
            left.refusal = refusal::NONE;
            left.slots.0[*slot].status = *status;
        }
    }
}

fn unequal_lists_are_three(before: &LentBoard, _: &Call, left: &mut Left) {
    if !before.lists_are_equal() {
        left.refusal = refusal::NODE_ID;
    }
}

fn longer_marks_are_taken(before: &LentBoard, call: &Call, left: &mut Left) {
    let [roles, events, statuses, marks] = before.lengths;
    if [events, statuses] == [roles; 2] && marks > roles {
        let mut cut = before.clone();
        cut.lengths = [roles; 4];
        left.refusal = cut.call(|node| call.make(node)).refusal;
    }
}

fn three_comes_before_seven(before: &LentBoard, _: &Call, left: &mut Left) {
    if left.refusal == refusal::BOUNDS && !crate::message::is_node_id(before.id) {
        left.refusal = refusal::NODE_ID;
    }
}

/// A board out of bounds by these numbers only is taken as one that does nothing.
fn taken_if(is_taken: impl Fn(&LentBoard, &[Slot]) -> bool, before: &LentBoard, left: &mut Left) {
    let lent = &before.slots[..before.lengths[0]];
    if left.refusal == refusal::BOUNDS && before.lists_are_equal() && is_taken(before, lent) {
        left.refusal = refusal::NONE;
    }
}

fn any_state_is_taken(before: &LentBoard, _: &Call, left: &mut Left) {
    taken_if(|board, _| board.state > INITIALIZED, before, left);
}

fn any_mark_is_taken(before: &LentBoard, _: &Call, left: &mut Left) {
    let bad = |slots: &[Slot]| slots.iter().any(|slot| slot.mark > ADVERTISED);
    taken_if(|_, slots| bad(slots), before, left);
}

fn early_marks_are_taken(before: &LentBoard, _: &Call, left: &mut Left) {
    let early = |slots: &[Slot]| slots.iter().any(|slot| slot.mark == ADVERTISED);
    taken_if(
        |board, slots| board.state == 0 && early(slots),
        before,
        left,
    );
}

fn single_events_are_automatic_blocks(before: &LentBoard, _: &Call, left: &mut Left) {
    taken_if(|board, _| board.automatic.1 == 0, before, left);
}

fn slots_are_counted_in_a_byte(before: &LentBoard, _: &Call, left: &mut Left) {
    taken_if(
        |_, slots| slots.len() > 64 && slots.len() % 256 <= 64,
        before,
        left,
    );
}

fn slot_is_a_byte(before: &LentBoard, call: &Call, left: &mut Left) {
    if let (Call::Announce { slot, .. }, refusal::NO_SLOT) = (call, left.refusal) {
        if slot % 256 < before.lengths[0] {
            left.refusal = refusal::NONE;
        }
    }
}

fn a_byte_past_what_is_written(_: &LentBoard, _: &Call, left: &mut Left) {
    left.rest.0[0] ^= 1;
}

fn a_slot_past_what_is_lent(_: &LentBoard, _: &Call, left: &mut Left) {
    left.slots.0.last_mut().expect("a guard").status ^= 1;
}

fn one_message_however_many(_: &LentBoard, _: &Call, left: &mut Left) {
    left.messages = left.messages.min(1);
}

fn the_highest_slot_never_matches(_: &LentBoard, _: &Call, left: &mut Left) {
    left.matches &= u64::MAX >> 1;
}

fn a_report_matches_the_first_slot_too(_: &LentBoard, _: &Call, left: &mut Left) {
    left.matches |= u64::from(left.matches != 0);
}

fn an_answer_marks_the_lowest_slot_only(before: &LentBoard, call: &Call, left: &mut Left) {
    if matches!(call, Call::Receive { .. }) {
        let alike = |one: &Slot, other: &Slot| (one.role, one.event) == (other.role, other.event);
        for (place, slot) in before.slots.iter().enumerate() {
            if before.slots[..place].iter().any(|lower| alike(lower, slot)) {
                left.slots.0[place].mark = slot.mark;
            }
        }
    }
}

fn a_call_changes_the_node_id(_: &LentBoard, _: &Call, left: &mut Left) {
    left.id ^= 1;
}

/// Slips that both faces can have.
const SLIPS: [Slip; 17] = [
    announce_marks_its_slot_only,
    status_is_set_in_the_next_slot,
    status_is_set_to_any_number,
    three_comes_before_seven,
    any_state_is_taken,
    any_mark_is_taken,
    early_marks_are_taken,
    single_events_are_automatic_blocks,
    slots_are_counted_in_a_byte,
    slot_is_a_byte,
    a_byte_past_what_is_written,
    a_slot_past_what_is_lent,
    one_message_however_many,
    the_highest_slot_never_matches,
    a_report_matches_the_first_slot_too,
    an_answer_marks_the_lowest_slot_only,
    a_call_changes_the_node_id,
];
/// Slips that only lists can have.
const SLIPS_OF_LISTS: [Slip; 2] = [unequal_lists_are_three, longer_marks_are_taken];
const JUDGE: Judge = Judge {
    name: "stand-in",
    sorts: &[Sort::Calls],
    amounts: Amounts {
        files: 2_000,
        small: 0,
        times: 0,
    },
    without: &[],
};

/// How many of the inputs differ, and what they have reached.
fn differences(seed: u64, inputs: u64, stand_in: &StandIn) -> (u64, Columns) {
    let mut columns = Columns::default();
    let mut differing = 0;
    for index in 0..inputs {
        let column = &mut columns[Sort::Calls as usize];
        column.saw_input();
        let mut witness = Witness::new(column, false);
        let mut dice = Dice::of_input(seed, Sort::Calls as u64, index);
        calls::judge(&mut dice, &mut witness, stand_in);
        differing += u64::from(!witness.agreed());
    }
    (differing, columns)
}

/// A sound archive agrees on every input, and as many inputs as there are by default reach every row.
#[test]
fn a_sound_archive() {
    let sound = StandIn {
        on_records: none,
        on_lists: none,
    };
    for seed in 1..=2 {
        let (differing, columns) = differences(seed, JUDGE.amounts.files, &sound);
        assert_eq!(differing, 0);
        let options = Options {
            seed,
            amounts: JUDGE.amounts,
            only: None,
            help: false,
        };
        assert_eq!(reached::faults(&JUDGE, &options, &columns), [""; 0]);
    }
}

/// Every slip is found, on whichever face it is.
#[test]
fn slips() {
    for (place, slip) in SLIPS.into_iter().enumerate() {
        let stand_in = StandIn {
            on_records: slip,
            on_lists: none,
        };
        assert!(differences(1, 300, &stand_in).0 > 0, "slip {place}");
    }
    for (place, slip) in SLIPS.into_iter().chain(SLIPS_OF_LISTS).enumerate() {
        let stand_in = StandIn {
            on_records: none,
            on_lists: slip,
        };
        assert!(differences(1, 300, &stand_in).0 > 0, "slip {place}");
    }
}
