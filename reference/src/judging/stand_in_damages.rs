//! Slips in the index, in the stand-in for the archive's box (02, W6): those in the test of a given index, at a refusal, and in the answer why.

use crate::gateway::{Gateway, Line};
use crate::index::{Index, SETS, WHOLE_SPACE};
use crate::lent_box::{self, Reason, PLACES};
use crate::message::{self, reported_event};
use crate::refusal;

use super::counts::Column;
use super::sort::Sort;
use super::stand_in_box::{differs, StandIn};
use super::stand_in_why::Asked;

/// The index is taken for the right one where it is of a kind; one that cannot be told from the right one by a test is let through so.
fn takes(state: &mut Gateway, is_taken: impl Fn(&Index, &Index, &[Line]) -> bool) {
    let right = Index::of(&state.lines);
    if is_taken(&state.index, &right, &state.lines) {
        state.index = right;
    }
}

/// Whether the sets are right and neighbours in the order are as they should be.
fn neighbours_are(given: &Index, right: &Index, are: impl Fn(usize, usize) -> bool) -> bool {
    let below = |number: &usize| *number < right.order.len();
    let mut pairs = given.order.windows(2);
    given.sets == right.sets
        && given.order.iter().all(below)
        && pairs.all(|pair| are(pair[0], pair[1]))
}

fn a_number_twice_is_let_through(state: &mut Gateway) {
    takes(state, |given, right, lines| {
        let key = |place: usize| (lines[place].port, lines[place].k, lines[place].start, place);
        neighbours_are(given, right, |one, next| key(one) <= key(next))
    });
}

fn places_of_equal_ones_are_not_tested(state: &mut Gateway) {
    takes(state, |given, right, lines| {
        let key = |place: usize| (lines[place].port, lines[place].k, lines[place].start);
        neighbours_are(given, right, |one, next| {
            key(one) <= key(next) && one != next
        })
    });
}

fn any_order_of_all_numbers_is_taken(state: &mut Gateway) {
    takes(state, |given, right, _| {
        let (mut given_order, mut all) = (given.order.clone(), right.order.clone());
        given_order.sort();
        all.sort();
        given.sets == right.sets && given_order == all
    });
}

fn order_is_not_tested(state: &mut Gateway) {
    takes(state, |given, right, _| given.sets == right.sets);
}

/// Of a number at the count or past it only the sets are tested.
fn numbers_at_the_count_are_let_through(state: &mut Gateway) {
    takes(state, |given, right, lines| {
        let past = |number: &usize| *number >= lines.len();
        given.sets == right.sets && given.order.iter().any(past)
    });
}

fn the_last_place_is_not_tested(state: &mut Gateway) {
    takes(state, |given, right, _| {
        let last = right.order.len().saturating_sub(1);
        given.sets == right.sets && given.order.get(..last) == right.order.get(..last)
    });
}

/// A set that is not tested.
fn set_is_not_tested<const SET: usize>(state: &mut Gateway) {
    takes(state, |given, right, _| {
        let tested = |set: usize| set == SET || given.sets[set] == right.sets[set];
        given.order == right.order && (0..SETS).all(tested)
    });
}

/// Sizes that no line has are let through, or such as a line has and the set has not.
fn sets_may_have_more(state: &mut Gateway) {
    takes(state, |given, right, _| {
        let mut pairs = given.sets.iter().zip(right.sets);
        given.order == right.order && pairs.all(|(given, right)| given & right == right)
    });
}

fn sets_may_have_less(state: &mut Gateway) {
    takes(state, |given, right, _| {
        let mut pairs = given.sets.iter().zip(right.sets);
        given.order == right.order && pairs.all(|(given, right)| given & !right == 0)
    });
}

/// Ports that are not there may have any sizes.
fn sets_past_the_ports_are_not_tested(state: &mut Gateway) {
    let ports = state.ports.min(8) as usize;
    takes(state, |given, right, _| {
        let (given_there, right_there) = (&given.sets[..ports], &right.sets[..ports]);
        let whole = given.sets[WHOLE_SPACE] == right.sets[WHOLE_SPACE];
        given.order == right.order && given_there == right_there && whole
    });
}

fn the_whole_space_past_the_ports_is_not_tested(state: &mut Gateway) {
    let there = (1 << state.ports.min(8)) - 1;
    takes(state, |given, right, _| {
        let of_ports = given.sets[..WHOLE_SPACE] == right.sets[..WHOLE_SPACE];
        let whole = (given.sets[WHOLE_SPACE] ^ right.sets[WHOLE_SPACE]) & there == 0;
        given.order == right.order && of_ports && whole
    });
}

/// Slips in the test of a given index.
pub const OF_TEST: [fn(&mut Gateway); 19] = [
    a_number_twice_is_let_through,
    places_of_equal_ones_are_not_tested,
    any_order_of_all_numbers_is_taken,
    order_is_not_tested,
    numbers_at_the_count_are_let_through,
    the_last_place_is_not_tested,
    set_is_not_tested::<0>,
    set_is_not_tested::<1>,
    set_is_not_tested::<2>,
    set_is_not_tested::<3>,
    set_is_not_tested::<4>,
    set_is_not_tested::<5>,
    set_is_not_tested::<6>,
    set_is_not_tested::<7>,
    set_is_not_tested::<8>,
    sets_may_have_more,
    sets_may_have_less,
    sets_past_the_ports_are_not_tested,
    the_whole_space_past_the_ports_is_not_tested,
];

fn a_number_past_the_count_is_written(after: &mut lent_box::Gateway) {
    if after.head.count < PLACES {
        after.order[after.head.count] = after.order[after.head.count].wrapping_add(1);
    }
}

fn the_last_place_is_cleared(after: &mut lent_box::Gateway) {
    after.order[PLACES - 1] = 0;
}

fn the_index_is_put_right(after: &mut lent_box::Gateway) {
    after.set_index(&Index::of(&after.lines()));
}

/// Slips at a refusal.
pub const OF_REFUSAL: [fn(&mut lent_box::Gateway); 3] = [
    a_number_past_the_count_is_written,
    the_last_place_is_cleared,
    the_index_is_put_right,
];

fn order_is_not_tested_by_why(asked: &Asked, reason: &mut Reason) {
    if reason.refusal == refusal::BOUNDS {
        *reason = asked.in_state(order_is_not_tested);
    }
}

fn sets_are_not_tested_by_why(asked: &Asked, reason: &mut Reason) {
    if reason.refusal == refusal::BOUNDS {
        *reason = asked.in_state(|state| {
            takes(state, |given, right, _| given.order == right.order);
        });
    }
}

fn a_wrong_index_is_eight_before_seven(asked: &Asked, reason: &mut Reason) {
    if reason.refusal == refusal::BOUNDS && asked.asked >= asked.state.ports {
        *reason = asked.in_state(|state| takes(state, |_, _, _| true));
    }
}

fn why_answers_by_the_index(asked: &Asked, reason: &mut Reason) {
    let event = message::read(asked.bytes)
        .ok()
        .and_then(|message| reported_event(&message));
    if let (4, Some(event)) = (reason.reason, event) {
        let Gateway { lines, index, .. } = &asked.state;
        let place = index.line_for(lines, asked.asked, event);
        *reason = asked.held_in(place.expect("one holds it"));
    }
}

/// Every slip of the question why is found.
#[test]
fn slips_of_why() {
    for (place, why) in [
        order_is_not_tested_by_why,
        sets_are_not_tested_by_why,
        a_wrong_index_is_eight_before_seven,
        why_answers_by_the_index,
    ]
    .into_iter()
    .enumerate()
    {
        let stand_in = StandIn::with_why(why);
        let column = &mut Column::default();
        let found = |index| differs(1, Sort::Box, index, &stand_in, column);
        assert!((0..1_000).any(found), "slip {place}");
    }
}
