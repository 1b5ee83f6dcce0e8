//! Slips at a restart, in the stand-in for the archive's box (02, W5): those of a pass over the table that closes the gaps and keeps the survivors.

use crate::gateway::{Gateway, Line, MOST_LINES};

use super::shapes::Shape;
use super::stand_in_restarts::{Restart, Slip};

impl Restart<'_> {
    /// The place of the first line that goes.
    fn first_gap(&self) -> Option<usize> {
        let mut lines = self.before.lines.iter();
        lines.position(|line| self.is_own(line))
    }

    /// The line that stood where the first survivor after the first gap is to stand, and that survivor.
    fn first_moved<'a>(&self, after: &'a mut Gateway) -> Option<(Line, &'a mut Line)> {
        let place = self.first_gap()?;
        let survivor = after.lines.get_mut(place)?;
        Some((self.before.lines[place], survivor))
    }
}

fn the_first_survivor_after_a_gap_is_not_moved(restart: &Restart, after: &mut Gateway) {
    if let Some((old, survivor)) = restart.first_moved(after) {
        *survivor = old;
    }
}

fn the_first_survivor_after_a_gap_is_lost(restart: &Restart, after: &mut Gateway) {
    match restart.first_gap() {
        Some(place) if place < after.lines.len() => {
            after.lines.remove(place);
        }
        _ => {}
    }
}

fn the_last_survivor_is_not_moved(restart: &Restart, after: &mut Gateway) {
    let kept = after.lines.len();
    if restart.first_gap().is_some_and(|place| place < kept) {
        after.lines[kept - 1] = restart.before.lines[kept - 1];
    }
}

fn a_survivors_node_is_not_moved(restart: &Restart, after: &mut Gateway) {
    if let Some((old, survivor)) = restart.first_moved(after) {
        survivor.node = old.node;
    }
}

fn a_survivors_port_is_not_moved(restart: &Restart, after: &mut Gateway) {
    if let Some((old, survivor)) = restart.first_moved(after) {
        survivor.port = old.port;
    }
}

fn a_survivors_start_is_not_moved(restart: &Restart, after: &mut Gateway) {
    if let Some((old, survivor)) = restart.first_moved(after) {
        survivor.start = old.start;
    }
}

fn a_survivors_size_is_not_moved(restart: &Restart, after: &mut Gateway) {
    if let Some((old, survivor)) = restart.first_moved(after) {
        survivor.k = old.k;
    }
}

fn a_survivors_block_is_not_moved(restart: &Restart, after: &mut Gateway) {
    if let Some((old, survivor)) = restart.first_moved(after) {
        (survivor.start, survivor.k) = (old.start, old.k);
    }
}

fn the_second_of_two_neighbours_stays(restart: &Restart, after: &mut Gateway) {
    after.lines = restart.before.lines.clone();
    let mut place = 0;
    while place < after.lines.len() {
        if restart.is_own(&after.lines[place]) {
            after.lines.remove(place);
        }
        // The line that has come up into this place is passed over.
        place += 1;
    }
}

fn only_the_first_gap_is_closed(restart: &Restart, after: &mut Gateway) {
    after.lines = restart.before.lines.clone();
    if let Some(first) = restart.first_gap() {
        let gap = after.lines[first..].iter();
        let length = gap.take_while(|line| restart.is_own(line)).count();
        after.lines.drain(first..first + length);
    }
}

fn survivors_between_gaps_go_too(restart: &Restart, after: &mut Gateway) {
    let mut lines = restart.before.lines.iter();
    let last = lines.rposition(|line| restart.is_own(line));
    if let (Some(first), Some(last)) = (restart.first_gap(), last) {
        after.lines = restart.before.lines.clone();
        after.lines.drain(first..=last);
    }
}

fn the_first_place_is_passed_over(restart: &Restart, after: &mut Gateway) {
    if restart.first_gap() == Some(0) {
        after.lines.insert(0, restart.before.lines[0]);
    }
}

fn the_last_place_is_passed_over(restart: &Restart, after: &mut Gateway) {
    match restart.before.lines.last() {
        Some(last) if restart.is_own(last) => after.lines.push(*last),
        _ => {}
    }
}

fn the_last_place_of_a_full_table_is_passed_over(restart: &Restart, after: &mut Gateway) {
    if restart.before.lines.len() == MOST_LINES {
        the_last_place_is_passed_over(restart, after);
    }
}

fn the_count_is_one_too_many(restart: &Restart, after: &mut Gateway) {
    if restart.first_gap().is_some() {
        after.lines.push(restart.before.lines[after.lines.len()]);
    }
}

fn the_count_is_one_too_few(restart: &Restart, after: &mut Gateway) {
    if restart.first_gap().is_some() {
        after.lines.pop();
    }
}

fn without_a_line_the_last_one_goes(restart: &Restart, after: &mut Gateway) {
    if restart.first_gap().is_none() {
        after.lines.pop();
    }
}

fn two_survivors_after_the_gap_change_over(restart: &Restart, after: &mut Gateway) {
    let moved = after
        .lines
        .iter_mut()
        .skip(restart.first_gap().unwrap_or(MOST_LINES));
    change_over(moved);
}

fn the_last_two_survivors_change_over(restart: &Restart, after: &mut Gateway) {
    let first = restart.first_gap().unwrap_or(MOST_LINES);
    change_over(after.lines.iter_mut().skip(first).rev());
}

fn two_survivors_before_the_gap_change_over(restart: &Restart, after: &mut Gateway) {
    let first = restart.first_gap().unwrap_or(0);
    change_over(after.lines[..first].iter_mut().rev());
}

/// The first two lines of these, where there are so many.
fn change_over<'a>(mut lines: impl Iterator<Item = &'a mut Line>) {
    if let (Some(one), Some(other)) = (lines.next(), lines.next()) {
        std::mem::swap(one, other);
    }
}

/// A line too many where a full table is of one shape, by its place among the shapes, and nowhere else.
fn a_line_too_many_in_a_shape<const PLACE: usize>(restart: &Restart, after: &mut Gateway) {
    let lines = &restart.before.lines;
    let shape = Shape::of(lines, restart.node);
    if lines.len() == MOST_LINES && shape == Some(Shape::ALL[PLACE]) {
        after.lines.push(lines[0]);
    }
}

/// Slips that trial files show.
pub const SLIPS: [Slip; 17] = [
    the_first_survivor_after_a_gap_is_not_moved,
    the_first_survivor_after_a_gap_is_lost,
    the_last_survivor_is_not_moved,
    a_survivors_node_is_not_moved,
    a_survivors_port_is_not_moved,
    a_survivors_start_is_not_moved,
    a_survivors_size_is_not_moved,
    a_survivors_block_is_not_moved,
    the_second_of_two_neighbours_stays,
    only_the_first_gap_is_closed,
    survivors_between_gaps_go_too,
    the_first_place_is_passed_over,
    the_last_place_is_passed_over,
    the_last_place_of_a_full_table_is_passed_over,
    the_count_is_one_too_many,
    the_count_is_one_too_few,
    without_a_line_the_last_one_goes,
];
/// Slips in the order of the lines, which `trial` does not show.
pub const OF_ORDER: [Slip; 3] = [
    two_survivors_after_the_gap_change_over,
    the_last_two_survivors_change_over,
    two_survivors_before_the_gap_change_over,
];
/// Slips in the count of lines, which the reasons need not show, one for each shape.
pub const OF_COUNT: [Slip; Shape::ALL.len()] = [
    a_line_too_many_in_a_shape::<0>,
    a_line_too_many_in_a_shape::<1>,
    a_line_too_many_in_a_shape::<2>,
    a_line_too_many_in_a_shape::<3>,
    a_line_too_many_in_a_shape::<4>,
    a_line_too_many_in_a_shape::<5>,
    a_line_too_many_in_a_shape::<6>,
    a_line_too_many_in_a_shape::<7>,
];
