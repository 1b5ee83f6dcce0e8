//! Slips at an announcement, in the stand-in for the archive's box (02, W4): those in what is replaced, in what a full table does, and in the order of the lines.

use crate::gateway::{Gateway, Line, MOST_LINES};
use crate::range::Comparison;

use super::near_blocks::around;
use super::stand_in_covers::{Announcement, Slip};

fn held_lines_stay(announcement: &Announcement, after: &mut Gateway) {
    if announcement.replaces() {
        announcement.stores(after, |_| false);
    }
}

/// One of the held lines goes, and no other.
fn goes(gone: Option<&Line>, announcement: &Announcement, after: &mut Gateway) {
    if announcement.replaces() {
        announcement.stores(after, |line| Some(line) == gone);
    }
}

fn only_the_first_goes(announcement: &Announcement, after: &mut Gateway) {
    let mut lines = announcement.before.lines.iter();
    let first = lines.find(|line| announcement.line.is_over(line));
    goes(first, announcement, after);
}

fn only_the_last_goes(announcement: &Announcement, after: &mut Gateway) {
    let mut lines = announcement.before.lines.iter();
    let last = lines.rfind(|line| announcement.line.is_over(line));
    goes(last, announcement, after);
}

fn only_events_go(announcement: &Announcement, after: &mut Gateway) {
    if announcement.replaces() {
        announcement.stores(after, |line| announcement.line.is_over(line) && line.k == 0);
    }
}

fn only_halves_go(announcement: &Announcement, after: &mut Gateway) {
    let half = |line: &Line| line.k + 1 == announcement.line.k;
    if announcement.replaces() {
        announcement.stores(after, |line| announcement.line.is_over(line) && half(line));
    }
}

fn every_event_replaces_nothing(announcement: &Announcement, after: &mut Gateway) {
    if announcement.line.k == 64 {
        held_lines_stay(announcement, after);
    }
}

fn another_nodes_lines_go(announcement: &Announcement, after: &mut Gateway) {
    if announcement.replaces() {
        announcement.stores(after, |line| {
            let over = announcement.lies(line) == Some(Comparison::SecondInside);
            over && line.port == announcement.line.port
        });
    }
}

fn another_ports_lines_go(announcement: &Announcement, after: &mut Gateway) {
    if announcement.replaces() {
        announcement.stores(after, |line| {
            let over = announcement.lies(line) == Some(Comparison::SecondInside);
            over && line.node == announcement.line.node
        });
    }
}

fn lines_of_any_go_where_none_is_own(announcement: &Announcement, after: &mut Gateway) {
    if !announcement.is_covered() && !announcement.replaces() {
        announcement.stores(after, |line| {
            announcement.lies(line) == Some(Comparison::SecondInside)
        });
    }
}

fn the_other_half_goes(announcement: &Announcement, after: &mut Gateway) {
    let Line { start, k, .. } = announcement.line;
    if announcement.is_covered() || k == 64 {
        return;
    }
    let (start, k) = around(start, k + 1);
    let wider = Line {
        start,
        k,
        ..announcement.line
    };
    announcement.stores(after, |line| wider.is_over(line));
}

fn what_replaces_is_not_stored(announcement: &Announcement, after: &mut Gateway) {
    if announcement.replaces() {
        after.lines.pop();
    }
}

fn a_full_table_opens_too(announcement: &Announcement, after: &mut Gateway) {
    if announcement.replaces() && announcement.is_full() {
        after.open.insert(announcement.line.port);
    }
}

fn a_full_table_opens_in_place_of_that(announcement: &Announcement, after: &mut Gateway) {
    if announcement.replaces() && announcement.is_full() {
        announcement.ignores(after);
        after.open.insert(announcement.line.port);
    }
}

fn a_full_table_replaces_nothing(announcement: &Announcement, after: &mut Gateway) {
    if announcement.replaces() && announcement.is_full() {
        announcement.ignores(after);
    }
}

fn a_full_table_opens_where_one_line_goes(announcement: &Announcement, after: &mut Gateway) {
    if after.lines.len() == MOST_LINES {
        a_full_table_opens_too(announcement, after);
    }
}

fn a_full_table_never_opens(announcement: &Announcement, after: &mut Gateway) {
    after.open.clone_from(&announcement.before.open);
}

fn replacing_closes_the_port(announcement: &Announcement, after: &mut Gateway) {
    if announcement.replaces() {
        after.open.remove(&announcement.line.port);
    }
}

fn at_the_first_freed_place(announcement: &Announcement, after: &mut Gateway) {
    let mut lines = announcement.before.lines.iter();
    let freed = lines.position(|line| announcement.line.is_over(line));
    if let (true, Some(place)) = (announcement.replaces(), freed) {
        after.lines.pop();
        after.lines.insert(place, announcement.line);
    }
}

fn at_the_front(announcement: &Announcement, after: &mut Gateway) {
    if announcement.replaces() {
        after.lines.rotate_right(1);
    }
}

fn the_rest_is_reversed(announcement: &Announcement, after: &mut Gateway) {
    if announcement.replaces() {
        let rest = after.lines.len() - 1;
        after.lines[..rest].reverse();
    }
}

fn the_last_line_fills_the_gap(announcement: &Announcement, after: &mut Gateway) {
    if !announcement.replaces() {
        return;
    }
    announcement.ignores(after);
    let is_over = |line: &Line| announcement.line.is_over(line);
    while let Some(place) = after.lines.iter().position(is_over) {
        after.lines.swap_remove(place);
    }
    after.lines.push(announcement.line);
}

fn an_equal_line_goes_to_the_end(announcement: &Announcement, after: &mut Gateway) {
    let mut lines = after.lines.iter();
    if let Some(place) = lines.position(|line| *line == announcement.line) {
        let line = after.lines.remove(place);
        after.lines.push(line);
    }
}

fn nested_lines_are_tidied(_: &Announcement, after: &mut Gateway) {
    let lines = after.lines.clone();
    after.lines.retain(|line| {
        let over = |other: &Line| other.is_over(line);
        !lines.iter().any(over)
    });
}

fn equal_lines_are_tidied(_: &Announcement, after: &mut Gateway) {
    let mut kept: Vec<Line> = Vec::new();
    for line in &after.lines {
        if !kept.contains(line) {
            kept.push(*line);
        }
    }
    after.lines = kept;
}

fn covered_replaces_what_it_holds(announcement: &Announcement, after: &mut Gateway) {
    if announcement.is_covered() {
        after.lines.retain(|line| !announcement.line.is_over(line));
    }
}

fn equal_lines_go_one_at_a_time(announcement: &Announcement, after: &mut Gateway) {
    let mut gone: Vec<Line> = Vec::new();
    if !announcement.replaces() {
        return;
    }
    announcement.ignores(after);
    after.lines.retain(|line| {
        let goes = announcement.line.is_over(line) && !gone.contains(line);
        if goes {
            gone.push(*line);
        }
        !goes
    });
    after.lines.push(announcement.line);
}

/// Slips that trial files show.
pub const SLIPS: [Slip; 16] = [
    held_lines_stay,
    only_the_first_goes,
    only_the_last_goes,
    only_events_go,
    only_halves_go,
    every_event_replaces_nothing,
    another_nodes_lines_go,
    another_ports_lines_go,
    lines_of_any_go_where_none_is_own,
    the_other_half_goes,
    what_replaces_is_not_stored,
    a_full_table_opens_too,
    a_full_table_opens_in_place_of_that,
    a_full_table_replaces_nothing,
    a_full_table_opens_where_one_line_goes,
    a_full_table_never_opens,
];
/// Slips in the order of the lines, which `trial` does not show.
pub const OF_ORDER: [Slip; 5] = [
    at_the_first_freed_place,
    at_the_front,
    the_rest_is_reversed,
    the_last_line_fills_the_gap,
    an_equal_line_goes_to_the_end,
];
/// Slips with lines that only a given table has, or with a mark that seldom stands beside them in one from a start.
pub const OF_GIVEN: [Slip; 5] = [
    nested_lines_are_tidied,
    equal_lines_are_tidied,
    covered_replaces_what_it_holds,
    equal_lines_go_one_at_a_time,
    replacing_closes_the_port,
];
