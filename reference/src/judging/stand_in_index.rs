//! Slips in the index, in the stand-in for the archive's box (02, W6): here those in what is kept and in the lookup.

use std::cmp::Reverse;
use std::collections::BTreeSet;

use crate::gateway::{holds, Gateway, Line};
use crate::index::{Index, WHOLE_K, WHOLE_SPACE};
use crate::lent_box::{self, PLACES};
use crate::message::{self, reported_event};

use super::counts::Column;
use super::sort::Sort;
use super::stand_in_box::{differs, Slips, StandIn, NO_SLIPS, SOUND};
use super::stand_in_damages as damages;

/// A call that is accepted: the state before it, the lines after it, and the event of a report.
pub struct Accepted<'a> {
    before: &'a Gateway,
    lines: &'a [Line],
    event: Option<u64>,
}

impl Accepted<'_> {
    pub fn of<'a>(before: &'a Gateway, lines: &'a [Line], bytes: &[u8]) -> Accepted<'a> {
        let message = message::read(bytes).ok();
        Accepted {
            before,
            lines,
            event: message.and_then(|message| reported_event(&message)),
        }
    }

    /// The line that was added, where one was.
    fn added(&self) -> Option<&Line> {
        let last = self.lines.last()?;
        (self.lines != self.before.lines && !self.before.lines.contains(last)).then_some(last)
    }

    /// The places of the lines before that are still there.
    fn survivors(&self) -> Vec<usize> {
        let mut left = self.lines.iter().peekable();
        let stays = |place: &usize| left.next_if_eq(&&self.before.lines[*place]).is_some();
        (0..self.before.lines.len()).filter(stays).collect()
    }

    /// Whether a line is of the largest size at its port.
    fn is_of_largest_size(&self, line: &Line) -> bool {
        let at_port = self.lines.iter().filter(|other| other.port == line.port);
        at_port.map(|other| other.k).max() == Some(line.k)
    }
}

/// A slip: what it makes of the index that is rightly kept, of the ports that a report is sent to, of a given state before it is tested, and of a box that is refused.
#[derive(Clone, Copy)]
pub struct Slip {
    pub index: fn(&Accepted, &mut Index),
    pub lookup: fn(&Accepted, &mut BTreeSet<u32>),
    pub test: fn(&mut Gateway),
    pub refused: fn(&mut lent_box::Gateway),
}

pub const NONE: Slip = Slip {
    index: |_, _| {},
    lookup: |_, _| {},
    test: |_| {},
    refused: |_| {},
};

fn a_new_size_is_left_out(accepted: &Accepted, index: &mut Index) {
    if let Some(line) = accepted.added().filter(|line| line.k < WHOLE_K) {
        if !accepted.before.index.has(line.port, line.k) {
            index.sets[line.port as usize] &= !(1 << line.k);
        }
    }
}

fn a_new_whole_space_is_left_out(accepted: &Accepted, index: &mut Index) {
    if let Some(line) = accepted.added().filter(|line| line.k == WHOLE_K) {
        if !accepted.before.index.has(line.port, line.k) {
            index.sets[WHOLE_SPACE] &= !(1 << line.port);
        }
    }
}

fn the_whole_space_is_bit_0(accepted: &Accepted, index: &mut Index) {
    if let Some(line) = accepted.added().filter(|line| line.k == WHOLE_K) {
        index.sets[line.port as usize] |= 1;
    }
}

fn numbers_are_not_lowered(accepted: &Accepted, index: &mut Index) {
    let survivors = accepted.survivors();
    for number in &mut index.order {
        *number = survivors.get(*number).copied().unwrap_or(*number);
    }
}

fn numbers_are_lowered_by_one(accepted: &Accepted, index: &mut Index) {
    let survivors = accepted.survivors();
    for number in &mut index.order {
        match survivors.get(*number) {
            Some(before) if before > number => *number = before - 1,
            _ => {}
        }
    }
}

fn equal_first_events_by_later_place(accepted: &Accepted, index: &mut Index) {
    let line = |place: &usize| accepted.lines[*place];
    index.order.sort_by_key(|place| {
        (
            line(place).port,
            line(place).k,
            line(place).start,
            Reverse(*place),
        )
    });
}

fn a_new_equal_one_comes_first(accepted: &Accepted, index: &mut Index) {
    let number = accepted.lines.len().wrapping_sub(1);
    let key = |line: &Line| (line.port, line.k, line.start);
    let same = |place: &usize| key(&accepted.lines[*place]) == key(&accepted.lines[number]);
    if accepted.added().is_some() {
        let first = index.order.iter().position(same).expect("at least itself");
        index.order.retain(|other| *other != number);
        index.order.insert(first, number);
    }
}

fn a_new_number_comes_last(accepted: &Accepted, index: &mut Index) {
    let number = accepted.lines.len().wrapping_sub(1);
    if accepted.added().is_some() {
        index.order.retain(|other| *other != number);
        index.order.push(number);
    }
}

fn sizes_stay_in_their_set(accepted: &Accepted, index: &mut Index) {
    for set in 0..WHOLE_SPACE {
        index.sets[set] |= accepted.before.index.sets[set];
    }
}

fn the_whole_space_stays(accepted: &Accepted, index: &mut Index) {
    index.sets[WHOLE_SPACE] |= accepted.before.index.sets[WHOLE_SPACE];
}

fn a_size_goes_with_its_first_line(accepted: &Accepted, index: &mut Index) {
    let survivors = accepted.survivors();
    for (place, line) in accepted.before.lines.iter().enumerate() {
        if !survivors.contains(&place) && line.k < WHOLE_K {
            index.sets[line.port as usize] &= !(1 << line.k);
        }
    }
}

fn sorted_by_size_before_port(accepted: &Accepted, index: &mut Index) {
    let line = |place: &usize| accepted.lines[*place];
    index
        .order
        .sort_by_key(|place| (line(place).k, line(place).port));
}

fn sorted_by_node(accepted: &Accepted, index: &mut Index) {
    let line = |place: &usize| accepted.lines[*place];
    index
        .order
        .sort_by_key(|place| (line(place).port, line(place).k, line(place).node));
}

/// Slips in what is kept.
const OF_INDEX: [fn(&Accepted, &mut Index); 13] = [
    a_new_size_is_left_out,
    a_new_whole_space_is_left_out,
    the_whole_space_is_bit_0,
    numbers_are_not_lowered,
    numbers_are_lowered_by_one,
    equal_first_events_by_later_place,
    a_new_equal_one_comes_first,
    a_new_number_comes_last,
    sizes_stay_in_their_set,
    the_whole_space_stays,
    a_size_goes_with_its_first_line,
    sorted_by_size_before_port,
    sorted_by_node,
];

/// A report is not sent where only lines of some sizes hold it.
fn left_out(
    accepted: &Accepted,
    sent: &mut BTreeSet<u32>,
    is_left_out: impl Fn(&Accepted, &Line) -> bool,
) {
    let Some(event) = accepted.event else {
        return;
    };
    let Gateway {
        automatic, open, ..
    } = accepted.before;
    let finds = |port: u32| {
        accepted.lines.iter().any(|line| {
            line.port == port && holds((line.start, line.k), event) && !is_left_out(accepted, line)
        })
    };
    sent.retain(|port| holds(*automatic, event) || open.contains(port) || finds(*port));
}

fn the_largest_size_is_left_out(accepted: &Accepted, sent: &mut BTreeSet<u32>) {
    left_out(accepted, sent, |accepted, line| {
        accepted.is_of_largest_size(line)
    });
}

fn the_largest_of_several_sizes_is_left_out(accepted: &Accepted, sent: &mut BTreeSet<u32>) {
    left_out(accepted, sent, |accepted, line| {
        let sizes = (0..=WHOLE_K).filter(|k| accepted.before.index.has(line.port, *k));
        accepted.is_of_largest_size(line) && sizes.count() > 1
    });
}

fn the_whole_space_is_not_looked_up(accepted: &Accepted, sent: &mut BTreeSet<u32>) {
    left_out(accepted, sent, |_, line| line.k == WHOLE_K);
}

fn single_events_are_not_looked_up(accepted: &Accepted, sent: &mut BTreeSet<u32>) {
    left_out(accepted, sent, |_, line| line.k == 0);
}

fn the_last_number_is_not_looked_at(accepted: &Accepted, sent: &mut BTreeSet<u32>) {
    let last = accepted.before.index.order.last().copied();
    left_out(accepted, sent, |accepted, line| {
        last.is_some_and(|place| accepted.lines[place] == *line)
    });
}

/// Slips in the lookup.
const OF_LOOKUP: [fn(&Accepted, &mut BTreeSet<u32>); 5] = [
    the_largest_size_is_left_out,
    the_largest_of_several_sizes_is_left_out,
    the_whole_space_is_not_looked_up,
    single_events_are_not_looked_up,
    the_last_number_is_not_looked_at,
];

/// Every slip of a call is found soon, in whichever call it is, whatever the seed, in histories of nested ranges and in all others.
#[test]
fn slips() {
    let of_index = OF_INDEX.map(|index| Slip { index, ..NONE });
    let of_lookup = OF_LOOKUP.map(|lookup| Slip { lookup, ..NONE });
    let of_test = damages::OF_TEST.map(|test| Slip { test, ..NONE });
    let of_refusal = damages::OF_REFUSAL.map(|refused| Slip { refused, ..NONE });
    for (sort, slips, inputs) in [
        ("index", &of_index[..], 200),
        ("lookup", &of_lookup[..], 200),
        ("test", &of_test[..], 3_000),
        ("refusal", &of_refusal[..], 200),
    ] {
        for (place, slip) in slips.iter().enumerate() {
            let slipped = Slips {
                index: *slip,
                ..NO_SLIPS
            };
            for (by_value, in_place) in [(slipped, NO_SLIPS), (NO_SLIPS, slipped)] {
                let stand_in = StandIn::with_slips(by_value, in_place);
                for of in [Sort::Box, Sort::Nest] {
                    let column = &mut Column::default();
                    let found = |index| differs(1, of, index, &stand_in, column);
                    let name = of.name();
                    assert!((0..inputs).any(found), "{sort} {place} with {name}");
                }
            }
        }
    }
}

/// What a start leaves past the count of its index is found, and a set that is not empty.
#[test]
fn slips_of_a_start() {
    let starts: [fn(&mut lent_box::Gateway); 3] = [
        |gateway| gateway.order[0] = 1,
        |gateway| gateway.order[PLACES - 1] = 1,
        |gateway| gateway.sets[WHOLE_SPACE] = 1,
    ];
    for (place, start) in starts.into_iter().enumerate() {
        let stand_in = StandIn { start, ..SOUND };
        let column = &mut Column::default();
        let found = |index| differs(1, Sort::Box, index, &stand_in, column);
        assert!((0..50).any(found), "slip {place}");
    }
}
