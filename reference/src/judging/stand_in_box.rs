//! Stands in for the archive's box in tests of the judge: the reference itself, with a slip in its answer why, at a restart, at an announcement or in its index, or without.

use crate::gateway::{self, LENT_LENGTHS};
use crate::lent_box::{Answer, Block, Gateway, Head, LentAnswer, Lists, Reason, PLACES};
use crate::refusal;

use super::boxes::{self, Calls};
use super::command::{Amounts, Judge, Options};
use super::counts::{Column, Columns};
use super::functions::Function;
use super::nests;
use super::questions::reason_of;
use super::random::Dice;
use super::reached;
use super::rows::Row;
use super::sort::Sort;
use super::stand_in_covers::{self as covers, Announcement};
use super::stand_in_index::{self as indexes, Accepted};
use super::stand_in_restarts::{self as restarts, Restart};
use super::stand_in_why::{self as whys, Asked};
use super::witness::Witness;

/// The slips of a call that takes a message.
#[derive(Clone, Copy)]
pub struct Slips {
    pub restart: restarts::Slip,
    pub announcement: covers::Slip,
    pub index: indexes::Slip,
}

/// None.
pub const NO_SLIPS: Slips = Slips {
    restart: restarts::none,
    announcement: covers::none,
    index: indexes::NONE,
};

/// A stand-in with slips in each call.
pub struct StandIn {
    pub by_value: Slips,
    pub in_place: Slips,
    pub why: whys::Slip,
    /// What it leaves in the box that it starts.
    pub start: fn(&mut Gateway),
    /// What it writes into lists that it only has to read.
    pub writes: fn(Lists),
    /// The list whose length it does not test, if there is one.
    pub untested: Option<usize>,
}

/// One without a slip.
pub const SOUND: StandIn = StandIn {
    by_value: NO_SLIPS,
    in_place: NO_SLIPS,
    why: whys::none,
    start: |_| {},
    writes: |_| {},
    untested: None,
};

impl StandIn {
    /// One with a slip in its answer why.
    pub fn with_why(why: whys::Slip) -> StandIn {
        StandIn { why, ..SOUND }
    }

    /// One with slips in either call.
    pub fn with_slips(by_value: Slips, in_place: Slips) -> StandIn {
        StandIn {
            by_value,
            in_place,
            ..SOUND
        }
    }

    /// How long the lists are, as it takes them.
    fn lengths(&self, lists: &Lists) -> [usize; 6] {
        let mut lengths = lists.lengths();
        if let Some(list) = self.untested {
            lengths[list] = LENT_LENGTHS[list];
        }
        lengths
    }
}

/// The state as the reference has it; a count past the places is a line too many.
fn state_of(gateway: &Gateway) -> gateway::Gateway {
    let mut lines = gateway.lines();
    if gateway.head.count > PLACES {
        lines.push(gateway.line(0));
    }
    let Head {
        ports,
        marks,
        automatic,
        ..
    } = gateway.head;
    gateway::Gateway {
        ports: ports.into(),
        automatic: (automatic.start, automatic.k.into()),
        lines,
        open: (0..8).filter(|port| marks >> port & 1 == 1).collect(),
        index: gateway.index(),
    }
}

/// The box of a head and lists, as much as is lent; the rest is 0.
fn box_of(head: Head, lists: &Lists) -> Gateway {
    let mut gateway = Gateway::bare(head);
    fill(&mut gateway.nodes, lists.nodes);
    fill(&mut gateway.starts, lists.starts);
    fill(&mut gateway.ports, lists.ports);
    fill(&mut gateway.sizes, lists.sizes);
    fill(&mut gateway.order, lists.order);
    fill(&mut gateway.sets, lists.sets);
    gateway
}

/// Puts as many numbers of the second list into the first as it has places.
fn fill<T: Copy>(places: &mut [T], numbers: &[T]) {
    let count = places.len().min(numbers.len());
    places[..count].copy_from_slice(&numbers[..count]);
}

fn bits(ports: impl IntoIterator<Item = u32>) -> u8 {
    ports.into_iter().map(|port| 1u8 << port).sum()
}

/// The answer to a message, with a slip where it is a restart or an announcement, and with one in the index.
fn received(gateway: &Gateway, port: u8, bytes: &[u8], slips: Slips) -> Answer {
    let mut before = state_of(gateway);
    (slips.index.test)(&mut before);
    let mut state = before.clone();
    let mut outcome = state.receive(port.into(), bytes);
    let mut after = *gateway;
    if outcome.refusal == refusal::NONE {
        if let Some(restart) = Restart::of(&before, port, bytes) {
            (slips.restart)(&restart, &mut state);
        }
        if let Some(announcement) = Announcement::of(&before, port, bytes) {
            (slips.announcement)(&announcement, &mut state);
        }
        state.set_lines(state.lines.clone());
        let accepted = Accepted::of(&before, &state.lines, bytes);
        (slips.index.index)(&accepted, &mut state.index);
        (slips.index.lookup)(&accepted, &mut outcome.sent);
        after.head.marks = bits(state.open);
        after.head.count = state.lines.len();
        // Slips can make more lines than there are places.
        for (place, line) in state.lines.iter().take(PLACES).enumerate() {
            after.set_line(place, line);
        }
        after.set_index(&state.index);
    } else {
        (slips.index.refused)(&mut after);
    }
    Answer {
        refusal: outcome.refusal,
        sent: bits(outcome.sent),
        gateway: after,
    }
}

impl Calls for StandIn {
    fn start(&self, ports: u8, automatic: u64) -> Answer {
        let (state, refusal) = gateway::Gateway::start(ports.into(), automatic);
        let (start, k) = state.automatic;
        let automatic = Block { start, k: k as u8 };
        let head = Head {
            ports: state.ports as u8,
            marks: 0,
            automatic,
            count: 0,
        };
        let mut gateway = Gateway::bare(head);
        (self.start)(&mut gateway);
        Answer {
            refusal,
            sent: 0,
            gateway,
        }
    }

    fn receive(&self, gateway: &Gateway, port: u8, bytes: &[u8]) -> Answer {
        received(gateway, port, bytes, self.by_value)
    }

    fn receive_lists(&self, head: Head, lists: Lists, port: u8, bytes: &[u8]) -> LentAnswer {
        if self.lengths(&lists) != LENT_LENGTHS {
            return LentAnswer {
                refusal: refusal::BOUNDS,
                sent: 0,
                marks: head.marks,
                count: head.count,
            };
        }
        let answer = received(&box_of(head, &lists), port, bytes, self.in_place);
        fill(lists.nodes, &answer.gateway.nodes);
        fill(lists.starts, &answer.gateway.starts);
        fill(lists.ports, &answer.gateway.ports);
        fill(lists.sizes, &answer.gateway.sizes);
        fill(lists.order, &answer.gateway.order);
        fill(lists.sets, &answer.gateway.sets);
        LentAnswer {
            refusal: answer.refusal,
            sent: answer.sent,
            marks: answer.gateway.head.marks,
            count: answer.gateway.head.count,
        }
    }

    fn why(&self, head: Head, lists: Lists, port: u8, asked: u8, bytes: &[u8]) -> Reason {
        let gateway = box_of(head, &lists);
        let asked = Asked {
            gateway: &gateway,
            state: state_of(&gateway),
            lengths: self.lengths(&lists),
            port: port.into(),
            asked: asked.into(),
            bytes,
        };
        let mut reason = reason_of(asked.rightly());
        (self.why)(&asked, &mut reason);
        (self.writes)(lists);
        reason
    }
}

const JUDGE: Judge = Judge {
    name: "stand-in",
    sorts: &[Sort::Box, Sort::Nest],
    amounts: Amounts {
        files: 2_000,
        small: 0,
        times: 1,
    },
    without: &[],
};

/// Whether one input of a sort differs, and what it has reached.
pub fn differs(seed: u64, sort: Sort, index: u64, stand_in: &StandIn, column: &mut Column) -> bool {
    column.saw_input();
    let mut witness = Witness::new(column, false);
    let mut dice = Dice::of_input(seed, sort as u64, index);
    match sort {
        Sort::Nest => nests::judge(&mut dice, &mut witness, stand_in),
        _ => boxes::judge(&mut dice, &mut witness, stand_in),
    }
    !witness.agreed()
}

/// A sound archive agrees on every input, and as many inputs as there are by default reach every row, a tenth of them those of nested ranges; those of why, of
/// moves, of what is covered, of what goes at a restart and of the index are reached many times. In half of the histories or more a board moves.
#[test]
fn a_sound_archive() {
    let mut columns = Columns::default();
    for sort in [Sort::Box, Sort::Nest] {
        for index in 0..JUDGE.amounts.of(sort) {
            let column = &mut columns[sort as usize];
            let differs = differs(1, sort, index, &SOUND, column);
            assert!(!differs, "{} {index}", sort.name());
        }
    }
    let options = Options {
        seed: 1,
        amounts: JUDGE.amounts,
        only: None,
        help: false,
    };
    assert_eq!(reached::faults(&JUDGE, &options, &columns), [""; 0]);
    let of_box = |row: &Row| {
        matches!(
            row,
            Row::Reason(_) | Row::Answer(Function::Why, _) | Row::Moved(_)
        )
    };
    let of_covers = |row: &Row| matches!(row, Row::Cover(_));
    let of_restarts = |row: &Row| matches!(row, Row::Restarted(_) | Row::RestartedInFull(_));
    let of_index = |row: &Row| matches!(row, Row::Indexed(_));
    let of_damage = |row: &Row| matches!(row, Row::Damaged(_) | Row::ListLength(_));
    for (sort, many, least) in [
        (Sort::Box, of_box as fn(&Row) -> bool, 200),
        (Sort::Box, of_covers, 100),
        (Sort::Box, of_restarts, 50),
        (Sort::Nest, of_covers, 100),
        (Sort::Box, of_index, 100),
        (Sort::Nest, of_index, 100),
        (Sort::Box, of_damage, 15),
        (Sort::Nest, of_damage, 15),
    ] {
        for row in Row::all().into_iter().filter(many) {
            let seen = columns[sort as usize].seen(row);
            assert!(seen >= least, "{}: {}: {seen}", sort.name(), row.label());
        }
    }
    let column = &columns[Sort::Box as usize];
    assert!(2 * column.seen(Row::BoardMoved) >= column.seen(Row::Inputs));
}
