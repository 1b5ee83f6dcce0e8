//! Slips in the answer why, in the stand-in for the archive's box (02, W1).

use crate::gateway::{self, holds, Line, LENT_LENGTHS};
use crate::lent_box::{Block, Gateway, Reason, PLACES};
use crate::message::{self, reported_event};
use crate::refusal;
use crate::why;

use super::counts::Column;
use super::questions::reason_of;
use super::sort::Sort;
use super::stand_in_box::{differs, StandIn};

/// A question as the call has it: the whole box, the ports and the bytes.
pub struct Asked<'a> {
    pub gateway: &'a Gateway,
    pub state: gateway::Gateway,
    pub lengths: [usize; 6],
    pub port: u32,
    pub asked: u32,
    pub bytes: &'a [u8],
}

/// A slip: what it makes of what is rightly answered.
pub type Slip = fn(&Asked, &mut Reason);

impl Asked<'_> {
    /// What is rightly answered.
    pub fn rightly(&self) -> Result<why::Reason, u8> {
        self.state
            .why_on_lists(self.lengths, self.port, self.asked, self.bytes)
    }

    /// The answer on the same lists in another state; other lines have their own index.
    pub fn in_state(&self, change: impl FnOnce(&mut gateway::Gateway)) -> Reason {
        let mut state = self.state.clone();
        change(&mut state);
        if state.lines != self.state.lines {
            state.set_lines(state.lines.clone());
        }
        reason_of(state.why_on_lists(self.lengths, self.port, self.asked, self.bytes))
    }

    /// The event, of a report that can be read.
    fn event(&self) -> Option<u64> {
        reported_event(&message::read(self.bytes).ok()?)
    }

    /// Whether the line is of the asked port and holds the event.
    fn is_held_by(&self, line: &Line) -> bool {
        let holds = |event| holds((line.start, line.k), event);
        line.port == self.asked && self.event().is_some_and(holds)
    }

    /// The right answer where the line in that place is the one.
    pub fn held_in(&self, place: usize) -> Reason {
        let line = self.state.lines[place];
        reason_of(Ok(why::Reason::Held { place, line }))
    }
}

pub fn none(_: &Asked, _: &mut Reason) {}

fn the_last_line_that_holds_it(asked: &Asked, reason: &mut Reason) {
    if reason.reason == 4 {
        let holds = |line: &Line| asked.is_held_by(line);
        let place = asked.state.lines.iter().rposition(holds);
        *reason = asked.held_in(place.expect("one holds it"));
    }
}

fn the_widest_line_that_holds_it(asked: &Asked, reason: &mut Reason) {
    if reason.reason == 4 {
        let lines = asked.state.lines.iter().enumerate();
        let held = lines.filter(|(_, line)| asked.is_held_by(line));
        let widest = held.max_by_key(|(place, line)| (line.k, usize::MAX - place));
        *reason = asked.held_in(widest.expect("one holds it").0);
    }
}

fn a_line_of_any_port(asked: &Asked, reason: &mut Reason) {
    if let (4 | 5, Some(event)) = (reason.reason, asked.event()) {
        let holds = |line: &Line| holds((line.start, line.k), event);
        if let Some(place) = asked.state.lines.iter().position(holds) {
            *reason = asked.held_in(place);
        }
    }
}

fn automatic_before_the_arrival_port(asked: &Asked, reason: &mut Reason) {
    let automatic = |event| holds(asked.state.automatic, event);
    if reason.reason == 1 && asked.event().is_some_and(automatic) {
        reason.reason = 2;
    }
}

fn open_before_automatic(asked: &Asked, reason: &mut Reason) {
    if reason.reason == 2 && asked.state.open.contains(&asked.asked) {
        reason.reason = 3;
    }
}

fn a_line_before_open(asked: &Asked, reason: &mut Reason) {
    if reason.reason == 3 {
        let held = asked.in_state(|state| state.open.clear());
        if held.reason == 4 {
            *reason = held;
        }
    }
}

fn the_place_is_one_more(_: &Asked, reason: &mut Reason) {
    reason.place += usize::from(reason.reason == 4);
}

fn the_place_is_seven_bits(_: &Asked, reason: &mut Reason) {
    reason.place &= 0x7F;
}

fn the_node_is_the_source(asked: &Asked, reason: &mut Reason) {
    if reason.reason == 4 {
        reason.node = message::number(&asked.bytes[2..8]);
    }
}

fn the_block_is_the_event(asked: &Asked, reason: &mut Reason) {
    if let (4, Some(start)) = (reason.reason, asked.event()) {
        reason.block = Block { start, k: 0 };
    }
}

fn the_last_place_is_not_looked_at(asked: &Asked, reason: &mut Reason) {
    if reason.reason == 4 {
        *reason = asked.in_state(|state| state.lines.truncate(PLACES - 1));
    }
}

fn places_past_the_count_are_looked_at(asked: &Asked, reason: &mut Reason) {
    if reason.reason == 5 {
        let place = (0..PLACES).find(|place| asked.is_held_by(&asked.gateway.line(*place)));
        if let Some(place) = place {
            let line = asked.gateway.line(place);
            *reason = reason_of(Ok(why::Reason::Held { place, line }));
        }
    }
}

fn fifteen_before_reading(asked: &Asked, reason: &mut Reason) {
    let report = asked.bytes.starts_with(&[0x05, 0xB4]) || asked.bytes.starts_with(&[0x0F, 0x14]);
    if (1..=5).contains(&reason.refusal) && !report {
        reason.refusal = refusal::NO_REPORT;
    }
}

fn reading_before_eight(asked: &Asked, reason: &mut Reason) {
    if let (refusal::PORT, Err(refusal)) = (reason.refusal, message::read(asked.bytes)) {
        reason.refusal = refusal;
    }
}

fn eight_before_seven(asked: &Asked, reason: &mut Reason) {
    if reason.refusal == refusal::BOUNDS && asked.port.max(asked.asked) >= asked.state.ports {
        reason.refusal = refusal::PORT;
    }
}

fn the_asked_port_is_not_tested(asked: &Asked, reason: &mut Reason) {
    if reason.refusal == refusal::PORT && asked.port < asked.state.ports {
        *reason = reason_of(asked.state.why(asked.port, asked.port, asked.bytes));
        if reason.reason == 1 {
            reason.reason = 5;
        }
    }
}

fn the_arrival_port_is_not_tested(asked: &Asked, reason: &mut Reason) {
    if reason.refusal == refusal::PORT && asked.asked < asked.state.ports {
        let other = u32::from(asked.asked == 0);
        *reason = reason_of(asked.state.why(other, asked.asked, asked.bytes));
    }
}

fn announcements_have_reasons(asked: &Asked, reason: &mut Reason) {
    if reason.refusal == refusal::NO_REPORT && asked.bytes[0] == 0x04 {
        *reason = reason_of(Ok(why::Reason::Nothing));
    }
}

fn bits_12_and_13_do_not_count(asked: &Asked, reason: &mut Reason) {
    if reason.refusal == refusal::NO_REPORT && matches!(asked.bytes[0], 0x15 | 0x2F) {
        *reason = reason_of(Ok(why::Reason::Nothing));
    }
}

fn lengths_are_not_tested(asked: &Asked, reason: &mut Reason) {
    let mut pairs = asked.lengths.iter().zip(LENT_LENGTHS);
    if pairs.all(|(length, right)| *length >= right) {
        *reason = reason_of(asked.state.why(asked.port, asked.asked, asked.bytes));
    }
}

fn a_reason_beside_a_refusal(_: &Asked, reason: &mut Reason) {
    reason.reason |= u8::from(reason.refusal != 0);
}

fn a_place_beside_another_reason(asked: &Asked, reason: &mut Reason) {
    if reason.reason == 5 {
        reason.place = asked.state.lines.len();
    }
}

/// A state out of bounds by these numbers only is answered as if those were not there.
fn taken_without(asked: &Asked, reason: &mut Reason, change: impl FnOnce(&mut gateway::Gateway)) {
    if reason.refusal == refusal::BOUNDS {
        *reason = asked.in_state(change);
    }
}

fn bad_lines_are_passed_over(asked: &Asked, reason: &mut Reason) {
    taken_without(asked, reason, |state| {
        let ports = state.ports;
        let block = |line: &Line| crate::range::is_block(line.start, line.k);
        let good = |line: &Line| line.port < ports && message::is_node_id(line.node) && block(line);
        state.lines.retain(good);
    });
}

fn marks_past_the_ports_are_taken(asked: &Asked, reason: &mut Reason) {
    taken_without(asked, reason, |state| {
        state.open.retain(|port| *port < state.ports);
    });
}

fn any_automatic_block_is_taken(asked: &Asked, reason: &mut Reason) {
    taken_without(asked, reason, |state| state.automatic = (0, 1));
}

fn too_many_lines_are_cut(asked: &Asked, reason: &mut Reason) {
    taken_without(asked, reason, |state| state.lines.truncate(PLACES));
}

const SLIPS: [Slip; 26] = [
    the_last_line_that_holds_it,
    the_widest_line_that_holds_it,
    a_line_of_any_port,
    automatic_before_the_arrival_port,
    open_before_automatic,
    a_line_before_open,
    the_place_is_one_more,
    the_place_is_seven_bits,
    the_node_is_the_source,
    the_block_is_the_event,
    the_last_place_is_not_looked_at,
    places_past_the_count_are_looked_at,
    fifteen_before_reading,
    reading_before_eight,
    eight_before_seven,
    the_asked_port_is_not_tested,
    the_arrival_port_is_not_tested,
    announcements_have_reasons,
    bits_12_and_13_do_not_count,
    lengths_are_not_tested,
    a_reason_beside_a_refusal,
    a_place_beside_another_reason,
    bad_lines_are_passed_over,
    marks_past_the_ports_are_taken,
    any_automatic_block_is_taken,
    too_many_lines_are_cut,
];

/// Every slip is found.
#[test]
fn slips() {
    for (place, why) in SLIPS.into_iter().enumerate() {
        let stand_in = StandIn::with_why(why);
        let found = |index| differs(1, Sort::Box, index, &stand_in, &mut Column::default());
        assert!((0..300).any(found), "slip {place}");
    }
}
