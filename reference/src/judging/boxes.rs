//! The box: starts, histories from a start, and histories from states laid out by hand, each message by value and in place; and questions why
//! between the messages.

use crate::gateway;
use crate::lent_box::{self, Gateway, Head, LentAnswer, Lists, Reason};

use super::both_boxes::{follow, started, Boxes};
use super::histories::{any_history, history_in, Arrival};
use super::laid_out::Layout;
use super::observed_covers;
use super::random::Dice;
use super::restarts::restarts_of;
use super::rows::Row;
use super::ways::BOX_WAY_COUNT;
use super::witness::Witness;
use super::world::{Area, World};

/// The calls of a box on the proved side.
pub trait Calls {
    fn start(&self, ports: u8, automatic: u64) -> lent_box::Answer;
    /// By value: the state goes in and comes out.
    fn receive(&self, gateway: &Gateway, port: u8, bytes: &[u8]) -> lent_box::Answer;
    /// In place, on lists of any length.
    fn receive_lists(&self, head: Head, lists: Lists, port: u8, bytes: &[u8]) -> LentAnswer;
    /// Why a report goes to the asked port or not, on lists of any length.
    fn why(&self, head: Head, lists: Lists, port: u8, asked: u8, bytes: &[u8]) -> Reason;
}

/// One start or one state, and the messages that follow.
pub fn judge(dice: &mut Dice, witness: &mut Witness, calls: &impl Calls) {
    match dice.weighted(&[55, 5, 20, 20]) {
        0 => judge_history(dice, witness, calls),
        1 => judge_refused_start(dice, witness, calls),
        2 => judge_layout(dice, witness, calls),
        _ => judge_out_of_bounds(dice, witness, calls),
    }
}

/// A history from a start.
fn judge_history(dice: &mut Dice, witness: &mut Witness, calls: &impl Calls) {
    let ports = dice.between(2, 8) as u8;
    let automatic = Area::any_automatic(dice);
    let Some(boxes) = started(witness, calls, ports, automatic.number) else {
        return;
    };
    let arrivals = any_history(dice, ports, automatic);
    follow(dice, witness, calls, boxes, &arrivals);
}

/// A start with a port count that is none; every message is refused after it.
fn judge_refused_start(dice: &mut Dice, witness: &mut Witness, calls: &impl Calls) {
    let ports = dice.pick(&[0, 1, 9, 10, 16, 127, 128, 255]);
    let automatic = Area::any_automatic(dice);
    let Some(boxes) = started(witness, calls, ports, automatic.number) else {
        return;
    };
    let world = World::new(dice, 2, 2, automatic);
    let (other, _) = gateway::Gateway::start(8, automatic.number);
    let arrivals = history_in(dice, other, world);
    follow(
        dice,
        witness,
        calls,
        boxes,
        &arrivals[..arrivals.len().min(3)],
    );
}

/// A history from a state in bounds that need not come from a start, at times with restarts before it.
fn judge_layout(dice: &mut Dice, witness: &mut Witness, calls: &impl Calls) {
    let automatic = Area::any_automatic(dice);
    let events = dice.pick(&[40, 1_000]);
    let mut world = World::new(dice, 3, events, automatic);
    world.longest_run = dice.pick(&[1, 64]);
    let mut layout = Layout::in_bounds(dice, &world, automatic);
    let restarting = layout.share_out_at_times(dice, 30);
    let mut from = layout.for_reference();
    observed_covers::saw_given(&from.lines, witness.column);
    let boxes = Boxes::of_layout(dice, &layout);
    let reports = (0..4).filter_map(|_| layout.report_of_a_line(dice, &world));
    let mut arrivals: Vec<Arrival> = reports.collect();
    arrivals.extend(restarts_of(dice, &mut from, &restarting));
    arrivals.extend(history_in(dice, from, world));
    follow(dice, witness, calls, boxes, &arrivals);
}

/// A state out of bounds in one way only: every message is refused and nothing changes.
fn judge_out_of_bounds(dice: &mut Dice, witness: &mut Witness, calls: &impl Calls) {
    let automatic = Area::any_automatic(dice);
    let world = World::new(dice, 3, 40, automatic);
    let mut layout = Layout::in_bounds(dice, &world, automatic);
    let arrivals = history_in(dice, layout.for_reference(), world);
    let way = dice.between(0, BOX_WAY_COUNT - 1);
    layout.spoil(dice, way);
    witness.column.saw(Row::BoxWay(way));
    let boxes = Boxes::of_layout(dice, &layout);
    follow(
        dice,
        witness,
        calls,
        boxes,
        &arrivals[..arrivals.len().min(4)],
    );
}
