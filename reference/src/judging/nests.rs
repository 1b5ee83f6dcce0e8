//! Ranges inside one another at a box (02, W4): announcements near the lines that are there, and histories of them from a start or from tables of every length, tidy
//! ones and such as have nested and equal lines.

use crate::gateway::{Gateway, Line};

use super::both_boxes::{follow, Boxes};
use super::boxes::Calls;
use super::histories::{nested_history, Arrival};
use super::laid_out::Layout;
use super::moves::{announcement, with_event};
use super::near_blocks::{around, around_both, near, Block};
use super::observed_covers;
use super::random::Dice;
use super::restarts::restarts_of;
use super::witness::Witness;
use super::world::{near_node, Area, World};

/// The most messages of a history, but for restarts before it and a move at its end.
const MOST_MESSAGES: usize = 40;

/// One state, at times restarts, and announcements near its lines.
pub fn judge(dice: &mut Dice, witness: &mut Witness, calls: &impl Calls) {
    let any = Area::any_automatic(dice);
    let house = Area::house();
    let automatic = dice.pick(&[house, house, house, any]);
    let nodes = dice.between(1, 3);
    let world = World::new(dice, nodes, 6, automatic);
    let mut layout = Layout::nested(dice, &world, automatic);
    let restarting = layout.share_out_at_times(dice, 10);
    let mut from = layout.for_reference();
    observed_covers::saw_given(&from.lines, witness.column);
    let boxes = Boxes::of_layout(dice, &layout);
    let mut arrivals = restarts_of(dice, &mut from, &restarting);
    arrivals.extend(nested_history(dice, from, world, MOST_MESSAGES));
    follow(dice, witness, calls, boxes, &arrivals);
}

/// An announcement near one of the lines, mostly of its port and node; at times, and where there is no line, of any block.
pub fn any_nested(dice: &mut Dice, gateway: &Gateway, world: &World) -> Arrival {
    let ports = gateway.ports as u8;
    if gateway.lines.is_empty() || dice.chance(12) {
        let block = any_block(dice, world);
        let port = dice.below(ports.into()) as u8;
        let node = world.node(dice);
        return announcement(dice, port, node, block);
    }
    let line = dice.pick(&gateway.lines);
    let block = near_a_line(dice, gateway, line);
    let port = match dice.chance(80) {
        true => line.port as u8,
        false => dice.below(ports.into()) as u8,
    };
    let node = match dice.weighted(&[80, 12, 8]) {
        0 => line.node,
        1 => world.node(dice),
        _ => near_node(dice, line.node),
    };
    announcement(dice, port, node, block)
}

/// A line is replaced by the block that it is a half of, and reports of any events follow, which go to its port where that is open.
pub fn any_replacing(dice: &mut Dice, gateway: &Gateway) -> Vec<Arrival> {
    let narrow: Vec<&Line> = gateway.lines.iter().filter(|line| line.k < 64).collect();
    if narrow.is_empty() {
        return Vec::new();
    }
    let line = dice.pick(&narrow);
    let port = line.port as u8;
    let block = around(line.start, line.k + 1);
    let mut arrivals = vec![announcement(dice, port, line.node, block)];
    for _ in 0..dice.between(1, 2) {
        let other = (port + 1) % gateway.ports as u8;
        let source = near_node(dice, line.node);
        arrivals.push(with_event(other, 0x05B4, source, dice.number()));
    }
    arrivals
}

/// A block of one event or of some around one of the events.
fn any_block(dice: &mut Dice, world: &World) -> Block {
    let k = dice.pick(&[0, 0, 1, 2, 3, 4, 8, 16, 40]);
    around(world.event(dice), k)
}

/// A block near a line's, or the smallest that holds it and another line of its port and node, mostly its other half where that is one.
fn near_a_line(dice: &mut Dice, gateway: &Gateway, line: Line) -> Block {
    let own = |other: &&Line| (other.port, other.node) == (line.port, line.node);
    let others: Vec<&Line> = gateway.lines.iter().filter(own).collect();
    let is_other_half = |other: &&&Line| {
        line.k < 64 && (other.start, other.k) == (line.start ^ 1 << line.k, line.k)
    };
    let other = match others.iter().find(is_other_half) {
        Some(other) if dice.chance(60) => other,
        _ if dice.chance(15) => dice.pick(&others),
        _ => return near(dice, (line.start, line.k)),
    };
    around_both((line.start, line.k), (other.start, other.k))
}
