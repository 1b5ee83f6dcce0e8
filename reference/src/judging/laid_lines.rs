//! Lines laid out by hand: any, such as lie inside one another, such as are apart, and such as are shared out among nodes that are to restart.

use crate::gateway::Line;

use super::near_blocks::{around, near};
use super::random::Dice;
use super::world::{good_node, low_bits, World};

/// The most lines next to one another that are given to a node.
const LONGEST_GAP: usize = 6;

/// A block that ends in zeros, k from 0 to 64.
fn any_block(dice: &mut Dice, world: &World) -> (u64, u32) {
    let event = world.event(dice);
    let k = dice
        .pick(&[0, 0, 1, 2, 8, 16, 48, 63, 64])
        .min(world.longest_run) as u32;
    (event & !low_bits(k), k)
}

/// A line in bounds.
fn any_line(dice: &mut Dice, ports: u8, world: &World) -> Line {
    let port = dice.below(u64::from(ports)) as u32;
    let node = world.node(dice);
    let (start, k) = any_block(dice, world);
    Line {
        port,
        node,
        start,
        k,
    }
}

/// So many lines; so many in a hundred are near one before, of its port and node, and some the same once more.
pub fn lines_at_times_nested(
    dice: &mut Dice,
    ports: u8,
    world: &World,
    count: usize,
    percent: u64,
) -> Vec<Line> {
    let mut lines: Vec<Line> = Vec::new();
    for _ in 0..count {
        let line = match dice.weighted(&[90 - percent, percent, 10]) {
            1 if !lines.is_empty() => {
                let line = dice.pick(&lines);
                let (start, k) = near(dice, (line.start, line.k));
                Line { start, k, ..line }
            }
            2 if !lines.is_empty() => dice.pick(&lines),
            _ => any_line(dice, ports, world),
        };
        lines.push(line);
    }
    lines
}

/// So many lines of these nodes, at most 256, whose blocks are apart, at a few of the ports: four events to each, and some or all of them in its block. Their order
/// is not that of the events.
pub fn lines_apart(dice: &mut Dice, ports: u8, nodes: &[u64], count: usize) -> Vec<Line> {
    let base = dice.number() & !low_bits(10);
    let step = 2 * dice.below(128) + 1;
    let few = dice.between(1, usize::from(ports)) as u64;
    let line = |place: usize| {
        let k = dice.pick(&[0, 0, 0, 1, 2]);
        let event = base + 4 * (place as u64 * step % 256) + dice.below(4);
        let (start, k) = around(event, k);
        Line {
            port: dice.below(few) as u32,
            node: dice.pick(nodes),
            start,
            k,
        }
    };
    (0..count).map(line).collect()
}

/// A line of any numbers that the proved table has room for.
pub fn any_numbers(dice: &mut Dice) -> Line {
    Line {
        port: u32::from(dice.number() as u8),
        node: dice.number(),
        start: dice.number(),
        k: u32::from(dice.number() as u8),
    }
}

/// Gives the first line, those next to it, some together, some here and there and none to five nodes, or every line to one; answers who is to restart, in order.
pub fn share_out(dice: &mut Dice, lines: &mut [Line]) -> Vec<u64> {
    if lines.is_empty() {
        return Vec::new();
    }
    let mut nodes = new_nodes(dice, lines);
    let [first, next, together, scattered, _] = nodes;
    if dice.chance(30) {
        give(lines, first);
        return vec![first];
    }
    let percent = dice.pick(&[5, 20, 50]);
    for line in lines.iter_mut() {
        if dice.chance(percent) {
            line.node = scattered;
        }
    }
    let place = dice.between(0, lines.len() - 1);
    give(some_from(dice, lines, place), together);
    give(some_from(dice, lines, 1), next);
    give(&mut lines[..1], first);
    // Mostly the first line's node goes before the one next to it, whose lines are the first ones then.
    nodes.rotate_left(dice.below(5) as usize);
    nodes.to_vec()
}

/// Node IDs that no line has.
pub fn new_nodes<const COUNT: usize>(dice: &mut Dice, lines: &[Line]) -> [u64; COUNT] {
    let mut taken: Vec<u64> = lines.iter().map(|line| line.node).collect();
    std::array::from_fn(|_| {
        let node = new_node(dice, &taken);
        taken.push(node);
        node
    })
}

fn new_node(dice: &mut Dice, taken: &[u64]) -> u64 {
    loop {
        let node = good_node(dice);
        if !taken.contains(&node) {
            return node;
        }
    }
}

/// Some lines next to one another, from a place on.
fn some_from<'a>(dice: &mut Dice, lines: &'a mut [Line], place: usize) -> &'a mut [Line] {
    let end = place + dice.between(1, LONGEST_GAP);
    let count = lines.len();
    &mut lines[place.min(count)..end.min(count)]
}

fn give(lines: &mut [Line], node: u64) {
    for line in lines {
        line.node = node;
    }
}
