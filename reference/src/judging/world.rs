//! Nodes, events and ranges that an input draws from, few enough to meet again.

use super::random::Dice;

/// The greatest Node ID.
pub const HIGHEST_NODE: u64 = 0xFFFF_FFFF_FFFF;
/// More edges than this are not remembered, so that early ones come up again.
const MOST_EDGES: usize = 64;

/// A range number with its block's first and last event, made from the run and not worked out from the number.
#[derive(Clone, Copy)]
pub struct Area {
    pub run: u32,
    pub number: u64,
    pub first: u64,
    pub last: u64,
}

/// The lowest bits set, so many.
pub fn low_bits(count: u32) -> u64 {
    if count < 64 {
        (1 << count) - 1
    } else {
        u64::MAX
    }
}

impl Area {
    /// The area whose number ends in a run of so many equal bits, the bit above them being the other one.
    pub fn with_run(above: u64, run: u32, ones: bool) -> Area {
        let mask = low_bits(run);
        let next = low_bits(run + 1) & !mask;
        let high = above & !mask & !next;
        let number = if ones { high | mask } else { high | next };
        Area {
            run,
            number,
            first: number & !mask,
            last: number | mask,
        }
    }

    /// The house default of the automatic block.
    pub fn house() -> Area {
        Area::with_run(0x0100_0000_0000_0000, 16, true)
    }

    /// An area around an event, its run at most so long.
    pub fn around(dice: &mut Dice, event: u64, longest_run: usize) -> Area {
        let most = dice.pick(&[longest_run.min(12), longest_run]);
        let run = dice.between(1, most);
        Area::with_run(event, run as u32, dice.chance(50))
    }

    /// The house default, or any area.
    pub fn any_automatic(dice: &mut Dice) -> Area {
        if dice.chance(40) {
            return Area::house();
        }
        let event = dice.number();
        Area::around(dice, event, 64)
    }

    /// The first and last event, and those beside them.
    fn edges(&self) -> [u64; 4] {
        [
            self.first,
            self.last,
            self.first.wrapping_sub(1),
            self.last.wrapping_add(1),
        ]
    }
}

/// The nodes and events of one input.
pub struct World {
    pub nodes: Vec<u64>,
    pub events: Vec<u64>,
    /// The longest run of a range; wide ranges hold so much that no other line counts.
    pub longest_run: usize,
    edges: Vec<u64>,
}

impl World {
    /// So many nodes and events, some of them near the automatic block.
    pub fn new(dice: &mut Dice, nodes: usize, events: usize, automatic: Area) -> World {
        let base = if dice.chance(20) {
            automatic.last.wrapping_sub(events as u64)
        } else {
            dice.number()
        };
        let spread = 4 * events as u64;
        World {
            nodes: some_nodes(dice, nodes),
            events: (0..events)
                .map(|_| base.wrapping_add(dice.below(spread)))
                .collect(),
            longest_run: 64,
            edges: automatic.edges().to_vec(),
        }
    }

    /// One of the nodes.
    pub fn node(&self, dice: &mut Dice) -> u64 {
        dice.pick(&self.nodes)
    }

    /// Mostly one of the events, or one beside them, at an edge, or anywhere.
    pub fn event(&self, dice: &mut Dice) -> u64 {
        let event = dice.pick(&self.events);
        match dice.below(24) {
            0 => event.wrapping_add(1),
            1 => event.wrapping_sub(1),
            2 => event ^ (1 << dice.below(64)),
            3 => dice.number(),
            4 => dice.pick(&[0, 1, u64::MAX, u64::MAX - 1, 1 << 63, (1 << 63) - 1]),
            5..=8 => dice.pick(&self.edges),
            _ => event,
        }
    }

    /// A range around one of the events, whose edges are events from now on.
    pub fn area(&mut self, dice: &mut Dice) -> Area {
        let event = self.event(dice);
        let area = Area::around(dice, event, self.longest_run);
        if self.edges.len() < MOST_EDGES {
            self.edges.extend(area.edges());
        }
        area
    }
}

/// So many Node IDs that may stand, some of them near the one before.
fn some_nodes(dice: &mut Dice, count: usize) -> Vec<u64> {
    let mut nodes = Vec::new();
    for _ in 0..count {
        let node = match nodes.last() {
            Some(before) if dice.chance(40) => near_node(dice, *before),
            _ => good_node(dice),
        };
        nodes.push(node);
    }
    nodes
}

/// A Node ID next to another, or one that has another high bit only; where that may not stand, one that has another low bit.
pub fn near_node(dice: &mut Dice, node: u64) -> u64 {
    let near = match dice.below(4) {
        0 => node + 1,
        1 => node - 1,
        2 => node ^ 1 << dice.between(32, 39),
        _ => node ^ 1 << dice.between(40, 47),
    };
    match near {
        1..=HIGHEST_NODE => near,
        _ => node ^ 2,
    }
}

/// A Node ID that may stand.
pub fn good_node(dice: &mut Dice) -> u64 {
    match dice.below(12) {
        0 => HIGHEST_NODE,
        1 => 1,
        _ => 1 + dice.number() % HIGHEST_NODE,
    }
}

/// A number at or past the limits of a Node ID, on either side of them.
pub fn doubtful_node(dice: &mut Dice) -> u64 {
    dice.pick(&[
        0,
        0,
        1,
        HIGHEST_NODE,
        HIGHEST_NODE + 1,
        HIGHEST_NODE + 2,
        1 << 63,
        u64::MAX,
    ])
}

/// A start that is no multiple of 2^k, and the k.
pub fn crooked_block(dice: &mut Dice) -> (u64, u32) {
    let k = dice.between(1, 64) as u32;
    let start = dice.number() & !low_bits(k) | 1 << dice.below(u64::from(k));
    (start, k)
}

/// A k that is none, beside the start that every k allows.
pub fn endless_block(dice: &mut Dice) -> (u64, u32) {
    (0, dice.pick(&[65, 66, 128, 255]))
}

#[cfg(test)]
mod tests {
    use super::*;
    use crate::range::{block_of, last};

    /// An area is what the reference makes of its number, at every run and both bits.
    #[test]
    fn areas() {
        for run in 1..=64 {
            for ones in [false, true] {
                let area = Area::with_run(0x1234_5678_9ABC_DEF0, run, ones);
                assert_eq!(block_of(area.number), (area.first, run));
                assert_eq!(last(area.first, run), Ok(area.last));
            }
        }
        assert_eq!(Area::house().number, crate::trial::HOUSE_NUMBER);
    }

    /// Near Node IDs may stand, also beside the limits, and never are the one they are near; each way to be near comes up.
    #[test]
    fn near_nodes() {
        let mut dice = Dice::of_input(1, 1, 1);
        for node in [1, 2, 1 << 40, 0x0A00_0000_0007, HIGHEST_NODE] {
            let near: Vec<u64> = (0..400).map(|_| near_node(&mut dice, node)).collect();
            let may_stand = |near: &u64| crate::message::is_node_id(*near) && *near != node;
            assert!(near.iter().all(may_stand));
            assert!(node == HIGHEST_NODE || near.contains(&(node + 1)));
            assert!(node == 1 || near.contains(&(node - 1)));
            let other_bit = |bit: u64| node == bit || near.contains(&(node ^ bit));
            assert!((32..48).all(|high| other_bit(1 << high)));
        }
    }
}
