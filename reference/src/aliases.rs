//! The list of aliases that is lent to the calls of a CAN leg (02, W3).

use crate::message::is_node_id;

/// The most pairs (02, W3, "up to 128 pairs").
pub const MOST_PAIRS: usize = 128;
/// The highest alias, of 12 bits (02, W3, "an alias above FFF").
pub const HIGHEST_ALIAS: u64 = 0xFFF;

/// Two lists of numbers: the node in a place of the second stands behind the alias in that place of the first (02, W3).
#[derive(Clone, Debug, Default, PartialEq, Eq)]
pub struct Aliases {
    pub aliases: Vec<u64>,
    pub nodes: Vec<u64>,
}

impl Aliases {
    /// The lists of pairs, each an alias and its node.
    pub fn of(pairs: &[(u64, u64)]) -> Aliases {
        Aliases {
            aliases: pairs.iter().map(|pair| pair.0).collect(),
            nodes: pairs.iter().map(|pair| pair.1).collect(),
        }
    }

    /// Whether the list may stand; refusal 7 is for one that may not (02, W3, "more, a bad Node ID, an alias above FFF, an alias or Node ID listed twice").
    pub fn in_bounds(&self) -> bool {
        self.aliases.len() == self.nodes.len()
            && self.aliases.len() <= MOST_PAIRS
            && self.aliases.iter().all(|alias| *alias <= HIGHEST_ALIAS)
            && self.nodes.iter().all(|node| is_node_id(*node))
            && all_different(&self.aliases)
            && all_different(&self.nodes)
    }

    /// The node behind an alias (02, W3, "The Node ID for an alias comes from a lent list").
    pub fn node_of(&self, alias: u64) -> Option<u64> {
        let pair = self.pairs().find(|pair| pair.0 == alias)?;
        Some(pair.1)
    }

    /// The alias that a node has in the list (02, W3).
    pub fn alias_of(&self, node: u64) -> Option<u64> {
        let pair = self.pairs().find(|pair| pair.1 == node)?;
        Some(pair.0)
    }

    /// The pairs, each an alias and its node.
    fn pairs(&self) -> impl Iterator<Item = (u64, u64)> + '_ {
        let nodes = self.nodes.iter().copied();
        self.aliases.iter().copied().zip(nodes)
    }
}

/// Whether no number stands twice in a list.
fn all_different(list: &[u64]) -> bool {
    for (place, number) in list.iter().enumerate() {
        if list[..place].contains(number) {
            return false;
        }
    }
    true
}

#[cfg(test)]
mod tests {
    use super::*;

    const NODE: u64 = 0x0A0000000001;

    fn pairs(count: u64) -> Aliases {
        let pairs: Vec<(u64, u64)> = (0..count).map(|place| (place, NODE + place)).collect();
        Aliases::of(&pairs)
    }

    /// 02, W3: 128 pairs, both sides.
    #[test]
    fn how_many_pairs() {
        for (count, good) in [
            (0, true),
            (1, true),
            (128, true),
            (129, false),
            (255, false),
        ] {
            assert_eq!(pairs(count).in_bounds(), good, "{count}");
        }
    }

    /// 02, W3: an alias up to FFF, a Node ID of 1 to 48 ones; 0 is an alias and no Node ID.
    #[test]
    fn numbers_in_pairs() {
        for (alias, good) in [
            (0, true),
            (0xFFF, true),
            (0x1000, false),
            (1 << 32, false),
            (u64::MAX, false),
        ] {
            assert_eq!(Aliases::of(&[(alias, NODE)]).in_bounds(), good, "{alias:X}");
        }
        for (node, good) in [
            (0, false),
            (1, true),
            ((1 << 48) - 1, true),
            (1 << 48, false),
            (u64::MAX, false),
        ] {
            assert_eq!(Aliases::of(&[(1, node)]).in_bounds(), good, "{node:X}");
        }
    }

    /// 02, W3: an alias or a Node ID listed twice, next to each other or at both ends; one number may be an alias and a Node ID.
    #[test]
    fn listed_twice() {
        for (one, other) in [(0, 1), (0, 127), (126, 127), (5, 70)] {
            let mut list = pairs(128);
            list.aliases[other] = list.aliases[one];
            assert!(!list.in_bounds());
            let mut list = pairs(128);
            list.nodes[other] = list.nodes[one];
            assert!(!list.in_bounds());
        }
        assert!(Aliases::of(&[(7, 8), (8, 7)]).in_bounds());
    }

    /// Lists of unequal length are out of bounds, whichever is longer.
    #[test]
    fn unequal_lists() {
        for longer in [0, 1] {
            let mut list = pairs(3);
            match longer {
                0 => list.aliases.push(9),
                _ => list.nodes.push(9),
            }
            assert!(!list.in_bounds());
        }
    }

    /// Who stands behind an alias, and the alias that someone has, in whichever place.
    #[test]
    fn looked_up() {
        let list = Aliases::of(&[(0x7AB, NODE + 3), (0, NODE), (0xFFF, NODE + 1)]);
        for (alias, node) in [(0x7AB, NODE + 3), (0, NODE), (0xFFF, NODE + 1)] {
            assert_eq!(list.node_of(alias), Some(node));
            assert_eq!(list.alias_of(node), Some(alias));
        }
        assert_eq!((list.node_of(1), list.alias_of(NODE + 2)), (None, None));
    }
}
