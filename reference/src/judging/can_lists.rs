//! Makes lists of aliases, in bounds or out of them in a chosen way.

use crate::aliases::{Aliases, HIGHEST_ALIAS, MOST_PAIRS};
use crate::message::is_node_id;

use super::random::Dice;
use super::world::{doubtful_node, good_node, near_node};

/// How many pairs: few, or as many as may be, more often than what lies between.
fn any_count(dice: &mut Dice) -> usize {
    match dice.weighted(&[2, 4, 66, 18, 4, 6]) {
        0 => 0,
        1 => 1,
        2 => dice.between(2, 6),
        3 => dice.between(7, 40),
        4 => MOST_PAIRS - 1,
        _ => MOST_PAIRS,
    }
}

/// A list in bounds.
pub fn in_bounds(dice: &mut Dice) -> Aliases {
    let count = any_count(dice);
    let mut list = Aliases::default();
    lengthen_to(dice, &mut list, count);
    list
}

/// Adds pairs with numbers that are not yet in the list, up to so many.
fn lengthen_to(dice: &mut Dice, list: &mut Aliases, count: usize) {
    while list.aliases.len() < count {
        let alias = any_alias(dice, list);
        list.aliases.push(alias);
    }
    while list.nodes.len() < count {
        let node = any_node(dice, list);
        list.nodes.push(node);
    }
}

/// An alias that is not in the list, at times near one that is, or at a limit.
pub fn any_alias(dice: &mut Dice, list: &Aliases) -> u64 {
    loop {
        let alias = match (dice.below(12), list.aliases.last()) {
            (0, _) => dice.pick(&[0, 1, HIGHEST_ALIAS]),
            (1, Some(last)) => last + 1,
            (2, Some(last)) => last ^ 0x100 << dice.below(4),
            _ => dice.number(),
        };
        let alias = alias & HIGHEST_ALIAS;
        if !list.aliases.contains(&alias) {
            return alias;
        }
    }
}

/// A Node ID that is not in the list, at times near one that is.
pub fn any_node(dice: &mut Dice, list: &Aliases) -> u64 {
    loop {
        let node = match list.nodes.last() {
            Some(last) if is_node_id(*last) && dice.chance(40) => near_node(dice, *last),
            _ => good_node(dice),
        };
        if !list.nodes.contains(&node) {
            return node;
        }
    }
}

/// Puts a list in bounds out of them in one way, by its place among the rows; a file's numbers have 16 bits for an alias and fewer than 256 pairs.
pub fn spoil(dice: &mut Dice, list: &mut Aliases, way: usize, for_a_file: bool) {
    if list.aliases.len() < 2 {
        lengthen_to(dice, list, 2);
    }
    let last = list.aliases.len() - 1;
    let place = dice.between(0, last);
    let other = (place + dice.between(1, last)) % (last + 1);
    match way {
        0 => {
            let counts = [129, 129, 130, 200, 255, 256, 257, 384];
            let end = if for_a_file { 5 } else { counts.len() };
            let count = dice.pick(&counts[..end]);
            lengthen_to(dice, list, count);
        }
        1 => list.aliases[place] = alias_above(dice, list.aliases[place], for_a_file),
        2 => list.nodes[place] = bad_node(dice, list.nodes[place]),
        3 => list.aliases[other] = list.aliases[place],
        4 => list.nodes[other] = list.nodes[place],
        _ => unequal(dice, list),
    }
}

/// A number above FFF, its low bits at times those of the alias that stood there.
fn alias_above(dice: &mut Dice, alias: u64, for_a_file: bool) -> u64 {
    let above = [
        0x1000,
        0x1000 | alias,
        0x8000 | alias,
        0xFFFF,
        1 << 16 | alias,
        1 << 32 | alias,
        u64::MAX,
    ];
    let end = if for_a_file { 4 } else { above.len() };
    dice.pick(&above[..end])
}

/// A number that is no Node ID, its low bits at times those of the node that stood there.
fn bad_node(dice: &mut Dice, node: u64) -> u64 {
    loop {
        let bad = match dice.below(3) {
            0 => node | 1 << dice.between(48, 63),
            _ => doubtful_node(dice),
        };
        if !is_node_id(bad) {
            return bad;
        }
    }
}

/// One list shorter or longer than the other, what it has being as it may be.
fn unequal(dice: &mut Dice, list: &mut Aliases) {
    let more = dice.pick(&[1, 1, 2]);
    match dice.below(4) {
        0 => list.aliases.truncate(list.aliases.len() - 1),
        1 => list.nodes.truncate(list.nodes.len() - 1),
        2 => {
            for _ in 0..more {
                let alias = any_alias(dice, list);
                list.aliases.push(alias);
            }
        }
        _ => {
            for _ in 0..more {
                let node = any_node(dice, list);
                list.nodes.push(node);
            }
        }
    }
}

/// The ways in which a list is out of bounds, by their places among the rows (02, W3, 7).
pub fn ways_of(list: &Aliases) -> Vec<usize> {
    let twice = |numbers: &[u64]| {
        (0..numbers.len()).any(|place| numbers[..place].contains(&numbers[place]))
    };
    let [aliases, nodes] = [&list.aliases, &list.nodes];
    let out = [
        aliases.len() > MOST_PAIRS && nodes.len() > MOST_PAIRS,
        aliases.iter().any(|alias| *alias > HIGHEST_ALIAS),
        nodes.iter().any(|node| !is_node_id(*node)),
        twice(aliases),
        twice(nodes),
        aliases.len() != nodes.len(),
    ];
    (0..out.len()).filter(|way| out[*way]).collect()
}

#[cfg(test)]
mod tests {
    use super::super::legs::{FIRST_OF_CALLS, FIRST_OF_STATE};
    use super::*;

    /// A list is in bounds until it is spoilt, and every way is out of bounds in that way alone.
    #[test]
    fn every_way() {
        for index in 0..1_200 {
            let mut dice = Dice::of_input(1, 1, index);
            let good = in_bounds(&mut dice);
            assert!(good.in_bounds() && ways_of(&good).is_empty());
            for way in 0..FIRST_OF_STATE {
                let mut list = good.clone();
                let for_a_file = way < FIRST_OF_CALLS && dice.chance(50);
                spoil(&mut dice, &mut list, way, for_a_file);
                assert_eq!(ways_of(&list), [way]);
                assert!(!list.in_bounds());
                assert!(!for_a_file || list.aliases.len() < 256);
                assert!(!for_a_file || list.aliases.iter().all(|alias| *alias < 1 << 16));
            }
        }
    }
}
