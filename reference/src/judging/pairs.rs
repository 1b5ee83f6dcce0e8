//! Pairs of blocks that are compared (02, W4).

use crate::lent_box::Block;
use crate::lent_range::Number;
use crate::range::is_block;
use crate::refusal;

use super::functions::Function;
use super::near_blocks::{around, near};
use super::random::Dice;
use super::rows::Row;
use super::witness::Witness;
use super::world::{crooked_block, endless_block};

/// What a pair of blocks can be beside the answer.
#[derive(Clone, Copy, PartialEq, Eq, PartialOrd, Ord, Debug)]
pub enum Pair {
    FirstIsNone,
    SecondIsNone,
    NeitherIsOne,
    EndlessK,
    CrookedStart,
    BothEvents,
    EveryEvent,
    Halves,
    Neighbours,
    OneStart,
}

impl Pair {
    /// All of them, in the order of the table.
    pub const ALL: [Pair; 10] = [
        Pair::FirstIsNone,
        Pair::SecondIsNone,
        Pair::NeitherIsOne,
        Pair::EndlessK,
        Pair::CrookedStart,
        Pair::BothEvents,
        Pair::EveryEvent,
        Pair::Halves,
        Pair::Neighbours,
        Pair::OneStart,
    ];

    /// What its row is called.
    pub fn label(self) -> &'static str {
        match self {
            Pair::FirstIsNone => "compare: the first is no block",
            Pair::SecondIsNone => "compare: the second is no block",
            Pair::NeitherIsOne => "compare: neither is a block",
            Pair::EndlessK => "compare: a k above 64",
            Pair::CrookedStart => "compare: only a start that is no multiple",
            Pair::BothEvents => "compare: two single events",
            Pair::EveryEvent => "compare: every event and less",
            Pair::Halves => "compare: two with k = 63",
            Pair::Neighbours => "compare: the two halves of a block",
            Pair::OneStart => "compare: one start, another k",
        }
    }
}

/// The call on the proved side.
pub trait Compares {
    fn compare(&self, first: Block, second: Block) -> Number;
}

/// One pair, both ways round, and each block with itself.
pub fn judge(dice: &mut Dice, witness: &mut Witness, calls: &impl Compares) {
    let [first, second] = any_pair(dice);
    for (first, second) in [(first, second), (second, first), (first, first)] {
        compare(witness, calls, first, second);
    }
}

/// Two blocks near each other, or anywhere; at times one of them is none, or neither is.
fn any_pair(dice: &mut Dice) -> [Block; 2] {
    let first = any_block(dice);
    let second = match dice.chance(85) {
        true => near(dice, first),
        false => any_block(dice),
    };
    let mut pair = [first, second];
    if dice.chance(50) {
        pair.swap(0, 1);
    }
    let spoilt = match dice.below(8) {
        0 => [true, false],
        1 => [false, true],
        2 if dice.chance(30) => [true, true],
        _ => [false, false],
    };
    for (block, spoilt) in pair.iter_mut().zip(spoilt) {
        if spoilt {
            *block = no_block(dice, *block);
        }
    }
    pair.map(|(start, k)| Block { start, k: k as u8 })
}

/// A block of any size, the least and the greatest more often.
fn any_block(dice: &mut Dice) -> (u64, u32) {
    let any = dice.below(65) as u32;
    let k = dice.pick(&[0, 1, 63, 64, any, any, any, any]);
    let number = dice.number();
    let event = dice.pick(&[number, number, 0, u64::MAX]);
    around(event, k)
}

/// What is none, in place of a block: near it where that can be.
fn no_block(dice: &mut Dice, (start, k): (u64, u32)) -> (u64, u32) {
    match dice.below(4) {
        0 => endless_block(dice),
        1 => (start, dice.between(65, 255) as u32),
        2 if k > 0 => (start | 1 << dice.below(k.into()), k),
        _ => crooked_block(dice),
    }
}

/// Puts a pair to both sides.
fn compare(witness: &mut Witness, calls: &impl Compares, first: Block, second: Block) {
    let reference = Number::of_comparison(first, second);
    witness
        .column
        .saw_answer(Function::Compare, reference.refusal);
    if reference.refusal == refusal::NONE {
        witness.column.saw(Row::Compared(reference.number as u8));
    }
    for pair in Pair::ALL {
        if is_seen(pair, first, second) {
            witness.column.saw(Row::Pair(pair));
        }
    }
    let shown = |block: Block| format!("start {:016X}, k {:02X}", block.start, block.k);
    let asked = || format!("compare {} and {}", shown(first), shown(second));
    witness.compare(asked, &calls.compare(first, second), &reference);
}

/// Whether a pair is one of those that the row is of.
fn is_seen(pair: Pair, first: Block, second: Block) -> bool {
    let good = [first, second].map(|block| is_block(block.start, block.k.into()));
    let k = [first.k, second.k];
    let blocks = good == [true, true];
    match pair {
        Pair::FirstIsNone => good == [false, true],
        Pair::SecondIsNone => good == [true, false],
        Pair::NeitherIsOne => good == [false, false],
        Pair::EndlessK => k.iter().any(|k| *k > 64),
        Pair::CrookedStart => !blocks && k.iter().all(|k| *k <= 64),
        Pair::BothEvents => blocks && k == [0, 0],
        Pair::EveryEvent => blocks && k.contains(&64) && k != [64, 64],
        Pair::Halves => blocks && k == [63, 63],
        Pair::Neighbours => {
            blocks && k[0] == k[1] && k[0] < 64 && first.start ^ second.start == 1 << k[0]
        }
        Pair::OneStart => blocks && first.start == second.start && k[0] != k[1],
    }
}
