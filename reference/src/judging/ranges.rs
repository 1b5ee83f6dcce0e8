//! Ranges: a number's block, and a block's number.

use crate::proved::{self, Block, Number};
use crate::{range, refusal};

use super::functions::Function;
use super::random::Dice;
use super::rows::Row;
use super::witness::Witness;
use super::world::{low_bits, Area};

/// One number and one block.
pub fn judge(dice: &mut Dice, witness: &mut Witness) {
    let number = any_number(dice);
    compare_block_of(witness, number);
    let (start, k) = any_block(dice);
    compare_number_of(witness, start, k);
    let (start, k) = range::block_of(number);
    compare_number_of(witness, start, k as u8);
}

/// A number with a run of any length and of either bit, or any number.
fn any_number(dice: &mut Dice) -> u64 {
    match dice.below(16) {
        0 => dice.pick(&[0, u64::MAX]),
        1 => dice.below(32),
        2 => !dice.below(32),
        3 => dice.number(),
        _ => {
            let run = dice.between(0, 64) as u32;
            Area::with_run(dice.number(), run, dice.chance(50)).number
        }
    }
}

/// A block, or a start that is no multiple, or a k that is none.
fn any_block(dice: &mut Dice) -> (u64, u8) {
    let k = dice.between(0, 64) as u8;
    let start = dice.number() & !low_bits(u32::from(k));
    match dice.below(8) {
        0 => (dice.number(), k),
        1 => (start, dice.number() as u8),
        2 => (0, dice.between(65, 255) as u8),
        3 => (dice.below(16), dice.below(8) as u8),
        4 if k > 0 => (start | 1 << dice.below(u64::from(k)), k),
        _ => (start, k),
    }
}

/// The block of a number, on both sides.
fn compare_block_of(witness: &mut Witness, number: u64) {
    let (start, k) = range::block_of(number);
    witness.column.saw_answer(Function::BlockOf, refusal::NONE);
    witness.column.saw(Row::of_block(k));
    let reference = Block { start, k: k as u8 };
    let asked = || format!("block_of {number:016X}");
    witness.compare(asked, &proved::block_of(number), &reference);
}

/// The number of a block, on both sides.
fn compare_number_of(witness: &mut Witness, start: u64, k: u8) {
    let reference = match range::number_of(start, u32::from(k)) {
        Some(number) => Number {
            refusal: refusal::NONE,
            number,
        },
        None => Number {
            refusal: refusal::NO_RANGE,
            number: 0,
        },
    };
    witness
        .column
        .saw_answer(Function::NumberOf, reference.refusal);
    let proved = proved::number_of(Block { start, k });
    let asked = || format!("number_of start {start:016X}, k {k:02X}");
    witness.compare(asked, &proved, &reference);
}
