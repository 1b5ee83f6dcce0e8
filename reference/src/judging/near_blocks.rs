//! Blocks that lie to another in some way: equal to it, inside it, around it or beside it.

use super::random::Dice;
use super::world::low_bits;

/// A block as its start and k.
pub type Block = (u64, u32);

/// The block of 2^k events that has this one.
pub fn around(event: u64, k: u32) -> Block {
    (event & !low_bits(k), k)
}

/// The smallest block that holds both.
pub fn around_both((start, k): Block, (other, other_k): Block) -> Block {
    let differing = 64 - (start ^ other).leading_zeros();
    around(start, differing.max(k).max(other_k))
}

/// A block of 2^k events inside another, which has at least as many.
fn within(dice: &mut Dice, (start, outer): Block, k: u32) -> Block {
    around(start | dice.number() & low_bits(outer), k)
}

/// A size from the least to the most, both among them.
fn size(dice: &mut Dice, least: u32, most: u32) -> u32 {
    dice.between(least as usize, most as usize) as u32
}

/// A block near another: the same one, one or an event inside, a half, the whole that it is a half of, a wider one, seldom every event; or the other half, an
/// event beside it, or one that differs in a bit.
pub fn near(dice: &mut Dice, block: Block) -> Block {
    let (start, k) = block;
    match dice.weighted(&[10, 13, 11, 8, 13, 12, 3, 2, 15, 8, 5]) {
        0 => block,
        1 => {
            let inner = size(dice, 0, k);
            within(dice, block, inner)
        }
        2 => dice.pick(&[(start, 0), (start | low_bits(k), 0)]),
        3 if k > 0 => within(dice, block, k - 1),
        4 if k < 64 => around(start, k + 1),
        5 if k < 64 => around(start, size(dice, k + 1, (k + 8).min(64))),
        6 if k < 64 => around(start, size(dice, k + 1, 64)),
        7 => (0, 64),
        8 if k < 64 => (start ^ 1 << k, k),
        9 => beside(dice, block),
        _ => {
            let other = start ^ 1 << dice.below(64);
            let k = dice.pick(&[0, k]);
            around(other, k)
        }
    }
}

/// The event before a block's first or after its last.
fn beside(dice: &mut Dice, (start, k): Block) -> Block {
    let last = start | low_bits(k);
    (dice.pick(&[start.wrapping_sub(1), last.wrapping_add(1)]), 0)
}

#[cfg(test)]
mod tests {
    use super::*;
    use crate::range::{compare, is_block, Comparison};

    /// What comes of a block is a block, and lies to it in each of the four ways, whatever its size.
    #[test]
    fn each_way() {
        let mut dice = Dice::of_input(1, 1, 1);
        for k in 0..=64 {
            let block = around(0xABCD_EF01_2345_6789, k);
            let mut times = [0; 4];
            for _ in 0..300 {
                let other = near(&mut dice, block);
                assert!(is_block(other.0, other.1));
                let lies = compare(other, block).unwrap();
                times[usize::from(lies.number()) - 1] += 1;
            }
            let [equal, inside, over, apart] = times;
            assert!(equal > 10);
            assert_eq!(
                [inside > 10, over > 10, apart > 10],
                [k > 0, k < 64, k < 64]
            );
        }
    }

    /// The smallest block that holds both: neither of its halves does.
    #[test]
    fn both() {
        for (one, other, expected) in [
            ((4, 0), (4, 0), (4, 0)),
            ((4, 0), (5, 0), (4, 1)),
            ((3, 0), (4, 0), (0, 3)),
            ((4, 2), (6, 1), (4, 2)),
            ((0, 0), (u64::MAX, 0), (0, 64)),
            ((0, 63), (1 << 63, 63), (0, 64)),
        ] {
            assert_eq!(around_both(one, other), expected);
            assert_eq!(around_both(other, one), expected);
            let held = |block| compare(block, expected).unwrap() != Comparison::Apart;
            assert!(held(one) && held(other));
        }
    }
}
