//! What a range call answers, as `include/hrislanoth.h` lays it out.

use crate::lent_box::Block;
use crate::{range, refusal};

#[repr(C)]
#[derive(Clone, Copy, Debug, PartialEq, Eq)]
pub struct Number {
    pub refusal: u8,
    pub number: u64,
}

impl Number {
    /// How two blocks lie to each other, by the reference: 1 to 4, or refusal 14 and 0 beside it (02, W4).
    pub fn of_comparison(first: Block, second: Block) -> Number {
        let block = |block: Block| (block.start, u32::from(block.k));
        match range::compare(block(first), block(second)) {
            Ok(comparison) => Number {
                refusal: refusal::NONE,
                number: comparison.number().into(),
            },
            Err(refusal) => Number { refusal, number: 0 },
        }
    }
}
