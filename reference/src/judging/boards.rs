//! Board files: valid and damaged ones, their text as a whole or in parts.

use crate::board::board_text;
use crate::proved;

use super::board_files::any_file;
use super::observed;
use super::random::Dice;
use super::texts::FromAnyByte;
use super::witness::{Hex, Witness};

/// One file, asked for as a whole, or in parts that are joined.
pub fn judge(dice: &mut Dice, witness: &mut Witness) {
    let file = any_file(dice);
    witness.show(|| format!("board file: {:?}", Hex(file.clone())));
    let text = board_text(&file);
    observed::board_file(witness.column, &file);
    let asked = FromAnyByte {
        name: "board_text",
        text: &text,
        whole: 75,
        call: |skip, buffer: &mut [u8]| proved::board_text(&file, skip, buffer),
    };
    asked.judge(dice, witness);
}
