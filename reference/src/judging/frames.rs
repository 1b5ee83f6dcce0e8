//! Frame files: valid and damaged ones, their text as a whole or in parts.

use crate::frame_file::frame_text;

use super::can_calls::CanSide;
use super::frame_files::any_file;
use super::observed_can;
use super::random::Dice;
use super::texts::FromAnyByte;
use super::witness::{Hex, Witness};

/// One file, asked for as a whole, or in parts that are joined.
pub fn judge(dice: &mut Dice, witness: &mut Witness, side: &impl CanSide) {
    let file = any_file(dice);
    witness.show(|| format!("frame file: {:?}", Hex(file.clone())));
    let text = frame_text(&file);
    observed_can::frame_file(witness.column, &file);
    let asked = FromAnyByte {
        name: "frame_text",
        text: &text,
        whole: 95,
        call: |skip, buffer: &mut [u8]| side.frame_text(&file, skip, buffer),
    };
    asked.judge(dice, witness);
}
