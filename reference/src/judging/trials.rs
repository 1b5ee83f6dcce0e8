//! Trial files: valid and damaged ones, their whole text and as much of it as fits into less.

use crate::proved;
use crate::trial::trial_text;

use super::observed;
use super::random::Dice;
use super::rows::Row;
use super::texts::TextAnswer;
use super::trial_files::any_file;
use super::witness::{Hex, Witness};

/// The room that is enough for every file.
const WHOLE: usize = 65_536;

/// One file, asked for as a whole and at times in less room.
pub fn judge(dice: &mut Dice, witness: &mut Witness) {
    let file = any_file(dice);
    witness.show(|| format!("trial file: {:?}", Hex(file.clone())));
    let text = trial_text(&file);
    observed::trial_file(witness.column, &file);
    compare(witness, &file, &text, WHOLE);
    if dice.chance(25) {
        witness.column.saw(Row::TextInParts);
        for _ in 0..4 {
            let room = dice.between(0, text.len() + 2);
            compare(witness, &file, &text, room);
        }
    }
}

/// Asks for the text with that room and compares it with the reference's.
fn compare(witness: &mut Witness, file: &[u8], text: &[u8], room: usize) {
    let proved = TextAnswer::of_proved(room, |buffer| proved::trial_text(file, buffer));
    let reference = TextAnswer::expected(text, 0, room);
    let asked = || format!("trial_text into {room} bytes");
    witness.compare(asked, &proved, &reference);
}
