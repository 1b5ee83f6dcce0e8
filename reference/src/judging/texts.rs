//! Texts of files: what the proved side puts into a lent buffer, and what it should; as a whole, or in parts that are joined.

use super::random::Dice;
use super::rows::Row;
use super::witness::{Text, Witness};

/// What the buffer is filled with before; no text has such a byte, so that every byte that is written shows.
const UNWRITTEN: u8 = 0xEE;
/// Bytes past the lent room, which no call may touch.
const GUARD: usize = 16;

/// Room beyond the reference's text, so that a longer text shows.
const SLACK: usize = 256;
/// A text this short is asked for in parts of a few bytes.
const SHORT: usize = 600;
/// The most parts of any other text, each of which runs the whole file.
const MOST_PARTS: usize = 12;

/// The bytes that were taken, how many, and whether the rest of the buffer is as it was.
#[derive(PartialEq, Debug)]
pub struct TextAnswer {
    pub text: Text,
    taken: usize,
    rest_unchanged: bool,
}

impl TextAnswer {
    /// What a proved call puts into a buffer of that room.
    pub fn of_proved(room: usize, call: impl FnOnce(&mut [u8]) -> usize) -> TextAnswer {
        let mut buffer = vec![UNWRITTEN; room + GUARD];
        let taken = call(&mut buffer[..room]);
        let end = taken.min(room);
        let rest_unchanged = buffer[end..].iter().all(|byte| *byte == UNWRITTEN);
        buffer.truncate(end);
        TextAnswer {
            text: Text(buffer),
            taken,
            rest_unchanged,
        }
    }

    /// As much of the text from byte `skip` on as fits into that room.
    pub fn expected(text: &[u8], skip: usize, room: usize) -> TextAnswer {
        let left = &text[skip.min(text.len())..];
        let part = &left[..left.len().min(room)];
        TextAnswer {
            text: Text(part.to_vec()),
            taken: part.len(),
            rest_unchanged: true,
        }
    }
}

/// A text that a proved call gives from any byte on: what the call is named, what the text should be, and how many times in a hundred it is asked for as a
/// whole.
pub struct FromAnyByte<'a, F: Fn(usize, &mut [u8]) -> usize> {
    pub name: &'static str,
    pub text: &'a [u8],
    pub whole: u64,
    pub call: F,
}

impl<F: Fn(usize, &mut [u8]) -> usize> FromAnyByte<'_, F> {
    /// Asks for the whole text, or else for its parts.
    pub fn judge(&self, dice: &mut Dice, witness: &mut Witness) {
        if dice.chance(self.whole) {
            self.compare(witness, 0, self.text.len() + SLACK);
            return;
        }
        witness.column.saw(Row::TextInParts);
        self.compare_parts(dice, witness);
        let length = self.text.len();
        let beyond = dice.pick(&[length, length + 1, usize::MAX]);
        self.compare(witness, beyond, SLACK);
    }

    /// Asks for the text from byte `skip` on and compares it; answers what was taken.
    fn compare(&self, witness: &mut Witness, skip: usize, room: usize) -> Vec<u8> {
        let proved = TextAnswer::of_proved(room, |buffer| (self.call)(skip, buffer));
        let reference = TextAnswer::expected(self.text, skip, room);
        let asked = || format!("{} from byte {skip} on into {room} bytes", self.name);
        witness.compare(asked, &proved, &reference);
        proved.text.0
    }

    /// Asks for part after part until one is empty, and compares all of them joined.
    fn compare_parts(&self, dice: &mut Dice, witness: &mut Witness) {
        let least = smallest_part(self.text.len());
        let mut joined = Vec::new();
        while !witness.differed {
            let room = dice.between(least, 4 * least);
            let part = self.compare(witness, joined.len(), room);
            if part.is_empty() {
                break;
            }
            joined.extend(part);
        }
        let asked = || "the parts joined".to_string();
        witness.compare(asked, &Text(joined), &Text(self.text.to_vec()));
    }
}

/// The smallest part that a text is asked for in: a byte of a short one, else as much as keeps the parts few.
fn smallest_part(length: usize) -> usize {
    if length <= SHORT {
        return 1;
    }
    length.div_ceil(MOST_PARTS)
}

#[cfg(test)]
mod tests {
    use super::*;

    /// A part of a text, and what a call would have to do to give it.
    #[test]
    fn parts_of_a_text() {
        let writes = |buffer: &mut [u8]| {
            buffer[..2].copy_from_slice(b"cd");
            2
        };
        assert!(TextAnswer::of_proved(2, writes) == TextAnswer::expected(b"abcdef", 2, 2));
        assert!(TextAnswer::of_proved(9, writes) == TextAnswer::expected(b"abcd", 2, 9));
        assert!(TextAnswer::of_proved(9, writes) != TextAnswer::expected(b"abcde", 2, 9));
        assert!(TextAnswer::of_proved(9, |_| 0) == TextAnswer::expected(b"ab", usize::MAX, 9));
        let writes_past = |buffer: &mut [u8]| {
            buffer[0] = b'a';
            0
        };
        assert!(TextAnswer::of_proved(9, writes_past) != TextAnswer::expected(b"", 0, 9));
    }
}
