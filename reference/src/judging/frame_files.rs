//! Makes frame files: a list of aliases, mostly one that is in bounds, frames of a few senders, and messages to split.

use crate::aliases::Aliases;
use crate::can::Frame;
use crate::frame_file::{MOST_BYTES, MOST_CONTENT, MOST_ROOM, MOST_STEPS};

use super::can_lists;
use super::can_splits;
use super::can_talk::any_frames;
use super::legs::FIRST_OF_CALLS;
use super::parts::{change_a_byte, Parts};
use super::random::Dice;

/// The bytes of a step that splits a message without content.
const SPLIT: usize = 33;

/// A file, mostly valid.
pub fn any_file(dice: &mut Dice) -> Vec<u8> {
    let mut list = can_lists::in_bounds(dice);
    if dice.chance(8) {
        let way = dice.between(0, FIRST_OF_CALLS - 1);
        can_lists::spoil(dice, &mut list, way, true);
    }
    let mut steps = any_steps(dice, &list);
    if dice.weighted(&[98, 2]) == 1 {
        add_steps(dice, &mut steps);
    }
    let mut file = file_of(&list, &steps);
    if dice.chance(8) {
        damage(dice, &list, &mut steps, &mut file);
    }
    file
}

/// The file of a list and of the bytes of steps (FRAME-FILES, the first table).
fn file_of(list: &Aliases, steps: &[Vec<u8>]) -> Vec<u8> {
    let mut file = vec![list.aliases.len() as u8];
    for (alias, node) in list.aliases.iter().zip(&list.nodes) {
        file.extend((*alias as u16).to_be_bytes());
        file.extend(node.to_be_bytes());
    }
    file.extend((steps.len() as u16).to_be_bytes());
    file.extend(steps.concat());
    file
}

/// Frames that come in, with messages to split in between; at times these alone, and seldom nothing.
fn any_steps(dice: &mut Dice, list: &Aliases) -> Vec<Vec<u8>> {
    let (frames, splits) = match dice.weighted(&[3, 17, 40, 40]) {
        0 => return Vec::new(),
        1 => (Vec::new(), dice.between(1, 12)),
        2 => (any_frames(dice, list), 0),
        _ => (any_frames(dice, list), dice.between(1, 5)),
    };
    let mut steps: Vec<Vec<u8>> = frames.iter().map(join_step).collect();
    for _ in 0..splits {
        let place = dice.between(0, steps.len());
        let step = any_split_step(dice, list);
        steps.insert(place, step);
    }
    steps
}

/// A step that joins a frame (FRAME-FILES, the second table).
fn join_step(frame: &Frame) -> Vec<u8> {
    [vec![1], frame.written()].concat()
}

/// A step that splits a message.
fn any_split_step(dice: &mut Dice, list: &Aliases) -> Vec<u8> {
    let parts = can_splits::any_parts(dice, list);
    let room = can_splits::any_room(dice, &parts);
    split_step(dice, &parts, room)
}

/// A step that splits a message; an absent field's eight bytes are any (FRAME-FILES, the second table).
fn split_step(dice: &mut Dice, parts: &Parts, room: usize) -> Vec<u8> {
    let mut step = vec![2];
    step.extend(parts.mti.to_be_bytes());
    step.extend(parts.source.to_be_bytes());
    for field in [parts.destination, parts.event] {
        step.push(field.is_some().into());
        step.extend(field.unwrap_or(dice.number()).to_be_bytes());
    }
    step.extend((parts.content.len() as u16).to_be_bytes());
    step.extend(&parts.content);
    step.extend((room as u16).to_be_bytes());
    step
}

/// As many steps as may be, one less or one more.
fn add_steps(dice: &mut Dice, steps: &mut Vec<Vec<u8>>) {
    let count = MOST_STEPS as usize - 1 + dice.between(0, 2);
    let least = join_step(&Frame {
        header: 0x19F1_4000,
        length: 1,
        bytes: [0; 8],
    });
    let again = if steps.is_empty() {
        vec![least]
    } else {
        steps.clone()
    };
    steps.extend(
        again
            .into_iter()
            .cycle()
            .take(count.saturating_sub(steps.len())),
    );
}

/// Makes a bad file of it, or one that is hardly good.
fn damage(dice: &mut Dice, list: &Aliases, steps: &mut Vec<Vec<u8>>, file: &mut Vec<u8>) {
    match dice.weighted(&[1, 1, 1, 1, 1, 1, 2, 2]) {
        0 => file.truncate(dice.between(0, file.len())),
        1 => drop(file.pop()),
        2 => file.push(dice.number() as u8),
        3 => change_a_byte(dice, file),
        4 => file[0] ^= dice.pick(&[1, 2, 128]),
        5 => {
            let place = 2 + 10 * list.aliases.len();
            file[place] ^= 1;
        }
        6 => {
            let step = odd_step(dice, list);
            steps.push(step);
            *file = file_of(list, steps);
        }
        _ => fill_to_most_bytes(dice, list, steps, file),
    }
}

/// A step that there is not, or a mark, a content length or a room at or past its limit.
fn odd_step(dice: &mut Dice, list: &Aliases) -> Vec<u8> {
    let mut parts = can_splits::any_parts(dice, list);
    let mut room = MOST_ROOM as usize;
    let way = dice.below(5);
    if way == 0 {
        parts
            .content
            .resize(MOST_CONTENT as usize + dice.between(0, 1), 0x5A);
    }
    if way == 1 {
        room += dice.pick(&[0, 1, 256, 4_096]);
    }
    let mut step = split_step(dice, &parts, room);
    match way {
        2 => step[11] = dice.pick(&[2, 3, 128, 255]),
        3 => step[20] = dice.pick(&[2, 3, 128, 255]),
        4 => step[0] = dice.pick(&[0, 3, b'1', 255]),
        _ => {}
    }
    step
}

/// Messages to split that make the file as long as may be, a byte less or a byte more.
fn fill_to_most_bytes(
    dice: &mut Dice,
    list: &Aliases,
    steps: &mut Vec<Vec<u8>>,
    file: &mut Vec<u8>,
) {
    let size = MOST_BYTES - 1 + dice.between(0, 2);
    let mut left = size.saturating_sub(file.len());
    while left >= SPLIT {
        let mut parts = can_splits::any_parts(dice, list);
        let mut length = (left - SPLIT).min(256);
        if (1..SPLIT).contains(&(left - SPLIT - length)) {
            // What is left over is never too little for a step.
            length -= SPLIT;
        }
        parts.content.resize(length, 0x5A);
        let room = can_splits::any_room(dice, &parts);
        let step = split_step(dice, &parts, room);
        left -= step.len();
        steps.push(step);
    }
    *file = file_of(list, steps);
}

#[cfg(test)]
mod tests {
    use super::*;
    use crate::frame_file::parts_of;

    /// Most files are good, and some are as long as may be.
    #[test]
    fn good_and_long_files() {
        let mut good = 0;
        let mut longest = [0; 3];
        for index in 0..2_000 {
            let file = any_file(&mut Dice::of_input(1, 8, index));
            good += usize::from(parts_of(&file).is_some());
            if let Some(times) = longest.get_mut((file.len() + 1).wrapping_sub(MOST_BYTES)) {
                *times += 1;
            }
        }
        assert!((1_700..2_000).contains(&good), "{good}");
        assert!(longest.iter().all(|times| *times > 0), "{longest:?}");
    }
}
