//! Makes the frames of a CAN leg: a few senders whose messages come in between each other, some of which lose a frame or are damaged.

use crate::aliases::{Aliases, HIGHEST_ALIAS};
use crate::can::{frames_of, Frame, Part};
use crate::joining::MOST_PAYLOAD;

use super::can_lists::any_alias;
use super::random::Dice;

/// Payload lengths at which a frame begins or ends, or that are the longest.
const LIMITS: [usize; 10] = [1, 7, 8, 9, 15, 16, 17, 24, 255, 256];

/// How long a payload is: short, at a limit, as long as may be, or too long.
fn any_length(dice: &mut Dice) -> usize {
    match dice.weighted(&[50, 25, 12, 7, 6]) {
        0 => dice.between(1, 40),
        1 => dice.pick(&LIMITS),
        2 => 0,
        3 => MOST_PAYLOAD,
        _ => dice.between(MOST_PAYLOAD + 1, MOST_PAYLOAD + 30),
    }
}

/// So many bytes of payload, mostly counting up, so that one that is missing or elsewhere shows.
pub fn any_payload(dice: &mut Dice, length: usize) -> Vec<u8> {
    if dice.chance(20) {
        return dice.bytes(length);
    }
    let first = dice.number() as u8;
    (0..length)
        .map(|place| first.wrapping_add(place as u8))
        .collect()
}

/// Any event, at times one at a limit.
pub fn any_event(dice: &mut Dice) -> u64 {
    match dice.below(8) {
        0 => dice.pick(&[0, 1, 0xFF, 1 << 63, u64::MAX - 1, u64::MAX]),
        _ => dice.number(),
    }
}

/// The frames of some senders of a list, as they come in.
pub fn any_frames(dice: &mut Dice, list: &Aliases) -> Vec<Frame> {
    let senders = any_senders(dice, list);
    let mut queues: Vec<Vec<Frame>> = Vec::new();
    for alias in &senders {
        queues.push(frames_of_sender(dice, *alias));
    }
    let same_again = dice.pick(&[0, 0, 50, 90, 100]);
    let mut frames = Vec::new();
    let mut at = 0;
    while queues.iter().any(|queue| !queue.is_empty()) {
        if queues[at].is_empty() || !dice.chance(same_again) {
            at = dice.between(0, queues.len() - 1);
        }
        if !queues[at].is_empty() {
            frames.push(queues[at].remove(0));
        }
        if dice.chance(8) {
            frames.push(frame_in_between(dice, list, &senders));
        }
    }
    frames
}

/// The aliases of those who send: mostly two, and seldom one that is not in the list.
fn any_senders(dice: &mut Dice, list: &Aliases) -> Vec<u64> {
    let mut senders = Vec::new();
    for _ in 0..dice.pick(&[1, 2, 2, 2, 2, 3, 3, 4]) {
        let alias = if list.aliases.is_empty() || dice.chance(3) {
            any_alias(dice, list)
        } else {
            // A list that is out of bounds has aliases that no header can have.
            dice.pick(&list.aliases) & HIGHEST_ALIAS
        };
        senders.push(alias);
    }
    senders
}

/// The frames of one sender's messages, one message after the other.
fn frames_of_sender(dice: &mut Dice, alias: u64) -> Vec<Frame> {
    let mut frames = Vec::new();
    for _ in 0..dice.between(1, 4) {
        let length = any_length(dice);
        let payload = any_payload(dice, length);
        let mut message = frames_of(alias, any_event(dice), &payload);
        match dice.weighted(&[54, 10, 10, 14, 4, 8]) {
            0 => {}
            1 => drop(message.remove(0)),
            2 => drop(message.pop()),
            3 => {
                let last = message.len() - 1;
                let middle = if last > 1 {
                    dice.between(1, last - 1)
                } else {
                    last
                };
                message.remove(middle);
            }
            4 => message.insert(0, message[dice.between(0, message.len() - 1)]),
            _ => damage(dice, &mut message),
        }
        frames.extend(message);
    }
    for frame in &mut frames {
        fill_unused(dice, frame);
    }
    frames
}

/// Any data bytes past the length, half of the time.
fn fill_unused(dice: &mut Dice, frame: &mut Frame) {
    if frame.length < 8 && dice.chance(50) {
        let random = dice.number().to_be_bytes();
        let used = usize::from(frame.length);
        frame.bytes[used..].copy_from_slice(&random[used..]);
    }
}

/// Another frame than was sent, in one place, half of the time one of the last two.
fn damage(dice: &mut Dice, message: &mut [Frame]) {
    let last = message.len() - 1;
    let first = dice.pick(&[0, last.saturating_sub(1)]);
    let place = dice.between(first, last);
    damage_frame(dice, &mut message[place]);
}

/// Another length or another header; what comes of it can still be a good frame.
pub fn damage_frame(dice: &mut Dice, frame: &mut Frame) {
    match dice.weighted(&[4, 1, 1, 1, 1, 1]) {
        0 => frame.length = dice.pick(&[0, 1, 7, 9, 16, 128, 255]),
        1 => frame.length ^= 1 << dice.below(8),
        2 => frame.header ^= 1 << dice.between(29, 31),
        3 => frame.header ^= 1 << dice.below(29),
        4 => frame.header = frame.header & 0xFFF | any_other_mti(dice) << 12,
        _ => frame.header = dice.number() as u32,
    }
}

/// The upper 20 bits of a header, next to one that is taken, of another message or of none.
fn any_other_mti(dice: &mut Dice) -> u32 {
    dice.pick(&[
        0x195B3, 0x195B5, 0x19F13, 0x19F17, 0x195F4, 0x19100, 0x194C4, 0x185B4, 0x1AF14, 0x09F15,
        0x00F16, 0x17F16,
    ])
}

/// A report without payload from one of the senders, any other frame of one, or one from an alias that is not in the list.
fn frame_in_between(dice: &mut Dice, list: &Aliases, senders: &[u64]) -> Frame {
    let event = any_event(dice).to_be_bytes();
    let alias = dice.pick(senders);
    match dice.weighted(&[50, 15, 25, 10]) {
        0 => Frame::of(Part::Whole, alias, &event),
        1 => Frame::of(dice.pick(&Part::ALL), alias, &event),
        2 => {
            let mut frame = Frame::of(dice.pick(&Part::ALL), alias, &event);
            damage_frame(dice, &mut frame);
            frame
        }
        _ => Frame::of(dice.pick(&Part::ALL), any_alias(dice, list), &event),
    }
}
