//! Makes board files: a board, mostly one that is in bounds, and calls.

use crate::board::{MOST_BYTES, MOST_CALLS, MOST_ROOM, MOST_SLOTS};
use crate::call::Call;

use super::board_calls::Caller;
use super::parts::change_a_byte;
use super::random::Dice;
use super::world::Area;

/// A file that is being made.
struct Maker<'a> {
    dice: &'a mut Dice,
    caller: Caller,
    file: Vec<u8>,
}

/// A file, mostly valid.
pub fn any_file(dice: &mut Dice) -> Vec<u8> {
    let automatic = Area::any_automatic(dice);
    let slots = any_slot_count(dice);
    let mut maker = Maker {
        caller: Caller::new(dice, automatic),
        dice,
        file: Vec::new(),
    };
    maker.add_board(automatic, slots);
    maker.add_calls();
    if maker.dice.chance(12) {
        maker.damage();
    }
    maker.file
}

/// How many slots: the limits more often than what lies between.
fn any_slot_count(dice: &mut Dice) -> usize {
    match dice.weighted(&[6, 45, 18, 18, 5, 5, 3]) {
        0 => 0,
        1 => dice.between(1, 12),
        2 => dice.between(13, 63),
        3 => 64,
        4 => 65,
        5 => dice.between(66, 100),
        _ => dice.pick(&[100, 101, 255]),
    }
}

/// How many calls: mostly some, seldom as many as may be or more.
fn any_call_count(dice: &mut Dice) -> usize {
    match dice.weighted(&[10, 65, 20, 3, 2]) {
        0 => dice.between(0, 3),
        1 => dice.between(1, 60),
        2 => dice.between(60, 300),
        3 => MOST_CALLS,
        _ => MOST_CALLS + 1,
    }
}

impl Maker<'_> {
    /// The board, one of its slots out of bounds at times.
    fn add_board(&mut self, automatic: Area, slots: usize) {
        self.file.extend(self.caller.id.to_be_bytes());
        self.file.extend(automatic.number.to_be_bytes());
        self.file.push(slots as u8);
        let all_different = self.dice.chance(40);
        for _ in 0..slots {
            self.add_slot(all_different);
        }
        if slots > 0 && self.dice.chance(6) {
            self.spoil_a_slot(slots);
        }
    }

    /// A slot.
    fn add_slot(&mut self, all_different: bool) {
        let event = self.caller.add_event(self.dice, all_different);
        let role = self.dice.below(2) as u8;
        let status = self.dice.below(3) as u8;
        self.file.push(role);
        self.file.extend(event.to_be_bytes());
        self.file.push(status);
    }

    /// A role or a status that is none, in one slot.
    fn spoil_a_slot(&mut self, slots: usize) {
        let slot = 17 + 10 * self.dice.between(0, slots - 1);
        if self.dice.chance(50) {
            self.file[slot] = self.dice.pick(&[2, 3, 255]);
        } else {
            self.file[slot + 9] = self.dice.pick(&[3, 4, 255]);
        }
    }

    /// The calls.
    fn add_calls(&mut self) {
        let count = any_call_count(self.dice);
        for call in self.caller.calls(self.dice, count) {
            self.file.extend(bytes_of(&call));
        }
    }

    /// Makes a bad file of it, or one that is hardly good.
    fn damage(&mut self) {
        match self.dice.below(7) {
            0 => self.file.truncate(self.dice.between(0, self.file.len())),
            1 => self.file.push(self.dice.number() as u8),
            2 => self.add_another_call(),
            3 => self.add_too_much_room(),
            4 => self.file[16] = self.dice.between(MOST_SLOTS as usize, 255) as u8,
            5 => self.fill_to_most_bytes(),
            _ => change_a_byte(self.dice, &mut self.file),
        }
    }

    /// A call that there is not.
    fn add_another_call(&mut self) {
        let call = self.dice.pick(&[0, 6, b'1', 255]);
        self.file.extend([call, 0, 14]);
    }

    /// An initialisation with more room than may be lent, or just as much.
    fn add_too_much_room(&mut self) {
        let most = MOST_ROOM as u16;
        let room = self.dice.pick(&[most, most + 1, 4_096, u16::MAX]);
        self.file.push(1);
        self.file.extend(room.to_be_bytes());
    }

    /// A last call that makes the file as long as may be, a byte less or a byte more.
    fn fill_to_most_bytes(&mut self) {
        let size = MOST_BYTES - 1 + self.dice.between(0, 2);
        self.file.extend([5, 0, 0]);
        let Some(length) = size.checked_sub(self.file.len() + 2) else {
            return;
        };
        self.file.extend((length as u16).to_be_bytes());
        self.file.resize(size, 0x5A);
    }
}

/// The bytes of a call (BOARD-FILES, the second table).
fn bytes_of(call: &Call) -> Vec<u8> {
    let [high, low] = (call.room() as u16).to_be_bytes();
    match call {
        Call::Initialise { .. } => vec![1, high, low],
        Call::Announce { slot, .. } => vec![2, high, low, *slot as u8],
        Call::Produce { slot, .. } => vec![3, high, low, *slot as u8],
        Call::SetStatus { slot, status } => vec![4, *slot as u8, *status],
        Call::Receive { message, .. } => {
            let length = (message.len() as u16).to_be_bytes();
            [&[5, high, low], &length[..], message].concat()
        }
    }
}
