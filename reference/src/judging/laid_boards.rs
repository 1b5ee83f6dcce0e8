//! Boards laid out by hand, in bounds or out of them in a chosen way.

use crate::lent_board::LentBoard;
use crate::node::{Slot, ADVERTISED, INITIALIZED, MOST_SLOTS, NOT_INITIALIZED, UNADVERTISED};

use super::board_calls::Caller;
use super::random::Dice;
use super::ways::FIRST_UNEQUAL;
use super::world::{crooked_block, endless_block, Area};

/// Entries of each list past what is lent of it, which no call may touch.
const GUARD: usize = 3;

/// How many slots: the limits more often than what lies between.
fn any_slot_count(dice: &mut Dice) -> usize {
    match dice.weighted(&[6, 50, 22, 22]) {
        0 => 0,
        1 => dice.between(1, 12),
        2 => dice.between(13, MOST_SLOTS - 1),
        _ => MOST_SLOTS,
    }
}

/// A board in bounds but for its Node ID at times; its marks need not be those that calls would have left.
pub fn in_bounds(dice: &mut Dice, caller: &mut Caller, automatic: Area) -> LentBoard {
    let count = any_slot_count(dice);
    let state = dice.pick(&[NOT_INITIALIZED, INITIALIZED, INITIALIZED]);
    let all_different = dice.chance(40);
    let mut slots = Vec::new();
    for _ in 0..count {
        let event = caller.add_event(dice, all_different);
        let mark = if state == INITIALIZED {
            dice.pick(&[UNADVERTISED, ADVERTISED])
        } else {
            UNADVERTISED
        };
        slots.push(slot_in_bounds(dice, event, mark));
    }
    let mut board = LentBoard {
        id: caller.id,
        state,
        automatic: (automatic.first, automatic.run),
        slots,
        lengths: [count; 4],
    };
    guard(dice, &mut board);
    board
}

/// A slot of any role and status.
fn slot_in_bounds(dice: &mut Dice, event: u64, mark: u8) -> Slot {
    Slot {
        role: dice.below(2) as u8,
        event,
        status: dice.below(3) as u8,
        mark,
    }
}

/// Any numbers in the entries past the lists.
fn guard(dice: &mut Dice, board: &mut LentBoard) {
    let [roles, events, statuses, marks] = board.lengths;
    let longest = roles.max(events).max(statuses).max(marks);
    while board.slots.len() < longest + GUARD {
        board.slots.push(Slot {
            role: dice.number() as u8,
            event: dice.number(),
            status: dice.number() as u8,
            mark: dice.number() as u8,
        });
    }
}

/// Puts a board in bounds out of them in one way, by its place among the rows.
pub fn spoil(dice: &mut Dice, board: &mut LentBoard, way: usize) {
    match way {
        0 => some_slot(dice, board).role = dice.pick(&[2, 3, 255]),
        1 => some_slot(dice, board).status = dice.pick(&[3, 4, 255]),
        2 => some_slot(dice, board).mark = dice.pick(&[2, 3, 255]),
        3 => board.state = dice.pick(&[2, 3, 255]),
        4 => advertise_too_early(dice, board),
        5 => board.automatic.1 = 0,
        6 => board.automatic = endless_block(dice),
        7 => board.automatic = crooked_block(dice),
        8 => lengthen_to(dice, board, &[65, 65, 66, 100, 128, 256 + 3, 65_536 + 2]),
        _ => unequal_lists(dice, board, way - FIRST_UNEQUAL),
    }
    guard(dice, board);
}

/// One of the slots; one is made where there is none.
fn some_slot<'a>(dice: &mut Dice, board: &'a mut LentBoard) -> &'a mut Slot {
    if board.lengths[0] == 0 {
        lengthen_to(dice, board, &[1]);
    }
    let place = dice.between(0, board.lengths[0] - 1);
    &mut board.slots[place]
}

/// More slots, as many as one of these numbers says.
fn lengthen_to(dice: &mut Dice, board: &mut LentBoard, counts: &[usize]) {
    let before = board.lengths[0];
    let count = dice.pick(counts);
    let event = dice.number();
    let slots: Vec<Slot> = (before..count)
        .map(|_| slot_in_bounds(dice, event, UNADVERTISED))
        .collect();
    board.slots.splice(before..before, slots);
    board.lengths = [count; 4];
}

/// Not Initialized, with one slot that is Advertised all the same.
fn advertise_too_early(dice: &mut Dice, board: &mut LentBoard) {
    board.state = NOT_INITIALIZED;
    let count = board.lengths[0];
    for slot in &mut board.slots[..count] {
        slot.mark = UNADVERTISED;
    }
    some_slot(dice, board).mark = ADVERTISED;
}

/// One list shorter or longer than the others, list after list, or no two alike.
fn unequal_lists(dice: &mut Dice, board: &mut LentBoard, way: usize) {
    some_slot(dice, board);
    let count = board.lengths[0];
    match board.lengths.get_mut(way / 2) {
        Some(length) if way & 1 == 0 => *length = dice.pick(&[count - 1, 0]),
        Some(length) => *length = count + dice.pick(&[1, 1, 64, 256]),
        None => board.lengths = dice.pick(&[[0, 1, 2, 3], [3, 2, 1, 0], [1, 3, 0, 2]]),
    }
}

#[cfg(test)]
mod tests {
    use super::super::ways::BOARD_WAY_COUNT;
    use super::*;
    use crate::node::Answer;

    /// What refuses a board by itself: 7 where it is out of bounds, else 3 where its Node ID is none.
    fn refusal_of(board: &LentBoard) -> u8 {
        board.clone().call(|node| node.initialise(14)).refusal
    }

    /// A board is in bounds until it is spoilt, and every way is out of bounds.
    #[test]
    fn every_way() {
        for index in 0..2_000 {
            let mut dice = Dice::of_input(1, 1, index);
            let automatic = Area::any_automatic(&mut dice);
            let mut caller = Caller::new(&mut dice, automatic);
            let mut board = in_bounds(&mut dice, &mut caller, automatic);
            let id_is_good = crate::message::is_node_id(board.id);
            assert_eq!(refusal_of(&board), if id_is_good { 0 } else { 3 });
            let way = index as usize % BOARD_WAY_COUNT;
            spoil(&mut dice, &mut board, way);
            assert_eq!(refusal_of(&board), 7, "way {way}");
            assert_eq!(board.lists_are_equal(), way < FIRST_UNEQUAL, "way {way}");
            assert!(board
                .lengths
                .iter()
                .all(|length| board.slots.len() >= length + GUARD));
        }
    }

    /// Only the list that a way names has another length.
    #[test]
    fn which_list() {
        for (way, list) in [0, 0, 1, 1, 2, 2, 3, 3].into_iter().enumerate() {
            let mut dice = Dice::of_input(1, 1, 1);
            let mut caller = Caller::new(&mut dice, Area::house());
            let mut board = in_bounds(&mut dice, &mut caller, Area::house());
            spoil(&mut dice, &mut board, FIRST_UNEQUAL + way);
            let others = [(list + 1) % 4, (list + 2) % 4, (list + 3) % 4];
            let lengths = others.map(|other| board.lengths[other]);
            assert_eq!(lengths, [lengths[0]; 3]);
            assert_eq!(board.lengths[list] < lengths[0], way % 2 == 0);
            assert_eq!(board.call(|node| node.set_status(0, 0)), Answer::refused(7));
        }
    }
}
