//! Calls of a board: laid out by hand, put through calls while it is in bounds, then put out of bounds and called again. Each call is made on the
//! slots as records and as four lists.

use std::fmt::{self, Debug, Formatter};

use crate::call::Call;
use crate::lent_board::LentBoard;
use crate::node::{Answer, Slot};

use super::board_calls::Caller;
use super::laid_boards;
use super::random::Dice;
use super::rows::Row;
use super::ways::BOARD_WAY_COUNT;
use super::witness::{Hex, Witness};
use super::world::Area;

/// Bytes past the lent room, which no call may touch.
const GUARD: usize = 8;

/// The two faces of the calls on the proved side. Each takes the board and the whole output as they stand before the call.
pub trait Faces {
    /// The call on slot records, as many as each list of the board is long.
    fn on_records(&self, board: &LentBoard, call: &Call, output: &[u8]) -> Left;
    /// The call on the four lists.
    fn on_lists(&self, board: &LentBoard, call: &Call, output: &[u8]) -> Left;
}

/// What a call leaves: the numbers that it answers, the record, and every entry of the slots and byte of the output, those past what is lent too.
#[derive(PartialEq, Debug)]
pub struct Left {
    pub refusal: u8,
    pub messages: usize,
    pub bytes: usize,
    pub matches: u64,
    pub id: u64,
    pub state: u8,
    pub automatic: (u64, u32),
    pub slots: Slots,
    pub written: Hex,
    pub rest: Rest,
}

/// Slots, shown one by one only where an answer is shown in full.
#[derive(PartialEq)]
pub struct Slots(pub Vec<Slot>);

impl Debug for Slots {
    fn fmt(&self, out: &mut Formatter) -> fmt::Result {
        if !out.alternate() {
            return write!(out, "..");
        }
        for slot in &self.0 {
            let Slot {
                role,
                event,
                status,
                mark,
            } = slot;
            write!(out, "\n{role} {event:016X} {status} {mark}")?;
        }
        Ok(())
    }
}

/// The output past what was written, shown only there too.
#[derive(PartialEq)]
pub struct Rest(pub Vec<u8>);

impl Debug for Rest {
    fn fmt(&self, out: &mut Formatter) -> fmt::Result {
        if !out.alternate() {
            return write!(out, "..");
        }
        write!(out, "{:?}", Hex(self.0.clone()))
    }
}

impl Left {
    /// What the reference leaves of a board and of an output.
    pub fn of_reference(after: &LentBoard, answer: &Answer, output: &[u8]) -> Left {
        let mut output = output.to_vec();
        output[..answer.written.len()].copy_from_slice(&answer.written);
        let (written, rest) = split_output(output, answer.written.len());
        Left {
            refusal: answer.refusal,
            messages: answer.messages().count(),
            bytes: answer.written.len(),
            matches: answer.matches,
            id: after.id,
            state: after.state,
            automatic: after.automatic,
            slots: Slots(after.slots.clone()),
            written,
            rest,
        }
    }
}

/// An output in two: so many bytes that were written, if it has as many, and the rest.
pub fn split_output(mut output: Vec<u8>, bytes: usize) -> (Hex, Rest) {
    let rest = output.split_off(bytes.min(output.len()));
    (Hex(output), Rest(rest))
}

/// One board and its calls.
pub fn judge(dice: &mut Dice, witness: &mut Witness, faces: &impl Faces) {
    let automatic = Area::any_automatic(dice);
    let mut caller = Caller::new(dice, automatic);
    let mut board = laid_boards::in_bounds(dice, &mut caller, automatic);
    witness.column.saw(Row::of_board(board.lengths[0]));
    let count = dice.pick(&[0, 1, 10, 60, 120]);
    let calls = caller.calls(dice, count);
    if !follow(dice, witness, faces, &mut board, calls) {
        return;
    }
    let way = dice.between(0, BOARD_WAY_COUNT - 1);
    laid_boards::spoil(dice, &mut board, way);
    witness.column.saw(Row::BoardWay(way));
    if board.lists_are_equal() {
        witness.column.saw(Row::of_board(board.lengths[0]));
    }
    let calls = (0..5).map(|_| caller.any_call(dice)).collect();
    follow(dice, witness, faces, &mut board, calls);
}

/// Makes calls on both sides, up to the first difference; whether there is none.
fn follow(
    dice: &mut Dice,
    witness: &mut Witness,
    faces: &impl Faces,
    board: &mut LentBoard,
    calls: Vec<Call>,
) -> bool {
    witness.show(|| format!("board: {board:X?}"));
    calls.into_iter().all(|mut call| {
        stretch(dice, &mut call);
        step(dice, witness, faces, board, &call)
    })
}

/// Seldom a slot or a length whose low 8, 16 or 32 bits are those that were there.
fn stretch(dice: &mut Dice, call: &mut Call) {
    if !dice.chance(2) {
        return;
    }
    match call {
        Call::Announce { slot, .. } | Call::Produce { slot, .. } | Call::SetStatus { slot, .. } => {
            *slot |= dice.pick(&[1 << 8, 1 << 16, 1 << 32, 1 << 63, usize::MAX]);
        }
        Call::Receive { message, .. } => message.resize(message.len() + 65_536, 0x5A),
        Call::Initialise { .. } => {}
    }
}

/// Makes one call on both sides; whether they agree.
fn step(
    dice: &mut Dice,
    witness: &mut Witness,
    faces: &impl Faces,
    board: &mut LentBoard,
    call: &Call,
) -> bool {
    let output = any_output(dice, call.room());
    let before = board.clone();
    let answer = board.call(|node| call.make(node));
    witness.column.saw_call(call, &answer, board.state);
    let expected = Left::of_reference(board, &answer, &output);
    let mut same = true;
    if before.lists_are_equal() {
        witness.column.saw(Row::OnSlotRecords);
        let asked = || format!("{call:X?} on slot records");
        same &= witness.compare(asked, &faces.on_records(&before, call, &output), &expected);
    }
    witness.column.saw(Row::OnLists);
    let asked = || format!("{call:X?} on lists of {:?}", before.lengths);
    same & witness.compare(asked, &faces.on_lists(&before, call, &output), &expected)
}

/// What stands in the output before a call, with its guard: no byte as its neighbours.
fn any_output(dice: &mut Dice, room: usize) -> Vec<u8> {
    let first = dice.number() as u8;
    (0..room + GUARD)
        .map(|place| first.wrapping_add(place as u8))
        .collect()
}
