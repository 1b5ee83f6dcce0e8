//! The rows of the table: what inputs are to reach, and how often.

use super::covers::Cover;
use super::damages::Damage;
use super::functions::Function;
use super::indexed::Indexed;
use super::legs::{Leg, CAN_WAY_COUNT, SPLIT_LENGTHS};
use super::moves::Move;
use super::pairs::Pair;
use super::row_labels::{COMPARED, REASONS};
use super::shapes::Shape;
use super::ways::{BOARD_WAY_COUNT, BOX_WAY_COUNT, LENGTH_COUNT};

/// The size classes of blocks: what they are called, the least and the most k.
pub const SIZES: [(&str, u32, u32); 7] = [
    ("blocks of one event", 0, 0),
    ("blocks of 2 to 2^8", 1, 8),
    ("blocks of 2^9 to 2^16", 9, 16),
    ("blocks of 2^17 to 2^32", 17, 32),
    ("blocks of 2^33 to 2^48", 33, 48),
    ("blocks of 2^49 to 2^63", 49, 63),
    ("blocks of every event", 64, 64),
];
/// The size classes of boards: what they are called, the least and the most slots.
pub const BOARDS: [(&str, usize, usize); 5] = [
    ("boards without slots", 0, 0),
    ("boards of 1 to 63 slots", 1, 63),
    ("boards of 64 slots", 64, 64),
    ("boards of 65 slots", 65, 65),
    ("boards of more slots", 66, usize::MAX),
];
/// The messages that a board writes.
pub const WRITTEN: [u16; 8] = [
    0x0100, 0x05B4, 0x0544, 0x0545, 0x0547, 0x04C4, 0x04C5, 0x04C7,
];

/// How many times the default inputs have to reach a row of a CAN leg, of what is covered, of what goes at a restart, of an index or of a list's length.
const LEAST_OF_MANY: u64 = 10;

/// A row: something that can be seen of an input.
#[derive(Clone, Copy, PartialEq, Eq, PartialOrd, Ord, Debug)]
pub enum Row {
    Inputs,
    Comparisons,
    /// A function's answer: its refusal, or 0.
    Answer(Function, u8),
    /// Refusal 13, whichever function it would be of.
    TooManyReplies,
    SentToNone,
    SentToSome,
    SentToAllOthers,
    TableFilled,
    PortOpened,
    /// Counted once an input: a restart removed lines at another port than its own.
    BoardMoved,
    /// The same, counted for each such restart.
    RemovedElsewhere,
    /// Counted once an input: an announcement lay inside a line of its port and node, or held one.
    BlocksNested,
    /// Such a restart, and what it was beside.
    Moved(Move),
    /// A restart, by the shape of what goes.
    Restarted(Shape),
    /// The same with 256 lines.
    RestartedInFull(Shape),
    /// Why a report is sent or not, the reason by its number.
    Reason(u8),
    HeldByOneEvent,
    HeldByRange,
    HeldInTheLastPlace,
    HeldOnceMore,
    Block(usize),
    Board(usize),
    Matched,
    OneReply,
    SeveralReplies,
    LongestReplies,
    NothingToDo,
    NotYetInitialized,
    Wrote(u16),
    BadFile,
    NoEntries,
    NoReport,
    TextInParts,
    WrittenBack,
    BoxWay(usize),
    ListLength(usize),
    OnSlotRecords,
    OnLists,
    BoardWay(usize),
    /// What was seen of a CAN leg.
    Leg(Leg),
    /// A report with so many bytes of payload was split, by the place among the lengths.
    SplitLength(usize),
    CanWay(usize),
    /// How two blocks lie to each other, by the answer's number.
    Compared(u8),
    /// What a pair of blocks was beside the answer.
    Pair(Pair),
    /// What an announcement was beside, or what a given table has.
    Cover(Cover),
    /// What was seen of an index.
    Indexed(Indexed),
    /// An index that disagreed with its table, and how.
    Damaged(Damage),
}

impl Row {
    /// All rows, in the order of the table.
    pub fn all() -> Vec<Row> {
        let mut rows = vec![Row::Inputs, Row::Comparisons];
        for function in Function::ALL {
            let answers = function.answers().iter();
            rows.extend(answers.map(|refusal| Row::Answer(function, *refusal)));
        }
        rows.extend([Row::TooManyReplies, Row::SentToNone, Row::SentToSome]);
        rows.extend([Row::SentToAllOthers, Row::TableFilled, Row::PortOpened]);
        rows.extend([Row::BoardMoved, Row::RemovedElsewhere]);
        rows.extend(Move::ALL.map(Row::Moved));
        rows.extend(Shape::ALL.map(Row::Restarted));
        rows.extend(Shape::ALL.map(Row::RestartedInFull));
        rows.extend([Row::BlocksNested]);
        rows.extend(Cover::ALL.map(Row::Cover));
        rows.extend(Indexed::ALL.map(Row::Indexed));
        rows.extend(Damage::ALL.map(Row::Damaged));
        rows.extend((1..=REASONS.len() as u8).map(Row::Reason));
        rows.extend([Row::HeldByOneEvent, Row::HeldByRange]);
        rows.extend([Row::HeldInTheLastPlace, Row::HeldOnceMore]);
        rows.extend((0..SIZES.len()).map(Row::Block));
        rows.extend((1..=COMPARED.len() as u8).map(Row::Compared));
        rows.extend(Pair::ALL.map(Row::Pair));
        rows.extend((0..BOARDS.len()).map(Row::Board));
        rows.extend([Row::Matched, Row::OneReply, Row::SeveralReplies]);
        rows.extend([Row::LongestReplies, Row::NothingToDo]);
        rows.extend([Row::NotYetInitialized]);
        rows.extend(WRITTEN.map(Row::Wrote));
        rows.extend([Row::BadFile, Row::NoEntries, Row::NoReport]);
        rows.extend([Row::TextInParts, Row::WrittenBack]);
        rows.extend((0..BOX_WAY_COUNT).map(Row::BoxWay));
        rows.extend((0..LENGTH_COUNT).map(Row::ListLength));
        rows.extend([Row::OnSlotRecords, Row::OnLists]);
        rows.extend((0..BOARD_WAY_COUNT).map(Row::BoardWay));
        rows.extend(Leg::ALL.map(Row::Leg));
        rows.extend((0..SPLIT_LENGTHS.len()).map(Row::SplitLength));
        rows.extend((0..CAN_WAY_COUNT).map(Row::CanWay));
        rows
    }

    /// The row of a function's answer.
    pub fn of_answer(function: Function, refusal: u8) -> Row {
        match refusal {
            crate::refusal::REPLIES => Row::TooManyReplies,
            _ => Row::Answer(function, refusal),
        }
    }

    /// The row of a block of 2^k events, k at most 64.
    pub fn of_block(k: u32) -> Row {
        let holds = |(_, least, most): &(&str, u32, u32)| (*least..=*most).contains(&k);
        let class = SIZES.iter().position(holds);
        Row::Block(class.expect("every k to 64 is in a class"))
    }

    /// The row of a board of so many slots.
    pub fn of_board(slots: usize) -> Row {
        let holds = |(_, least, most): &(&str, usize, usize)| (*least..=*most).contains(&slots);
        let class = BOARDS.iter().position(holds);
        Row::Board(class.expect("every count is in a class"))
    }

    /// The row of a payload of so many bytes that is split, if it has one.
    pub fn of_split(payload: usize) -> Option<Row> {
        let place = SPLIT_LENGTHS.iter().position(|length| *length == payload)?;
        Some(Row::SplitLength(place))
    }

    /// How many times the default inputs of a sort have to reach it.
    pub fn least(self) -> u64 {
        match self {
            Row::Answer(Function::Join | Function::Split, _)
            | Row::Leg(_)
            | Row::SplitLength(_)
            | Row::CanWay(_)
            | Row::Answer(Function::Compare, _)
            | Row::Compared(_)
            | Row::Pair(_)
            | Row::Cover(_)
            | Row::Indexed(_)
            | Row::Damaged(_)
            | Row::ListLength(_)
            | Row::Restarted(_)
            | Row::RestartedInFull(_) => LEAST_OF_MANY,
            _ => 1,
        }
    }
}

#[cfg(test)]
mod tests {
    use super::*;

    /// No row stands twice, and no two rows are called the same.
    #[test]
    fn rows_are_different() {
        let rows = Row::all();
        for (place, row) in rows.iter().enumerate() {
            for later in &rows[place + 1..] {
                assert!(row != later && row.label() != later.label(), "{later:?}");
            }
        }
    }

    /// Both sides of each limit between two classes.
    #[test]
    fn classes() {
        let blocks = [0, 1, 8, 9, 63, 64].map(Row::of_block);
        assert_eq!(blocks, [0, 1, 1, 2, 5, 6].map(Row::Block));
        let boards = [0, 1, 63, 64, 65, 66, 70_000].map(Row::of_board);
        assert_eq!(boards, [0, 1, 1, 2, 3, 4, 4].map(Row::Board));
    }
}
