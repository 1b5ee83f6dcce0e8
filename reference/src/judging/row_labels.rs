//! What the rows of the table are called.

use super::legs::{CAN_WAYS, SPLIT_LENGTHS};
use super::rows::{Row, BOARDS, SIZES};
use super::ways::{BOARD_WAYS, BOX_WAYS, LENGTHS};

/// The reasons, by their number less one.
pub const REASONS: [&str; 5] = [
    "why: the arrival port",
    "why: an automatic event",
    "why: an open port",
    "why: a line holds it",
    "why: nothing holds it",
];
/// How two blocks lie to each other, by the answer's number less one.
pub const COMPARED: [&str; 4] = [
    "compare: equal",
    "compare: the first inside",
    "compare: the second inside",
    "compare: apart",
];

impl Row {
    /// What it is called; of one that no input can reach also why.
    pub fn label(self) -> String {
        let label = match self {
            Row::Answer(function, 0) => return format!("{}: accepted", function.name()),
            Row::Answer(function, refusal) => {
                return format!("{}: refused {refusal}", function.name())
            }
            Row::Wrote(mti) => return format!("board wrote {mti:04X}"),
            Row::SplitLength(place) => {
                return format!("split: a payload of {}", SPLIT_LENGTHS[place])
            }
            Row::Restarted(shape) => return format!("restart: {}", shape.label()),
            Row::RestartedInFull(shape) => {
                return format!("restart of 256 lines: {}", shape.label())
            }
            Row::Leg(leg) => leg.label(),
            Row::CanWay(way) => CAN_WAYS[way],
            Row::Reason(number) => REASONS[usize::from(number) - 1],
            Row::Block(class) => SIZES[class].0,
            Row::Board(class) => BOARDS[class].0,
            Row::BoxWay(way) => BOX_WAYS[way],
            Row::ListLength(way) => LENGTHS[way],
            Row::BoardWay(way) => BOARD_WAYS[way],
            Row::Moved(beside) => beside.label(),
            Row::Compared(number) => COMPARED[usize::from(number) - 1],
            Row::Pair(pair) => pair.label(),
            Row::Cover(cover) => cover.label(),
            Row::Indexed(indexed) => indexed.label(),
            Row::Damaged(damage) => damage.label(),
            Row::Inputs => "inputs",
            Row::Comparisons => "comparisons",
            Row::TooManyReplies => "refused 13 (never: 64 replies are 1,024 bytes)",
            Row::SentToNone => "sent to no port",
            Row::SentToSome => "sent to some of the other ports",
            Row::SentToAllOthers => "sent to all other ports",
            Row::TableFilled => "tables filled to 256 lines",
            Row::PortOpened => "ports opened",
            Row::BoardMoved => "inputs in which a board moved",
            Row::BlocksNested => "inputs with blocks inside one another",
            Row::RemovedElsewhere => "restarts that removed lines at another port",
            Row::HeldByOneEvent => "why: a line of one event",
            Row::HeldByRange => "why: a line of a range",
            Row::HeldInTheLastPlace => "why: the last line of a full table",
            Row::HeldOnceMore => "why: a later line holds it too",
            Row::Matched => "hear: slots matched",
            Row::OneReply => "hear: one reply",
            Row::SeveralReplies => "hear: several replies",
            Row::LongestReplies => "hear: replies of 1,024 bytes",
            Row::NothingToDo => "hear: no match and no reply",
            Row::NotYetInitialized => "hear: while not Initialized",
            Row::BadFile => "bad files",
            Row::NoEntries => "files without entries",
            Row::NoReport => "files without an accepted report",
            Row::TextInParts => "texts asked for in part",
            Row::WrittenBack => "read and written back",
            Row::OnSlotRecords => "calls on slot records",
            Row::OnLists => "calls on lists",
        };
        label.to_string()
    }
}
