//! Which sorts of input reach the rows of the table.

use super::functions::Function;
use super::legs::{Leg, FIRST_OF_CALLS};
use super::rows::{Row, WRITTEN};
use super::sort::Sort;

/// The sorts of input that put messages to a box.
const BOXES: [Sort; 5] = [Sort::Box, Sort::Trial, Sort::Why, Sort::Explain, Sort::Nest];

impl Row {
    /// The sorts of input that can reach it: each of them has to, and no other may.
    pub fn sorts(self) -> &'static [Sort] {
        match self {
            Row::Inputs | Row::Comparisons => &Sort::ALL,
            // A box that was started, as a trial's is, never is out of bounds.
            Row::Answer(Function::Receive | Function::Why, crate::refusal::BOUNDS) => {
                &[Sort::Box, Sort::Nest]
            }
            Row::Answer(function, refusal) if function.answers().contains(&refusal) => {
                function.sorts()
            }
            Row::Answer(..) | Row::TooManyReplies => &[],
            Row::Compared(_) | Row::Pair(_) => &[Sort::Pair],
            Row::Cover(cover) if cover.is_of_given_tables() => &[Sort::Box, Sort::Nest],
            Row::Indexed(indexed) if indexed.is_of_given_tables() => &[Sort::Box, Sort::Nest],
            Row::SentToNone
            | Row::SentToSome
            | Row::SentToAllOthers
            | Row::TableFilled
            | Row::PortOpened
            | Row::BoardMoved
            | Row::RemovedElsewhere
            | Row::BlocksNested
            | Row::Moved(_)
            | Row::Restarted(_)
            | Row::RestartedInFull(_)
            | Row::Cover(_)
            | Row::Indexed(_) => &BOXES,
            Row::Reason(_)
            | Row::HeldByOneEvent
            | Row::HeldByRange
            | Row::HeldInTheLastPlace
            | Row::HeldOnceMore => &[Sort::Box, Sort::Why, Sort::Explain, Sort::Nest],
            // No range number is of a single event.
            Row::Block(0) => &BOXES,
            Row::Block(_) => &[
                Sort::Range,
                Sort::Box,
                Sort::Trial,
                Sort::Why,
                Sort::Explain,
                Sort::Nest,
            ],
            Row::Board(_)
            | Row::Matched
            | Row::OneReply
            | Row::SeveralReplies
            | Row::LongestReplies
            | Row::NothingToDo
            | Row::NotYetInitialized => &[Sort::Board, Sort::Calls],
            Row::Wrote(mti) if WRITTEN.contains(&mti) => &[Sort::Board, Sort::Calls],
            Row::Wrote(_) => &[],
            Row::BadFile => &[
                Sort::Trial,
                Sort::Board,
                Sort::Why,
                Sort::Explain,
                Sort::Frame,
            ],
            Row::NoEntries => &[Sort::Why, Sort::Explain],
            Row::NoReport => &[Sort::Explain],
            Row::TextInParts => &[Sort::Trial, Sort::Board, Sort::Frame],
            Row::WrittenBack => &[Sort::Message],
            Row::BoxWay(_) => &[Sort::Box],
            Row::ListLength(_) | Row::Damaged(_) => &[Sort::Box, Sort::Nest],
            Row::OnSlotRecords | Row::OnLists | Row::BoardWay(_) => &[Sort::Calls],
            Row::Leg(Leg::SplitThenJoined) => &[Sort::Can],
            Row::CanWay(way) if way >= FIRST_OF_CALLS => &[Sort::Can],
            Row::Leg(_) | Row::SplitLength(_) | Row::CanWay(_) => &[Sort::Frame, Sort::Can],
        }
    }
}

#[cfg(test)]
mod tests {
    use super::*;

    /// Every sort has a row that it alone or with others reaches, and refusal 13 is the only row that none reaches.
    #[test]
    fn who_reaches_them() {
        let rows = Row::all();
        let none: Vec<&Row> = rows.iter().filter(|row| row.sorts().is_empty()).collect();
        assert_eq!(none, [&Row::TooManyReplies]);
        for sort in Sort::ALL {
            let answers =
                |row: &&Row| matches!(row, Row::Answer(..)) && row.sorts().contains(&sort);
            assert!(rows.iter().any(|row| answers(&row)), "{}", sort.name());
        }
        assert_eq!(Row::of_answer(Function::Hear, 13).sorts(), []);
        assert_eq!(Row::of_answer(Function::SetStatus, 6).sorts(), []);
    }
}
