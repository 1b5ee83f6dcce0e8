//! What was seen, a column for each sort of input, and the table of it.

use std::collections::{BTreeMap, BTreeSet};

use crate::call::Call;
use crate::node::{Answer, INITIALIZED, MOST_REPLY_BYTES};
use crate::refusal;

use super::command::Judge;
use super::functions::Function;
use super::output::say;
use super::rows::Row;
use super::sort::Sort;

/// What was seen of one sort: each row that was reached, and how many times.
#[derive(Clone, Default)]
pub struct Column {
    times: BTreeMap<Row, u64>,
    /// The rows that count once an input and were reached by the one at hand.
    once: BTreeSet<Row>,
}

/// The columns of all sorts.
pub type Columns = [Column; Sort::ALL.len()];

impl Column {
    /// An input begins.
    pub fn saw_input(&mut self) {
        self.once.clear();
        self.saw(Row::Inputs);
    }

    /// The row was reached.
    pub fn saw(&mut self, row: Row) {
        *self.times.entry(row).or_default() += 1;
    }

    /// The row was reached, which counts once an input.
    pub fn saw_once(&mut self, row: Row) {
        if self.once.insert(row) {
            self.saw(row);
        }
    }

    /// A function's answer, by the reference: its refusal, or 0.
    pub fn saw_answer(&mut self, function: Function, refusal: u8) {
        self.saw(Row::of_answer(function, refusal));
    }

    /// What the reference answered to a call of a board, and the board's state after it.
    pub fn saw_call(&mut self, call: &Call, answer: &Answer, state: u8) {
        self.saw_answer(function_of(call), answer.refusal);
        for message in answer.messages() {
            self.saw(Row::Wrote(u16::from_be_bytes([message[0], message[1]])));
        }
        if answer.refusal == refusal::NONE && matches!(call, Call::Receive { .. }) {
            self.saw_heard(answer, state);
        }
    }

    /// What came of a message that a board accepted.
    fn saw_heard(&mut self, answer: &Answer, state: u8) {
        self.saw(match answer.messages().count() {
            _ if state != INITIALIZED => Row::NotYetInitialized,
            0 if answer.matches != 0 => Row::Matched,
            0 => Row::NothingToDo,
            1 => Row::OneReply,
            _ => Row::SeveralReplies,
        });
        if answer.written.len() == MOST_REPLY_BYTES {
            self.saw(Row::LongestReplies);
        }
    }

    /// How many times the row was reached.
    pub fn seen(&self, row: Row) -> u64 {
        self.times.get(&row).copied().unwrap_or(0)
    }

    /// The rows that were reached.
    pub fn reached(&self) -> impl Iterator<Item = Row> + '_ {
        self.times.keys().copied()
    }
}

/// The function that a call of a board is of.
fn function_of(call: &Call) -> Function {
    match call {
        Call::Initialise { .. } => Function::Initialise,
        Call::Announce { .. } => Function::Announce,
        Call::Produce { .. } => Function::Produce,
        Call::SetStatus { .. } => Function::SetStatus,
        Call::Receive { .. } => Function::Hear,
    }
}

/// Prints a judge's table: the rows that its inputs can reach, and those that none can.
pub fn print_table(judge: &Judge, columns: &Columns) {
    let sorts = judge.sorts;
    print_cells("", sorts, |sort| sort.name().to_string());
    for row in Row::all() {
        let can_be = |sort: Sort| judge.can_reach(row, sort);
        if row.sorts().is_empty() || sorts.iter().any(|sort| can_be(*sort)) {
            let seen = |sort: Sort| columns[sort as usize].seen(row);
            print_cells(&row.label(), sorts, |sort| cell(seen(sort), can_be(sort)));
        }
    }
}

/// A number; a dash where there is nothing and nothing can be.
fn cell(seen: u64, can_be: bool) -> String {
    match seen {
        0 if !can_be => "-".to_string(),
        _ => seen.to_string(),
    }
}

/// Prints a label and a cell for each sort, right-aligned.
fn print_cells(label: &str, sorts: &[Sort], cell: impl Fn(Sort) -> String) {
    let cells = sorts.iter().map(|sort| format!("{:>10}", cell(*sort)));
    say(format!("{label:48}{}", cells.collect::<String>()));
}

#[cfg(test)]
mod tests {
    use super::*;

    /// What counts once an input counts again for the next one, and what counts each time does so.
    #[test]
    fn once_an_input() {
        let mut column = Column::default();
        for _ in 0..3 {
            column.saw_input();
            for _ in 0..2 {
                column.saw_once(Row::BoardMoved);
                column.saw(Row::PortOpened);
            }
        }
        let rows = [Row::Inputs, Row::BoardMoved, Row::PortOpened];
        assert_eq!(rows.map(|row| column.seen(row)), [3, 3, 6]);
    }
}
