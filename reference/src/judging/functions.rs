//! The functions that are judged, what each can answer, and which inputs call it.

use super::sort::Sort;

/// A function, or what a file puts a box or a board through in its place.
#[derive(Clone, Copy, PartialEq, Eq, PartialOrd, Ord, Debug)]
pub enum Function {
    BlockOf,
    NumberOf,
    Compare,
    Read,
    Write,
    Start,
    Receive,
    Why,
    Initialise,
    Announce,
    Produce,
    SetStatus,
    Hear,
    Join,
    Split,
}

impl Function {
    /// All of them, in the order of the table.
    pub const ALL: [Function; 15] = [
        Function::BlockOf,
        Function::NumberOf,
        Function::Compare,
        Function::Read,
        Function::Write,
        Function::Start,
        Function::Receive,
        Function::Why,
        Function::Initialise,
        Function::Announce,
        Function::Produce,
        Function::SetStatus,
        Function::Hear,
        Function::Join,
        Function::Split,
    ];

    /// The name in the table.
    pub fn name(self) -> &'static str {
        match self {
            Function::BlockOf => "block of",
            Function::NumberOf => "number of",
            Function::Compare => "compare",
            Function::Read => "read",
            Function::Write => "write",
            Function::Start => "start",
            Function::Receive => "receive",
            Function::Why => "why",
            Function::Initialise => "initialise",
            Function::Announce => "announce",
            Function::Produce => "produce",
            Function::SetStatus => "set status",
            Function::Hear => "hear",
            Function::Join => "join",
            Function::Split => "split",
        }
    }

    /// The refusals that can arise, and 0 for none (01-scope, Refusal numbers, order; 02, W1, W3 and W4). Refusal 13 cannot.
    pub fn answers(self) -> &'static [u8] {
        match self {
            Function::BlockOf => &[0],
            Function::NumberOf | Function::Compare => &[0, 14],
            Function::Read => &[0, 1, 2, 3, 4, 5],
            Function::Write => &[0, 2, 3, 4, 5, 6],
            Function::Start => &[0, 8],
            Function::Receive => &[0, 1, 2, 3, 4, 5, 7, 8],
            Function::Why => &[0, 1, 2, 3, 4, 5, 7, 8, 15],
            Function::Initialise => &[0, 3, 6, 7],
            Function::Announce => &[0, 3, 6, 7, 9, 10],
            Function::Produce => &[0, 3, 6, 7, 9, 10, 11, 12],
            Function::SetStatus => &[0, 3, 7, 10],
            Function::Hear => &[0, 1, 2, 3, 4, 5, 6, 7],
            Function::Join => &[0, 7, 16, 17, 18, 19, 20, 29],
            Function::Split => &[0, 2, 3, 4, 5, 6, 7, 16, 29],
        }
    }

    /// The sorts of input that call it.
    pub fn sorts(self) -> &'static [Sort] {
        match self {
            Function::BlockOf | Function::NumberOf => &[Sort::Range],
            Function::Compare => &[Sort::Pair],
            Function::Read | Function::Write => &[Sort::Message],
            Function::Start => &[Sort::Box],
            Function::Receive => &[Sort::Box, Sort::Trial, Sort::Why, Sort::Explain, Sort::Nest],
            Function::Why => &[Sort::Box, Sort::Why, Sort::Nest],
            Function::Initialise
            | Function::Announce
            | Function::Produce
            | Function::SetStatus
            | Function::Hear => &[Sort::Board, Sort::Calls],
            Function::Join | Function::Split => &[Sort::Frame, Sort::Can],
        }
    }
}
