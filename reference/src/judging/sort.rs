//! The sorts of input.

/// A sort of input; its place here is part of the seed of its inputs.
#[derive(Clone, Copy, PartialEq, Eq, Debug)]
pub enum Sort {
    Range,
    Message,
    Box,
    Trial,
    Board,
    Calls,
    /// Trial files of the program `why`.
    Why,
    /// Trial files of the program `explain`.
    Explain,
    /// Frame files.
    Frame,
    /// Calls of the CAN side.
    Can,
    /// Pairs of blocks that are compared.
    Pair,
    /// Histories of a box with nested ranges.
    Nest,
}

impl Sort {
    /// All sorts, in the order in which they are run.
    pub const ALL: [Sort; 12] = [
        Sort::Range,
        Sort::Message,
        Sort::Box,
        Sort::Trial,
        Sort::Board,
        Sort::Calls,
        Sort::Why,
        Sort::Explain,
        Sort::Frame,
        Sort::Can,
        Sort::Pair,
        Sort::Nest,
    ];

    /// Those of the archive, which has no call for the texts of `why` and `explain`.
    pub const OF_ARCHIVE: [Sort; 10] = [
        Sort::Range,
        Sort::Message,
        Sort::Box,
        Sort::Trial,
        Sort::Board,
        Sort::Calls,
        Sort::Frame,
        Sort::Can,
        Sort::Pair,
        Sort::Nest,
    ];
    /// Those of the programs.
    pub const OF_PROGRAMS: [Sort; 5] = [
        Sort::Trial,
        Sort::Board,
        Sort::Why,
        Sort::Explain,
        Sort::Frame,
    ];

    /// The name on the command line.
    pub fn name(self) -> &'static str {
        match self {
            Sort::Range => "range",
            Sort::Message => "message",
            Sort::Box => "box",
            Sort::Trial => "trial",
            Sort::Board => "board",
            Sort::Calls => "calls",
            Sort::Why => "why",
            Sort::Explain => "explain",
            Sort::Frame => "frame",
            Sort::Can => "can",
            Sort::Pair => "pair",
            Sort::Nest => "nest",
        }
    }

    /// The sort of that name.
    pub fn named(name: &str) -> Option<Sort> {
        Sort::ALL.into_iter().find(|sort| sort.name() == name)
    }
}
