//! The rows of the index (02, W6): what comes into it, what goes, and by which sizes a report is held.

use crate::gateway::{holds, Gateway, Line};
use crate::index::{Index, WHOLE_K};
use crate::lent_box::{self, PLACES};
use crate::refusal;

use super::counts::Column;
use super::rows::Row;

/// What can be seen of an index.
#[derive(Clone, Copy, PartialEq, Eq, PartialOrd, Ord, Debug)]
pub enum Indexed {
    AddedInFront,
    AddedBetween,
    AddedEqual,
    AddedSize,
    AddedToSize,
    AddedWhole,
    Lowered,
    LoweredEqual,
    SizeGone,
    SizeStays,
    WholeGone,
    HeldBySmallest,
    HeldByLargest,
    HeldBySeveral,
    HeldByNone,
    LitterAccepted,
    LitterKept,
}

impl Indexed {
    /// All of them, in the order of the table.
    pub const ALL: [Indexed; 17] = [
        Indexed::AddedInFront,
        Indexed::AddedBetween,
        Indexed::AddedEqual,
        Indexed::AddedSize,
        Indexed::AddedToSize,
        Indexed::AddedWhole,
        Indexed::Lowered,
        Indexed::LoweredEqual,
        Indexed::SizeGone,
        Indexed::SizeStays,
        Indexed::WholeGone,
        Indexed::HeldBySmallest,
        Indexed::HeldByLargest,
        Indexed::HeldBySeveral,
        Indexed::HeldByNone,
        Indexed::LitterAccepted,
        Indexed::LitterKept,
    ];

    /// What its row is called.
    pub fn label(self) -> &'static str {
        match self {
            Indexed::AddedInFront => "index: a line in front of all others",
            Indexed::AddedBetween => "index: a line between others",
            Indexed::AddedEqual => "index: a first event that is there",
            Indexed::AddedSize => "index: a new size at a port",
            Indexed::AddedToSize => "index: one more line of a size",
            Indexed::AddedWhole => "index: the whole space at a port",
            Indexed::Lowered => "index: lines behind one that goes",
            Indexed::LoweredEqual => "index: of them two with one first event",
            Indexed::SizeGone => "index: the last line of a size goes",
            Indexed::SizeStays => "index: a line goes and its size stays",
            Indexed::WholeGone => "index: the last line of the whole space goes",
            Indexed::HeldBySmallest => "report: only the smallest of several sizes",
            Indexed::HeldByLargest => "report: only the largest of several sizes",
            Indexed::HeldBySeveral => "report: several sizes hold it",
            Indexed::HeldByNone => "report: none of several sizes",
            Indexed::LitterAccepted => "index: numbers past the count, accepted",
            Indexed::LitterKept => "index: numbers past the count, refused",
        }
    }

    /// Whether only a state that is given can have it.
    pub fn is_of_given_tables(self) -> bool {
        matches!(self, Indexed::LitterAccepted | Indexed::LitterKept)
    }
}

/// Counts where a stored announcement's line, the last of the table, comes into the index.
pub fn saw_added(before: &Gateway, after: &Gateway, column: &mut Column) {
    let Some((line, others)) = after.lines.split_last() else {
        return;
    };
    let order = &after.index.order;
    let is_first = order.first() == Some(&others.len());
    let is_last = order.last() == Some(&others.len());
    let same_start = |other: &Line| key(other) == key(line);
    let is_new = !before.index.has(line.port, line.k);
    for (row, is_so) in [
        (Indexed::AddedInFront, is_first && !is_last),
        (Indexed::AddedBetween, !is_first && !is_last),
        (Indexed::AddedEqual, others.iter().any(same_start)),
        (Indexed::AddedSize, is_new && line.k < WHOLE_K),
        (Indexed::AddedToSize, !is_new),
        (Indexed::AddedWhole, is_new && line.k == WHOLE_K),
    ] {
        if is_so {
            column.saw(Row::Indexed(row));
        }
    }
}

/// Counts what goes out of the index where these lines go, and what is lowered.
pub fn saw_removed(
    before: &Gateway,
    after: &Index,
    gone: impl Fn(&Line) -> bool,
    column: &mut Column,
) {
    let lines = &before.lines;
    let Some(first) = lines.iter().position(&gone) else {
        return;
    };
    let lowered: Vec<&Line> = lines[first..].iter().filter(|line| !gone(line)).collect();
    let mut keys: Vec<_> = lowered.iter().map(|line| key(line)).collect();
    keys.sort();
    let removed = || lines.iter().filter(|line| gone(line));
    let goes = |line: &Line| !after.has(line.port, line.k);
    for (row, is_so) in [
        (Indexed::Lowered, !lowered.is_empty()),
        (
            Indexed::LoweredEqual,
            keys.windows(2).any(|pair| pair[0] == pair[1]),
        ),
        (
            Indexed::SizeGone,
            removed().any(|line| line.k < WHOLE_K && goes(line)),
        ),
        (Indexed::SizeStays, removed().any(|line| !goes(line))),
        (
            Indexed::WholeGone,
            removed().any(|line| line.k == WHOLE_K && goes(line)),
        ),
    ] {
        if is_so {
            column.saw(Row::Indexed(row));
        }
    }
}

/// What lines of one place in the index but for their number have in common.
fn key(line: &Line) -> (u32, u32, u64) {
    (line.port, line.k, line.start)
}

/// Counts an accepted report by the sizes that hold it, at each port where only lines decide and there are several sizes.
pub fn saw_report(gateway: &Gateway, arrival: u8, event: u64, column: &mut Column) {
    if holds(gateway.automatic, event) {
        return;
    }
    let (mut there, mut holding) = ([0u128; 8], [0u128; 8]);
    for line in &gateway.lines {
        there[line.port as usize] |= 1 << line.k;
        if holds((line.start, line.k), event) {
            holding[line.port as usize] |= 1 << line.k;
        }
    }
    for port in 0..gateway.ports {
        let (there, holding) = (there[port as usize], holding[port as usize]);
        if port == u32::from(arrival) || gateway.open.contains(&port) || there.count_ones() < 2 {
            continue;
        }
        let row = match holding.count_ones() {
            0 => Indexed::HeldByNone,
            1 if holding.trailing_zeros() == there.trailing_zeros() => Indexed::HeldBySmallest,
            1 if holding.leading_zeros() == there.leading_zeros() => Indexed::HeldByLargest,
            1 => continue,
            _ => Indexed::HeldBySeveral,
        };
        column.saw(Row::Indexed(row));
    }
}

/// Counts a call on a box with numbers past the count of its index, by its refusal.
pub fn saw_litter(gateway: &lent_box::Gateway, refusal: u8, column: &mut Column) {
    let count = gateway.head.count;
    if count < PLACES && gateway.order[count..].iter().any(|number| *number != 0) {
        column.saw(Row::Indexed(match refusal {
            refusal::NONE => Indexed::LitterAccepted,
            _ => Indexed::LitterKept,
        }));
    }
}

#[cfg(test)]
mod tests;
