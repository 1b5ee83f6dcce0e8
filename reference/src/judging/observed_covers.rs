//! Announcements beside the lines of their port and node, with a count of what they are (02, W4).

use crate::gateway::{Gateway, Line, MOST_LINES};
use crate::range::{self, Comparison};

use super::counts::Column;
use super::covers::Cover;
use super::rows::Row;

/// Counts what an accepted announcement was beside.
pub fn saw_announced(before: &Gateway, line: &Line, column: &mut Column) {
    let beside = Beside { before, line };
    for (cover, is_so) in beside.rows() {
        if is_so {
            column.saw(Row::Cover(cover));
        }
    }
    if beside.is_nested() {
        column.saw_once(Row::BlocksNested);
    }
}

/// Counts a table that is given, where it has lines inside or equal to others of their port and node.
pub fn saw_given(lines: &[Line], column: &mut Column) {
    for (cover, lies) in [
        (Cover::GivenNested, Comparison::FirstInside),
        (Cover::GivenEqual, Comparison::Equal),
    ] {
        let mut places = lines.iter().enumerate();
        let is_so = |(place, line): (usize, &Line)| {
            let mut others = lines.iter().enumerate();
            others.any(|(other, by)| other != place && line.against(by) == Some(lies))
        };
        if places.any(is_so) {
            column.saw(Row::Cover(cover));
        }
    }
}

/// An announcement, and the state before it.
struct Beside<'a> {
    before: &'a Gateway,
    line: &'a Line,
}

impl Beside<'_> {
    /// Whether a line of its port and node lies inside it, or it inside the line.
    fn is_nested(&self) -> bool {
        let inside = [Comparison::FirstInside, Comparison::SecondInside].map(Some);
        self.has(|line| inside.contains(&self.line.against(line)))
    }

    /// The rows that an announcement can be of, and whether it is.
    fn rows(&self) -> Vec<(Cover, bool)> {
        let full = self.before.lines.len() == MOST_LINES;
        let held = self.count(|line| self.line.is_over(line));
        if self.has(|line| self.line.is_covered_by(line)) {
            self.rows_of_covered(full, held)
        } else if held > 0 {
            self.rows_of_replacing(full, held)
        } else {
            self.rows_of_new(full)
        }
    }

    /// Those of one that isn't stored.
    fn rows_of_covered(&self, full: bool, held: usize) -> Vec<(Cover, bool)> {
        let k = self.line.k;
        let equal = self.has(|line| line == self.line);
        let by_every_event = |line: &Line| self.line.is_covered_by(line) && line.k == 64;
        vec![
            (Cover::Equal, equal),
            (Cover::EventInside, !equal && k == 0),
            (Cover::BlockInside, !equal && k > 0),
            (Cover::InsideEveryEvent, !equal && self.has(by_every_event)),
            (Cover::CoveredInFull, full),
            (Cover::CoveredAndOver, held > 0),
        ]
    }

    /// Those of one that replaces so many lines.
    fn rows_of_replacing(&self, full: bool, held: usize) -> Vec<(Cover, bool)> {
        let Line { start, k, .. } = *self.line;
        let halves = [start, start | 1 << (k - 1)].map(|start| self.has_own(start, k - 1));
        let over = |of_another_node| self.has_elsewhere(of_another_node, Comparison::SecondInside);
        vec![
            (Cover::ReplacedOne, held == 1),
            (Cover::ReplacedSeveral, held > 1),
            (Cover::ReplacedBeforeOthers, !self.are_last(held)),
            (Cover::ReplacedByEveryEvent, k == 64),
            (Cover::ReplacedInFull, full),
            (Cover::ReplacedOneInFull, full && held == 1),
            (Cover::OverOtherNode, over(true)),
            (Cover::OverOtherPort, over(false)),
            (Cover::BetweenHalves, halves == [true, true]),
        ]
    }

    /// Those of one that is new.
    fn rows_of_new(&self, full: bool) -> Vec<(Cover, bool)> {
        let Line { start, k, .. } = *self.line;
        let under = |of_another_node| self.has_elsewhere(of_another_node, Comparison::FirstInside);
        vec![
            (Cover::UnderOtherNode, under(true)),
            (Cover::UnderOtherPort, under(false)),
            (
                Cover::BesideOtherHalf,
                k < 64 && self.has_own(start ^ 1 << k, k),
            ),
            (Cover::MetFull, full),
        ]
    }

    /// How many of the lines are so.
    fn count(&self, is_so: impl Fn(&Line) -> bool) -> usize {
        self.before.lines.iter().filter(|line| is_so(line)).count()
    }

    /// Whether one of the lines is so.
    fn has(&self, is_so: impl Fn(&Line) -> bool) -> bool {
        self.before.lines.iter().any(is_so)
    }

    /// Whether the lines that it holds, so many, are the last of the table.
    fn are_last(&self, held: usize) -> bool {
        let lines = &self.before.lines;
        let last = &lines[lines.len() - held..];
        last.iter().all(|line| self.line.is_over(line))
    }

    /// Whether a line of the same port and node has this block.
    fn has_own(&self, start: u64, k: u32) -> bool {
        let own = Line {
            start,
            k,
            ..*self.line
        };
        self.before.lines.contains(&own)
    }

    /// Whether a line of another node at its port, or of its node at another port, lies so to it.
    fn has_elsewhere(&self, of_another_node: bool, lies: Comparison) -> bool {
        self.has(|line| {
            let same = (line.port == self.line.port, line.node == self.line.node);
            let block = |line: &Line| (line.start, line.k);
            same == (of_another_node, !of_another_node)
                && range::compare(block(self.line), block(line)) == Ok(lies)
        })
    }
}

#[cfg(test)]
mod tests {
    use super::*;
    use crate::trial::{HOUSE_NUMBER, PORTS};

    /// The rows that an announcement of this block by node 7 at port 1 reaches, from lines, each a port, a node, a start and k.
    fn rows(block: (u64, u32), lines: &[(u32, u64, u64, u32)]) -> Vec<Cover> {
        let (mut gateway, _) = Gateway::start(PORTS, HOUSE_NUMBER);
        let line = |(port, node, start, k): &(u32, u64, u64, u32)| Line {
            port: *port,
            node: *node,
            start: *start,
            k: *k,
        };
        gateway.set_lines(lines.iter().map(line).collect());
        let mut column = Column::default();
        saw_given(&gateway.lines, &mut column);
        saw_announced(&gateway, &line(&(1, 7, block.0, block.1)), &mut column);
        let covers = column.reached().filter_map(|row| match row {
            Row::Cover(cover) => Some(cover),
            _ => None,
        });
        covers.collect()
    }

    /// 02, W4: what is covered, what replaces and what is new, and what is seen beside it.
    #[test]
    fn what_is_seen() {
        use Cover::*;
        assert_eq!(rows((4, 0), &[]), []);
        assert_eq!(rows((4, 0), &[(1, 7, 4, 0)]), [Equal]);
        assert_eq!(rows((4, 0), &[(1, 7, 4, 1)]), [EventInside]);
        assert_eq!(rows((4, 1), &[(1, 7, 4, 2)]), [BlockInside]);
        let every = [BlockInside, InsideEveryEvent];
        assert_eq!(rows((4, 1), &[(1, 7, 0, 64)]), every);
        assert_eq!(rows((4, 1), &[(1, 7, 4, 0)]), [ReplacedOne]);
        let several = [ReplacedSeveral, BetweenHalves];
        assert_eq!(rows((4, 1), &[(1, 7, 4, 0), (1, 7, 5, 0)]), several);
        let before = [ReplacedOne, ReplacedBeforeOthers];
        assert_eq!(rows((4, 1), &[(1, 7, 4, 0), (1, 7, 6, 0)]), before);
        let all = [ReplacedOne, ReplacedByEveryEvent];
        assert_eq!(rows((0, 64), &[(1, 7, 4, 0)]), all);
        let node = [ReplacedOne, OverOtherNode];
        assert_eq!(rows((4, 1), &[(1, 8, 4, 0), (1, 7, 4, 0)]), node);
        let port = [ReplacedOne, OverOtherPort];
        assert_eq!(rows((4, 1), &[(2, 7, 4, 0), (1, 7, 4, 0)]), port);
        assert_eq!(rows((4, 0), &[(1, 8, 4, 1)]), [UnderOtherNode]);
        assert_eq!(rows((4, 0), &[(2, 7, 4, 1)]), [UnderOtherPort]);
        assert_eq!(rows((4, 0), &[(2, 8, 4, 1), (1, 8, 4, 0)]), []);
        assert_eq!(rows((4, 0), &[(1, 7, 5, 0)]), [BesideOtherHalf]);
        assert_eq!(rows((0, 63), &[(1, 7, 1 << 63, 63)]), [BesideOtherHalf]);
    }

    /// Full tables, and one line less; given tables with nested and with equal lines.
    #[test]
    fn full_and_given() {
        use Cover::*;
        let lines: Vec<_> = (0..256).map(|place| (1, 7, 4 * place, 1)).collect();
        let most = &lines[..255];
        assert_eq!(rows((0, 0), &lines), [EventInside, CoveredInFull]);
        assert_eq!(rows((0, 0), most), [EventInside]);
        assert_eq!(rows((2, 1), &lines), [BesideOtherHalf, MetFull]);
        assert_eq!(rows((2, 1), most), [BesideOtherHalf]);
        let one = [ReplacedOne, ReplacedBeforeOthers];
        assert_eq!(rows((0, 2), most), one);
        let in_full = [one[0], one[1], ReplacedInFull, ReplacedOneInFull];
        assert_eq!(rows((0, 2), &lines), in_full);
        let all = [ReplacedSeveral, ReplacedInFull];
        assert_eq!(rows((0, 10), &lines), all);
        let nested = [(1, 7, 0, 2), (1, 7, 0, 0), (1, 7, 0, 0)];
        let seen = [BlockInside, CoveredAndOver, GivenNested, GivenEqual];
        assert_eq!(rows((0, 1), &nested), seen);
        assert_eq!(rows((9, 0), &nested[..2]), [GivenNested]);
        assert_eq!(rows((9, 0), &nested[1..]), [GivenEqual]);
        assert_eq!(
            rows((9, 0), &[(1, 7, 0, 2), (2, 7, 0, 0), (1, 8, 0, 2)]),
            []
        );
    }
}
