//! Restarts by what goes of the table (02, W5): where the gaps are, and where the survivors.

use crate::gateway::{Gateway, Line, MOST_LINES};

use super::counts::Column;
use super::rows::Row;

/// Where the lines of a node that restarts stand among the others, each table that has lines being of one shape only.
#[derive(Clone, Copy, PartialEq, Eq, PartialOrd, Ord, Debug)]
pub enum Shape {
    NoLine,
    FirstLine,
    FirstLines,
    LastLine,
    LastLines,
    EveryLine,
    OneGap,
    SeveralGaps,
}

impl Shape {
    /// All of them, in the order of the table.
    pub const ALL: [Shape; 8] = [
        Shape::NoLine,
        Shape::FirstLine,
        Shape::FirstLines,
        Shape::LastLine,
        Shape::LastLines,
        Shape::EveryLine,
        Shape::OneGap,
        Shape::SeveralGaps,
    ];

    /// What its row is called, after the words that say in which tables.
    pub fn label(self) -> &'static str {
        match self {
            Shape::NoLine => "no line goes",
            Shape::FirstLine => "only the first line goes",
            Shape::FirstLines => "only the first lines go",
            Shape::LastLine => "only the last line goes",
            Shape::LastLines => "only the last lines go",
            Shape::EveryLine => "every line goes",
            Shape::OneGap => "one gap between survivors",
            Shape::SeveralGaps => "several gaps",
        }
    }

    /// The shape of a node's lines; nothing where the table has none at all.
    pub fn of(lines: &[Line], node: u64) -> Option<Shape> {
        let mut goes: Vec<bool> = lines.iter().map(|line| line.node == node).collect();
        let gone = goes.iter().filter(|goes| **goes).count();
        goes.dedup();
        Some(match (&goes[..], gone) {
            ([], _) => return None,
            ([false], _) => Shape::NoLine,
            ([true], _) => Shape::EveryLine,
            ([true, false], 1) => Shape::FirstLine,
            ([true, false], _) => Shape::FirstLines,
            ([false, true], 1) => Shape::LastLine,
            ([false, true], _) => Shape::LastLines,
            ([false, true, false], _) => Shape::OneGap,
            _ => Shape::SeveralGaps,
        })
    }
}

/// Counts an accepted restart by the shape of what goes, once more where the table is full.
pub fn saw_restart(before: &Gateway, node: u64, column: &mut Column) {
    let Some(shape) = Shape::of(&before.lines, node) else {
        return;
    };
    column.saw(Row::Restarted(shape));
    if before.lines.len() == MOST_LINES {
        column.saw(Row::RestartedInFull(shape));
    }
}

#[cfg(test)]
mod tests {
    use super::*;

    /// The lines of these nodes, in a table of that order.
    fn lines(nodes: &[u64]) -> Vec<Line> {
        let line = |node: &u64| Line {
            port: 1,
            node: *node,
            start: 4,
            k: 0,
        };
        nodes.iter().map(line).collect()
    }

    /// 02, W5: the shape of what goes where node 7 restarts.
    #[test]
    fn each_shape() {
        use Shape::*;
        let cases: [(&[u64], Option<Shape>); 13] = [
            (&[], None),
            (&[8], Some(NoLine)),
            (&[8, 6, 8], Some(NoLine)),
            (&[7], Some(EveryLine)),
            (&[7, 7, 7], Some(EveryLine)),
            (&[7, 8], Some(FirstLine)),
            (&[7, 7, 8, 6], Some(FirstLines)),
            (&[8, 7], Some(LastLine)),
            (&[8, 6, 7, 7], Some(LastLines)),
            (&[8, 7, 6], Some(OneGap)),
            (&[8, 7, 7, 7, 8], Some(OneGap)),
            (&[7, 8, 7], Some(SeveralGaps)),
            (&[8, 7, 8, 7, 7, 8], Some(SeveralGaps)),
        ];
        for (nodes, shape) in cases {
            assert_eq!(Shape::of(&lines(nodes), 7), shape, "{nodes:?}");
        }
    }

    /// A full table counts twice, one with a line less once, and one without lines not at all.
    #[test]
    fn full_tables() {
        let (mut gateway, _) = Gateway::start(2, 0);
        for (count, expected) in [(0, [0, 0]), (255, [1, 0]), (256, [1, 1])] {
            gateway.set_lines(lines(&vec![7; count]));
            let mut column = Column::default();
            saw_restart(&gateway, 7, &mut column);
            let rows = [Row::Restarted, Row::RestartedInFull].map(|row| row(Shape::EveryLine));
            assert_eq!(rows.map(|row| column.seen(row)), expected);
        }
    }
}
