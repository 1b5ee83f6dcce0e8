//! What is seen of an index, by hand.

use super::*;
use crate::trial::{HOUSE_NUMBER, PORTS};
use Indexed::*;

/// A line of node 7, by port, start and k.
fn line((port, start, k): (u32, u64, u32)) -> Line {
    Line {
        port,
        node: 7,
        start,
        k,
    }
}

/// A box with these lines.
fn with(lines: &[(u32, u64, u32)]) -> Gateway {
    let (mut gateway, _) = Gateway::start(PORTS, HOUSE_NUMBER);
    gateway.set_lines(lines.iter().copied().map(line).collect());
    gateway
}

/// The rows that were reached.
fn rows(see: impl FnOnce(&mut Column)) -> Vec<Indexed> {
    let mut column = Column::default();
    see(&mut column);
    let indexed = column.reached().filter_map(|row| match row {
        Row::Indexed(indexed) => Some(indexed),
        _ => None,
    });
    indexed.collect()
}

/// What is seen where a line is added to others.
fn added(others: &[(u32, u64, u32)], new: (u32, u64, u32)) -> Vec<Indexed> {
    let after = with(&[others, &[new]].concat());
    rows(|column| saw_added(&with(others), &after, column))
}

#[test]
fn what_is_added() {
    assert_eq!(added(&[], (1, 4, 0)), [AddedSize]);
    assert_eq!(added(&[(1, 5, 0)], (1, 4, 0)), [AddedInFront, AddedToSize]);
    assert_eq!(added(&[(1, 3, 0)], (1, 4, 0)), [AddedToSize]);
    assert_eq!(added(&[(1, 4, 0)], (1, 4, 0)), [AddedEqual, AddedToSize]);
    let around = [(1, 3, 0), (2, 0, 0)];
    assert_eq!(added(&around, (1, 4, 0)), [AddedBetween, AddedToSize]);
    assert_eq!(added(&around, (1, 4, 1)), [AddedBetween, AddedSize]);
    assert_eq!(added(&around, (3, 0, 64)), [AddedWhole]);
    assert_eq!(added(&[(3, 0, 64)], (3, 0, 64)), [AddedEqual, AddedToSize]);
}

/// What is seen where the lines of these places go.
fn removed(lines: &[(u32, u64, u32)], gone: &[usize]) -> Vec<Indexed> {
    let mut before = with(lines);
    for place in gone {
        before.lines[*place].node = 8;
    }
    let mut after = before.clone();
    let goes = |line: &Line| line.node == 8;
    after.set_lines(
        before
            .lines
            .iter()
            .copied()
            .filter(|line| !goes(line))
            .collect(),
    );
    rows(|column| saw_removed(&before, &after.index, goes, column))
}

#[test]
fn what_goes() {
    let lines = [(1, 4, 0), (1, 4, 0), (1, 4, 0), (2, 8, 1), (2, 0, 64)];
    assert_eq!(removed(&lines, &[]), []);
    assert_eq!(removed(&lines, &[0]), [Lowered, LoweredEqual, SizeStays]);
    assert_eq!(removed(&lines, &[1]), [Lowered, SizeStays]);
    assert_eq!(removed(&lines, &[3]), [Lowered, SizeGone]);
    assert_eq!(removed(&lines, &[4]), [WholeGone]);
    assert_eq!(removed(&lines, &[0, 1, 2, 3, 4]), [SizeGone, WholeGone]);
}

#[test]
fn what_holds_a_report() {
    let gateway = with(&[(1, 4, 0), (1, 0, 4), (1, 0, 8), (2, 7, 0)]);
    let at = |arrival, event| rows(|column| saw_report(&gateway, arrival, event, column));
    assert_eq!(at(0, 4), [HeldBySeveral]);
    assert_eq!(at(0, 5), [HeldBySeveral]);
    assert_eq!(at(0, 16), [HeldByLargest]);
    assert_eq!(at(0, 256), [HeldByNone]);
    assert_eq!(at(1, 4), []);
    let apart = with(&[(1, 4, 0), (1, 8, 1), (1, 16, 4)]);
    let at = |event| rows(|column| saw_report(&apart, 0, event, column));
    assert_eq!(at(4), [HeldBySmallest]);
    assert_eq!(at(8), []);
    assert_eq!(at(17), [HeldByLargest]);
    let mut open = apart.clone();
    open.open.insert(1);
    assert_eq!(rows(|column| saw_report(&open, 0, 4, column)), []);
}
