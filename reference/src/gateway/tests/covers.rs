//! Announcements that are covered, and such as hold lines (02, W4).

use super::*;

/// Whether no line lies inside another of its port and node, or is equal to one (02, W4, "From a start").
pub fn is_tidy(gateway: &Gateway) -> bool {
    let covered = |(place, line): (usize, &Line)| {
        let mut others = gateway.lines.iter().enumerate();
        others.any(|(other, by)| other != place && line.is_covered_by(by))
    };
    !gateway.lines.iter().enumerate().any(covered)
}

/// An announcement at a port: a single event where k is 0, else a range.
pub fn announced(gateway: &mut Gateway, port: u32, node: u64, (start, k): (u64, u32)) {
    let bytes = match range::number_of(start, k) {
        Some(number) => message(0x04A4, node, number),
        None => message(0x04C4, node, start),
    };
    sent(gateway, port, &bytes);
}

/// The blocks of the table in their order.
fn blocks(gateway: &Gateway) -> Vec<(u64, u32)> {
    let block = |line: &Line| (line.start, line.k);
    gateway.lines.iter().map(block).collect()
}

pub fn line(port: u32, node: u64, (start, k): (u64, u32)) -> Line {
    Line {
        port,
        node,
        start,
        k,
    }
}

/// A box of four ports with these lines, which need not come from a start.
pub fn given(lines: Vec<Line>) -> Gateway {
    let mut four = gateway(4);
    four.set_lines(lines);
    four
}

/// The events that a report reaches port 1 with, of the first 20.
fn reached(gateway: &mut Gateway) -> Vec<u64> {
    let reaches = |event: &u64| sent(gateway, 0, &message(0x05B4, 1, *event)) == [1];
    (0..20).filter(reaches).collect()
}

/// 02, W4, the clock board: one block, then each event inside it: one line, and every event is held.
#[test]
fn a_clock_board() {
    let mut four = gateway(4);
    announced(&mut four, 1, 7, (0, 4));
    for event in 0..16 {
        for mti in [0x04C4, 0x04C5, 0x04C7] {
            sent(&mut four, 1, &message(mti, 7, event));
        }
    }
    assert_eq!(four.lines, [line(1, 7, (0, 4))]);
    assert_eq!(reached(&mut four), (0..16).collect::<Vec<u64>>());
    announced(&mut four, 1, 7, (16, 0));
    assert_eq!(blocks(&four), [(0, 4), (16, 0)]);
}

/// 02, W4: the same the other way round, and blocks in blocks in both orders: one line at last, with the same events.
#[test]
fn any_order() {
    let nested = [(4, 0), (4, 1), (4, 2), (0, 3), (0, 4)];
    let mut upwards = gateway(4);
    for (place, block) in nested.iter().enumerate() {
        announced(&mut upwards, 1, 7, *block);
        assert_eq!(blocks(&upwards), nested[place..=place]);
    }
    let mut downwards = gateway(4);
    for block in nested.iter().rev() {
        announced(&mut downwards, 1, 7, *block);
        assert_eq!(blocks(&downwards), [(0, 4)]);
    }
    assert_eq!(reached(&mut upwards), reached(&mut downwards));
}

/// 02, W4, "the new line at the end": the held lines go, wherever they stand, and the others keep their order.
#[test]
fn replaced_lines() {
    let mut four = gateway(4);
    for start in [20, 3, 40, 0, 9, 16, 8] {
        announced(&mut four, 1, 7, (start, 0));
    }
    announced(&mut four, 1, 7, (0, 2));
    assert_eq!(
        blocks(&four),
        [(20, 0), (40, 0), (9, 0), (16, 0), (8, 0), (0, 2)]
    );
    announced(&mut four, 1, 7, (0, 4));
    assert_eq!(blocks(&four), [(20, 0), (40, 0), (16, 0), (0, 4)]);
    announced(&mut four, 1, 7, (0, 64));
    assert_eq!(blocks(&four), [(0, 64)]);
    announced(&mut four, 1, 7, (20, 0));
    assert_eq!(blocks(&four), [(0, 64)]);
}

/// 02, W4, "of the same port and node": a line of another node, or at another port, neither covers nor is replaced.
#[test]
fn other_ports_and_nodes() {
    let mut four = gateway(4);
    let (event, block) = ((5, 0), (0, 3));
    announced(&mut four, 1, 7, block);
    for (port, node) in [(2, 7), (1, 8), (1, 6), (0, 7), (1, 7 | 1 << 40)] {
        announced(&mut four, port, node, event);
    }
    assert_eq!(four.lines.len(), 6);
    let before = four.lines.clone();
    announced(&mut four, 2, 7, block);
    let expected = [&before[..1], &before[2..], &[line(2, 7, block)]].concat();
    assert_eq!(four.lines, expected);
}

/// 02, W4: neighbours stay, also the two halves of a block, which do not cover it together; the block replaces both.
#[test]
fn neighbours() {
    let mut four = gateway(4);
    for block in [(0, 2), (4, 2), (8, 0), (3, 0), (15, 0), (7, 0)] {
        announced(&mut four, 1, 7, block);
    }
    assert_eq!(blocks(&four), [(0, 2), (4, 2), (8, 0), (15, 0)]);
    announced(&mut four, 1, 7, (0, 3));
    assert_eq!(blocks(&four), [(8, 0), (15, 0), (0, 3)]);
}

/// 255 or 256 lines of node 7 at port 1, of every other event.
fn filled(count: u64) -> Gateway {
    let mut four = gateway(4);
    for place in 0..count {
        announced(&mut four, 1, 7, (2 * place, 0));
    }
    assert_eq!(four.lines.len() as u64, count);
    four
}

/// 02, W4, "a full table doesn't open the port then": one line replaced, several, all; what is covered opens nothing either.
#[test]
fn a_full_table() {
    for (block, left) in [((0, 1), 256), ((0, 2), 255), ((0, 4), 249), ((0, 9), 1)] {
        let mut four = filled(256);
        announced(&mut four, 1, 7, block);
        assert_eq!((four.lines.len(), four.open.len()), (left, 0));
        assert_eq!(four.lines[left - 1], line(1, 7, block));
        announced(&mut four, 1, 7, (block.0 + 1, 0));
        assert_eq!((four.lines.len(), four.open.len()), (left, 0));
    }
    let mut four = filled(256);
    announced(&mut four, 1, 7, (510, 0));
    assert!(four.open.is_empty());
    announced(&mut four, 1, 7, (511, 0));
    assert_eq!(four.open, BTreeSet::from([1]));
    for (port, node) in [(2, 7), (3, 8)] {
        announced(&mut four, port, node, (0, 9));
        assert_eq!(four.lines.len(), 256);
    }
    assert_eq!(four.open, BTreeSet::from([1, 2, 3]));
    announced(&mut four, 1, 7, (0, 8));
    assert_eq!((four.lines.len(), four.open.len()), (129, 3));
}

/// The other side of the limit: the 256th line is stored, and the next that is new opens the port.
#[test]
fn one_line_short() {
    let mut four = filled(255);
    announced(&mut four, 1, 7, (0, 0));
    assert_eq!((four.lines.len(), four.open.len()), (255, 0));
    announced(&mut four, 1, 7, (0, 1));
    assert_eq!((four.lines.len(), four.open.len()), (255, 0));
    announced(&mut four, 2, 7, (0, 1));
    assert_eq!((four.lines.len(), four.open.len()), (256, 0));
    announced(&mut four, 3, 7, (0, 1));
    assert_eq!((four.lines.len(), four.open), (256, BTreeSet::from([3])));
}

/// A restart frees the one line that replaced many (02, W2 with W4).
#[test]
fn freed_by_a_restart() {
    let mut four = filled(256);
    announced(&mut four, 1, 7, (0, 9));
    announced(&mut four, 2, 8, (0, 0));
    sent(&mut four, 3, &message(0x0100, 7, 0));
    assert_eq!(four.lines, [line(2, 8, (0, 0))]);
    assert!(reached(&mut four).is_empty());
}

/// 02, W4, "a given table that has such lines still isn't out of bounds": nested and equal lines stay until an announcement holds them, and each of them
/// counts; equal lines of the announced block cover it.
#[test]
fn given_tables() {
    let own = [(4, 0), (4, 2), (4, 0), (0, 3), (9, 0)];
    let lines = own.map(|block| line(1, 7, block)).to_vec();
    let four = given(lines.clone());
    assert!(four.in_bounds() && !is_tidy(&four));
    for covered in [(4, 0), (5, 0), (4, 1), (4, 2), (0, 2), (0, 3), (9, 0)] {
        let mut after = four.clone();
        announced(&mut after, 1, 7, covered);
        assert_eq!(after, four);
    }
    for (block, left) in [
        ((8, 0), &own[..]),
        ((8, 1), &own[..4]),
        ((0, 4), &[]),
        ((0, 64), &[]),
    ] {
        let mut after = four.clone();
        announced(&mut after, 1, 7, block);
        assert_eq!(blocks(&after), [left, &[block]].concat());
    }
    let mut equal = given(vec![line(1, 7, (4, 1)); 256]);
    announced(&mut equal, 1, 7, (4, 1));
    assert_eq!((equal.lines.len(), equal.open.len()), (256, 0));
    announced(&mut equal, 1, 7, (4, 2));
    assert_eq!(equal.lines, [line(1, 7, (4, 2))]);
}

/// A line that covers the announcement beside one that it holds, as only a given table can have them: it isn't stored, and nothing goes.
#[test]
fn covered_before_held() {
    for lines in [[(4, 0), (0, 4)], [(0, 4), (4, 0)]] {
        let mut four = given(lines.map(|block| line(1, 7, block)).to_vec());
        let before = four.clone();
        announced(&mut four, 1, 7, (4, 2));
        assert_eq!(four, before);
    }
}

/// 02, W1 with W4: the first line in table order still is the one that is named, and a replaced line's events are of the line at the end.
#[test]
fn why_names_the_first() {
    let mut four = gateway(4);
    announced(&mut four, 1, 7, (4, 0));
    announced(&mut four, 1, 8, (0, 3));
    let place = |four: &Gateway| match four.why(0, 1, &message(0x05B4, 1, 4)) {
        Ok(crate::why::Reason::Held { place, line }) => (place, line.node),
        other => panic!("{other:?}"),
    };
    assert_eq!(place(&four), (0, 7));
    announced(&mut four, 1, 7, (4, 1));
    assert_eq!(place(&four), (0, 8));
    assert_eq!(blocks(&four), [(0, 3), (4, 1)]);
}

/// A refused announcement neither is stored nor replaces anything (00-order, demand 1).
#[test]
fn refused_announcements() {
    let mut four = gateway(4);
    announced(&mut four, 1, 7, (4, 0));
    let before = four.clone();
    let whole = message(0x04A4, 7, 0);
    assert_eq!(four.receive(4, &whole).refusal, 8);
    assert_eq!(four.receive(1, &whole[..15]).refusal, 1);
    assert_eq!(four.receive(1, &[&whole[..], &[0]].concat()).refusal, 4);
    sent(&mut four, 1, &message(0x0524, 7, 0));
    assert_eq!(four, before);
}
