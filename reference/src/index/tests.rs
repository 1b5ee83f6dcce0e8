//! The index by hand (02, W6).

use super::*;
use crate::gateway::Gateway;
use crate::judging::histories::any_history;
use crate::judging::random::Dice;
use crate::judging::world::Area;
use crate::message;

fn line(port: u32, start: u64, k: u32) -> Line {
    Line {
        port,
        node: 7,
        start,
        k,
    }
}

/// Four ports, these lines and their index.
fn four(lines: &[Line]) -> Gateway {
    let (mut gateway, _) = Gateway::start(4, 0x010000000000FFFF);
    gateway.set_lines(lines.to_vec());
    gateway
}

/// A report of an event.
fn report(event: u64) -> Vec<u8> {
    [&[0x05, 0xB4, 0, 0, 0, 0, 0, 9][..], &event.to_be_bytes()].concat()
}

/// By port, then size, then first event, then place, whatever the order in the table.
#[test]
fn by_port_size_first_event_and_place() {
    let lines = [
        line(2, 8, 0),
        line(1, 16, 4),
        line(1, 9, 0),
        line(2, 8, 0),
        line(1, 3, 0),
        line(0, 0, 64),
        line(1, 0, 4),
        line(2, 4, 0),
    ];
    let index = Index::of(&lines);
    assert_eq!(index.order, [5, 4, 2, 6, 1, 7, 0, 3]);
    assert_eq!(index.sets, [0, 1 | 1 << 4, 1, 0, 0, 0, 0, 0, 1]);
}

/// The sizes at both ends: k 0, 63 and 64, at the first and the last port; the whole space is in its own set only.
#[test]
fn sets() {
    let lines = [
        line(0, 0, 0),
        line(0, 1 << 63, 63),
        line(7, 0, 64),
        line(7, 2, 1),
        line(3, 0, 64),
    ];
    let index = Index::of(&lines);
    let expected = [1 | 1 << 63, 0, 0, 0, 0, 0, 0, 2, 1 << 7 | 1 << 3];
    assert_eq!(index.sets, expected);
    assert_eq!(index.order, [0, 1, 4, 3, 2]);
    for (port, k, is_there) in [(0, 0, true), (0, 63, true), (0, 64, false), (7, 64, true)] {
        assert_eq!(index.has(port, k), is_there);
    }
    assert!(!index.has(8, 0) && !index.has(0, 65));
    let empty = Index::of(&[]);
    assert_eq!((empty.order.len(), empty.sets), (0, [0; SETS]));
}

/// What no table in bounds has is sorted as the numbers that it is, and is in no set.
#[test]
fn lines_out_of_bounds() {
    let lines = [line(9, 0, 0), line(1, 5, 65), line(1, 1, 64), line(8, 0, 3)];
    let index = Index::of(&lines);
    assert_eq!(index.order, [2, 1, 3, 0]);
    assert_eq!(index.sets, [0, 0, 0, 0, 0, 0, 0, 0, 2]);
}

/// The smallest size first, within one the first in the index; nothing where no line at the port holds the event.
#[test]
fn lookups() {
    let lines = [
        line(1, 0, 64),
        line(1, 0, 4),
        line(1, 4, 1),
        line(1, 4, 1),
        line(2, 5, 0),
        line(3, 8, 2),
    ];
    let index = Index::of(&lines);
    for (port, event, place) in [
        (1, 4, Some(2)),
        (1, 5, Some(2)),
        (1, 6, Some(1)),
        (1, 15, Some(1)),
        (1, 16, Some(0)),
        (1, u64::MAX, Some(0)),
        (2, 5, Some(4)),
        (2, 4, None),
        (3, 11, Some(5)),
        (3, 12, None),
        (0, 5, None),
        (8, 5, None),
    ] {
        assert_eq!(index.line_for(&lines, port, event), place);
    }
}

/// Every sort of disagreement is 7, at a port that is not there too, and changes nothing; so it is for the question why.
#[test]
fn disagreements() {
    let good = four(&[line(1, 9, 0), line(1, 4, 0), line(2, 4, 0), line(1, 4, 0)]);
    assert_eq!(good.index.order, [1, 3, 0, 2]);
    assert_eq!(good.index.sets, [0, 1, 1, 0, 0, 0, 0, 0, 0]);
    assert!(good.in_bounds());
    for order in [
        &[1, 1, 0, 2][..],
        &[1, 0, 2, 2],
        &[1, 0, 3, 2],
        &[3, 1, 0, 2],
        &[1, 3, 0, 4],
        &[1, 3, 0, 255],
        &[0, 1, 2, 3],
        &[0, 0, 0, 0],
        &[1, 3, 0],
        &[1, 3, 0, 2, 0],
    ] {
        let mut bad = good.clone();
        bad.index.order = order.to_vec();
        refused(&bad);
    }
    for (set, bits) in [
        (0, 1),
        (1, 0),
        (1, 3),
        (1, 1 << 63 | 1),
        (2, 0),
        (4, 1),
        (7, 1),
        (8, 2),
        (8, 1 << 63),
    ] {
        let mut bad = good.clone();
        bad.index.sets[set] = bits;
        refused(&bad);
    }
}

/// Refusal 7 before 8 and before reading, and nothing changes.
fn refused(bad: &Gateway) {
    let mut after = bad.clone();
    for (port, bytes) in [(0, report(4)), (4, report(4)), (0, vec![])] {
        assert_eq!(after.receive(port, &bytes).refusal, 7);
        assert_eq!(after.why(port, 1, &bytes), Err(7));
    }
    assert_eq!(after, *bad);
}

/// A start has an empty index, a refused one too.
#[test]
fn starts() {
    for ports in [0, 2, 8, 9] {
        let (gateway, _) = Gateway::start(ports, 0);
        assert_eq!(gateway.index, Index::of(&[]));
    }
}

/// The index after an addition in the middle, a replacement and a restart, worked out by hand.
#[test]
fn after_each_change() {
    let announced = |node: u8, mti: [u8; 2], number: u64| {
        let source = [0, 0, 0, 0, 0, node];
        [&mti[..], &source, &number.to_be_bytes()].concat()
    };
    let (mut gateway, _) = Gateway::start(4, 0x010000000000FFFF);
    let events = [(1, 9), (1, 4), (2, 4), (1, 6)];
    for (port, event) in events {
        gateway.receive(port, &announced(7, [0x04, 0xC4], event));
    }
    gateway.receive(1, &announced(8, [0x04, 0xC4], 6));
    assert_eq!(gateway.index.order, [1, 3, 4, 0, 2]);
    // 4 to 7 in place of 4 and 6: places 0, 2 and 4 become 0, 1 and 2, and the block is at place 3.
    gateway.receive(1, &announced(7, [0x04, 0xA4], 4));
    assert_eq!(gateway.index.order, [2, 0, 3, 1]);
    assert_eq!(gateway.index.sets, [0, 1 | 1 << 2, 1, 0, 0, 0, 0, 0, 0]);
    // Node 7 restarts: place 2 is left, as place 0.
    gateway.receive(3, &[1, 0, 0, 0, 0, 0, 0, 7, 0, 0, 0, 0, 0, 7]);
    assert_eq!(gateway.lines.len(), 1);
    assert_eq!(gateway.index.order, [0]);
    assert_eq!(gateway.index.sets, [0, 1, 0, 0, 0, 0, 0, 0, 0]);
    gateway.receive(1, &announced(8, [0x04, 0xA4], 0));
    assert_eq!(gateway.index.sets, [0, 0, 0, 0, 0, 0, 0, 0, 2]);
}

/// 02, W6: after every call of a history the index is that of its table, names every line once, and decides as reading from the top does.
#[test]
fn in_histories() {
    let mut decided = [0; 2];
    for index in 0..60 {
        let mut dice = Dice::of_input(5, 1, index);
        let ports = dice.between(2, 8) as u8;
        let automatic = Area::any_automatic(&mut dice);
        let (mut gateway, _) = Gateway::start(u32::from(ports), automatic.number);
        for arrival in any_history(&mut dice, ports, automatic) {
            gateway.receive(u32::from(arrival.port), &arrival.bytes);
            assert_eq!(gateway.index, Index::of(&gateway.lines));
            let mut named = gateway.index.order.clone();
            named.sort();
            assert!(named.into_iter().eq(0..gateway.lines.len()));
            let read = message::read(&arrival.bytes).ok();
            let Some(event) = read.and_then(|message| message.event) else {
                continue;
            };
            for port in 0..u32::from(ports) {
                let at_port = |line: &Line| line.port == port && holds((line.start, line.k), event);
                let from_the_top = gateway.lines.iter().any(at_port);
                let found = gateway.index.line_for(&gateway.lines, port, event);
                assert_eq!(found.is_some(), from_the_top);
                if let Some(place) = found {
                    let line = &gateway.lines[place];
                    let holding = gateway.lines.iter().filter(|line| at_port(line));
                    assert!(at_port(line));
                    assert_eq!(holding.map(|line| line.k).min(), Some(line.k));
                }
                decided[usize::from(from_the_top)] += 1;
            }
        }
    }
    assert!(decided.iter().all(|times| *times > 1_000), "{decided:?}");
}
