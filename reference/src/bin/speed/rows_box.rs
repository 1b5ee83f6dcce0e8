//! What is measured of the box: reports, announcements and restarts, each in place, by value and by both plain boxes.

use std::hint::black_box;

use reference::{proved, refusal};

use crate::quick::{self, Line};
use crate::quick_trial::PlainBox;
use crate::rows::{message, repeat, restart, Call, Row, CONSUMER_IDENTIFIED, EVENT, NODE, REPORT};
use crate::states::{as_proved, with_index, with_lines};

/// No line of any table here holds it, and it is not automatic.
const UNWANTED: u64 = 0x0B00_0000_0000_0000;
const CONSUMER_RANGE_IDENTIFIED: u16 = 0x04A4;
/// Nodes with lines of their own among those of a table.
const MANY: u64 = NODE + 1_000;
const SINGLE: u64 = NODE + 2_000;
/// A node without lines.
const ABSENT: u64 = NODE + 3_000;

pub fn all() -> Vec<Row> {
    let mut rows = vec![copy_row()];
    rows.extend(report_rows());
    rows.extend(announcement_rows());
    rows.extend(restart_rows());
    rows
}

/// The state's copy alone, which the rows with a fresh state contain.
fn copy_row() -> Row {
    let by_line = table(256);
    let indexed = with_index(&by_line);
    let proved = as_proved(&indexed);
    Row {
        name: "copy".to_string(),
        calls: [
            Some(repeat(move || *black_box(&proved))),
            None,
            Some(repeat(move || *black_box(&indexed))),
            None,
            Some(repeat(move || *black_box(&by_line))),
        ],
    }
}

fn report_rows() -> Vec<Row> {
    let report = |event| message(REPORT, NODE, event);
    let hit = |count: usize| report(nth_line(count - 1).start);
    let miss = || report(UNWANTED);
    vec![
        unchanging("report-0-miss", table(0), 0, miss(), 0),
        unchanging("report-16-hit", table(16), 0, hit(16), 1 << 1),
        unchanging("report-16-miss", table(16), 0, miss(), 0),
        unchanging("report-64-hit", table(64), 0, hit(64), 1 << 1),
        unchanging("report-64-miss", table(64), 0, miss(), 0),
        unchanging("report-256-hit", table(256), 0, hit(256), 1 << 1),
        unchanging("report-256-miss", table(256), 0, miss(), 0),
    ]
}

fn announcement_rows() -> Vec<Row> {
    let last = nth_line(63);
    let new = message(CONSUMER_IDENTIFIED, NODE, UNWANTED);
    let again = message(CONSUMER_IDENTIFIED, last.node, last.start);
    vec![
        changing("announce-new", table(64), 1, new, 65),
        unchanging("announce-again", table(64), last.port, again, 0b1101),
        covered_row(),
        replacing_row(),
    ]
}

/// The last of 64 lines is a block of 256, and an event inside it is announced.
fn covered_row() -> Row {
    let mut gateway = table(64);
    let block = &mut gateway.lines[63];
    (block.k, block.port) = (8, 1);
    let inside = message(CONSUMER_IDENTIFIED, block.node, block.start + 7);
    unchanging("announce-inside", gateway, 1, inside, 0b1101)
}

/// In 128 lines, one node has every other line, and announces a block that holds them all.
fn replacing_row() -> Row {
    let first = EVENT + 0x10_0000;
    let mut gateway = table(128);
    for (event, line) in (0..).zip(gateway.lines[..128].iter_mut().step_by(2)) {
        *line = Line {
            node: MANY,
            start: first + event,
            k: 0,
            port: 1,
        };
    }
    let block = message(CONSUMER_RANGE_IDENTIFIED, MANY, first + 63);
    changing("announce-over-64", gateway, 1, block, 65)
}

fn restart_rows() -> Vec<Row> {
    let row = |name: &str, count, node, gone| {
        let gateway = table_to_restart(count);
        changing(name, gateway, 1, restart(node), count - gone)
    };
    vec![
        row("restart-1-of-128", 128, SINGLE, 1),
        row("restart-64-of-128", 128, MANY, 64),
        row("restart-none-of-128", 128, ABSENT, 0),
        row("restart-1-of-256", 256, SINGLE, 1),
        row("restart-64-of-256", 256, MANY, 64),
        row("restart-none-of-256", 256, ABSENT, 0),
    ]
}

/// So many lines, 128 or more: one node has 64, every other one from the start, another a single one in the middle, and a third has none.
fn table_to_restart(count: usize) -> quick::Gateway {
    let mut gateway = table(count);
    for line in gateway.lines[..128].iter_mut().step_by(2) {
        (line.node, line.port) = (MANY, 1);
    }
    let middle = &mut gateway.lines[count / 2 + 1];
    (middle.node, middle.port) = (SINGLE, 1);
    gateway
}

/// A box of four ports with these many lines, none of them for port 0.
fn table(count: usize) -> quick::Gateway {
    let lines: Vec<Line> = (0..count).map(nth_line).collect();
    with_lines(4, &lines)
}

/// Every line another event, every fourth a range of 16; eight lines to a node.
fn nth_line(place: usize) -> Line {
    Line {
        node: NODE + place as u64 / 8,
        start: EVENT + 256 * place as u64,
        k: if place % 4 == 2 { 4 } else { 0 },
        port: 1 + (place % 3) as u8,
    }
}

/// A message that leaves the state as it was, so the calls go on with the same one.
pub fn unchanging(name: &str, start: quick::Gateway, port: u8, bytes: Vec<u8>, sent: u8) -> Row {
    let after = agreed_state(&start, port, &bytes, (refusal::NONE, sent));
    assert_eq!(after.lines(), start.lines());
    box_row(name, &start, port, &bytes, false)
}

/// A message that is refused at a port that is not there.
pub fn refused(name: &str, start: quick::Gateway, bytes: Vec<u8>) -> Row {
    let port = start.ports;
    agreed_state(&start, port, &bytes, (refusal::PORT, 0));
    box_row(name, &start, port, &bytes, false)
}

/// A message that changes the state, or one to compare with such: every call takes a fresh copy, which counts.
fn changing(name: &str, start: quick::Gateway, port: u8, bytes: Vec<u8>, count: usize) -> Row {
    let after = agreed_state(&start, port, &bytes, (refusal::NONE, 0b1101));
    assert_eq!(after.count, count);
    box_row(name, &start, port, &bytes, true)
}

/// By value the state is copied in every row, so the call's own copy is the fresh one.
fn box_row(name: &str, start: &quick::Gateway, port: u8, bytes: &[u8], fresh: bool) -> Row {
    let indexed = with_index(start);
    let proved = as_proved(&indexed);
    let (lent, passed) = (bytes.to_vec(), bytes.to_vec());
    Row {
        name: name.to_string(),
        calls: [
            Some(repeat_on(proved, fresh, move |gateway| {
                proved::receive_lent(gateway, port, black_box(&lent))
            })),
            Some(repeat(move || {
                proved::receive(black_box(&proved), port, black_box(&passed))
            })),
            Some(plain_call(indexed, fresh, port, bytes, true)),
            Some(plain_call(indexed, fresh, port, bytes, false)),
            Some(plain_call(*start, fresh, port, bytes, true)),
        ],
    }
}

/// A plain box's call.
fn plain_call<Plain: PlainBox + Copy + 'static>(
    start: Plain,
    fresh: bool,
    port: u8,
    bytes: &[u8],
    check: bool,
) -> Call {
    let bytes = bytes.to_vec();
    repeat_on(start, fresh, move |gateway| {
        gateway.receive(port, black_box(&bytes), check)
    })
}

/// Calls in place on one state, or each on a fresh copy of it.
fn repeat_on<State: Copy + 'static>(
    mut state: State,
    fresh: bool,
    call: impl Fn(&mut State) -> (u8, u8) + 'static,
) -> Call {
    if !fresh {
        return repeat(move || call(black_box(&mut state)));
    }
    repeat(move || {
        let mut copy = *black_box(&state);
        let answer = call(black_box(&mut copy));
        black_box(&copy);
        answer
    })
}

/// The state afterwards, once all columns have given the same answer.
fn agreed_state(
    start: &quick::Gateway,
    port: u8,
    bytes: &[u8],
    expected: (u8, u8),
) -> quick::Gateway {
    let indexed = with_index(start);
    let mut in_place = as_proved(&indexed);
    let by_value = proved::receive(&in_place, port, bytes);
    let (mut checked, mut unchecked, mut by_line) = (indexed, indexed, *start);
    for answer in [
        proved::receive_lent(&mut in_place, port, bytes),
        (by_value.refusal, by_value.sent),
        checked.receive(port, bytes, true),
        unchecked.receive(port, bytes, false),
        by_line.receive(port, bytes, true),
    ] {
        assert_eq!(answer, expected);
    }
    let right = as_proved(&with_index(&by_line));
    let plain = [as_proved(&checked), as_proved(&unchecked)];
    for after in plain.into_iter().chain([in_place, by_value.gateway]) {
        assert_eq!(after.head, right.head);
        assert_eq!(after.lines(), right.lines());
        assert_eq!(after.index(), right.index());
    }
    by_line
}
