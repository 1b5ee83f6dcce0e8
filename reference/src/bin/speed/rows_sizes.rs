//! What is measured of the index: reports through lines of several sizes at several ports, and the test of table and index alone.

use crate::quick::{self, Line};
use crate::rows::{message, Row, EVENT, NODE, REPORT};
use crate::rows_box::{refused, unchanging};
use crate::states::with_lines;

const LINES: [usize; 3] = [16, 64, 256];
const SIZES: [usize; 3] = [1, 4, 16];
const PORTS: [u8; 3] = [2, 4, 8];
/// Larger than any block of these tables: the first events are multiples of it.
const APART: u64 = 1 << 32;
const FIRST: u64 = 0x0A00_0000_0000_0000;

pub fn all() -> Vec<Row> {
    let mut rows = Vec::new();
    for ports in PORTS {
        rows.push(report_row(
            &format!("report-0-on-{ports}"),
            table(0, 1, ports),
        ));
    }
    for lines in LINES {
        for sizes in SIZES {
            for ports in PORTS {
                let name = format!("report-{lines}-of-{sizes}-on-{ports}");
                rows.push(report_row(&name, table(lines, sizes, ports)));
            }
        }
    }
    for lines in [0, 16, 64, 256] {
        let report = message(REPORT, NODE, EVENT);
        let name = format!("test-{lines}");
        rows.push(refused(&name, table(lines, 4, 4), report));
    }
    rows
}

/// A report at port 0 of an event between those of the lines in the middle, which none of them holds.
fn report_row(name: &str, start: quick::Gateway) -> Row {
    let event = first_event(start.count / 2) + APART / 2;
    unchanging(name, start, 0, message(REPORT, NODE, event), 0)
}

/// So many lines of so many sizes, each size at every port where there are lines enough; their order in the table is not that of the events.
fn table(lines: usize, sizes: usize, ports: u8) -> quick::Gateway {
    let line = |place: usize| Line {
        node: NODE + place as u64 / 8,
        start: first_event(place * 37 % lines),
        k: 2 * (place % sizes) as u8,
        port: ((place % sizes + place / sizes) % usize::from(ports)) as u8,
    };
    let lines: Vec<Line> = (0..lines).map(line).collect();
    with_lines(ports, &lines)
}

fn first_event(place: usize) -> u64 {
    FIRST + APART * place as u64
}
