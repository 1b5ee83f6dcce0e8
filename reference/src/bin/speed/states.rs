//! The states that are measured, each as the proved side, the plain box with an index and the one that reads line by line have it.

use reference::gateway;
use reference::index::Index;
use reference::proved::{self, PLACES};
use reference::trial::HOUSE_NUMBER;

use crate::quick_index::kind_of;
use crate::quick_trial::PlainBox;
use crate::{quick, quick_index};

/// A box of so many ports with these lines.
pub fn with_lines(ports: u8, lines: &[quick::Line]) -> quick::Gateway {
    let mut gateway = quick::Gateway::start(ports, HOUSE_NUMBER);
    gateway.count = lines.len();
    gateway.lines[..lines.len()].copy_from_slice(lines);
    gateway
}

/// The same box with its index, as the reference makes it.
pub fn with_index(plain: &quick::Gateway) -> quick_index::Gateway {
    let lines: Vec<gateway::Line> = plain.lines().iter().map(reference_line).collect();
    let index = Index::of(&lines);
    let mut order = [0; PLACES];
    for (place, number) in order.iter_mut().zip(index.order) {
        *place = number as u8;
    }
    quick_index::Gateway {
        ports: plain.ports,
        marks: plain.marks,
        automatic: plain.automatic,
        count: plain.count,
        nodes: plain.lines.map(|line| line.node),
        starts: plain.lines.map(|line| line.start),
        kinds: plain.lines.map(|line| kind_of(line.port, line.k)),
        order,
        sets: index.sets,
    }
}

/// The box as the proved side has it.
pub fn as_proved(indexed: &quick_index::Gateway) -> proved::Gateway {
    let (start, k) = indexed.automatic;
    proved::Gateway {
        head: proved::Head {
            ports: indexed.ports,
            marks: indexed.marks,
            automatic: proved::Block { start, k },
            count: indexed.count,
        },
        nodes: indexed.nodes,
        starts: indexed.starts,
        ports: indexed.kinds.map(|kind| kind.to_le_bytes()[1]),
        sizes: indexed.kinds.map(|kind| kind.to_le_bytes()[0]),
        order: indexed.order,
        sets: indexed.sets,
    }
}

/// A line as the reference has it.
pub fn reference_line(line: &quick::Line) -> gateway::Line {
    gateway::Line {
        port: line.port.into(),
        node: line.node,
        start: line.start,
        k: line.k.into(),
    }
}
