//! What stands in the lists of a box, as it is compared: the lines and their index.

use std::fmt::{self, Debug, Formatter};

use crate::gateway::{self, Line};
use crate::index::Index;
use crate::lent_box::{Gateway, PLACES};

/// The lines of a table and its index, shown number by number only where an answer is shown in full.
#[derive(PartialEq)]
pub struct Table {
    pub lines: Vec<Line>,
    index: Index,
}

impl Table {
    /// The proved side's, up to the count.
    pub fn of_proved(gateway: &Gateway) -> Table {
        Table {
            lines: gateway.lines(),
            index: gateway.index(),
        }
    }

    /// The reference's, as far as there are places.
    pub fn of_reference(gateway: &gateway::Gateway) -> Table {
        Table {
            lines: gateway.lines.iter().take(PLACES).copied().collect(),
            index: gateway.index.clone(),
        }
    }

    /// What stands in every place, past the count too.
    pub fn of_all_places(gateway: &Gateway) -> Table {
        Table {
            lines: (0..PLACES).map(|place| gateway.line(place)).collect(),
            index: Index {
                order: gateway.order.iter().copied().map(usize::from).collect(),
                sets: gateway.sets,
            },
        }
    }
}

impl Debug for Table {
    fn fmt(&self, out: &mut Formatter) -> fmt::Result {
        if !out.alternate() {
            return write!(out, "..");
        }
        for line in &self.lines {
            let Line {
                port,
                node,
                start,
                k,
            } = line;
            write!(out, "\n{port} {node:X} {start:016X} {k}")?;
        }
        let Index { order, sets } = &self.index;
        for (place, number) in order.iter().enumerate() {
            write!(out, "\norder {place:X}: {number:X}")?;
        }
        for (place, set) in sets.iter().enumerate() {
            write!(out, "\nset {place}: {set:016X}")?;
        }
        Ok(())
    }
}
