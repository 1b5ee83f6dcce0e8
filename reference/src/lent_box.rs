//! A box as its caller lends it: the layouts of `include/hrislanoth.h`.

use crate::gateway;
use crate::index::{Index, SETS};

/// The places of a box's table, and of its index.
pub const PLACES: usize = 256;

#[repr(C)]
#[derive(Clone, Copy, Debug, PartialEq, Eq)]
pub struct Block {
    pub start: u64,
    pub k: u8,
}

#[repr(C)]
#[derive(Clone, Copy, Debug, PartialEq, Eq)]
pub struct Head {
    pub ports: u8,
    pub marks: u8,
    pub automatic: Block,
    pub count: usize,
}

#[repr(C)]
#[derive(Clone, Copy)]
pub struct Gateway {
    pub head: Head,
    pub nodes: [u64; PLACES],
    pub starts: [u64; PLACES],
    pub ports: [u8; PLACES],
    pub sizes: [u8; PLACES],
    pub order: [u8; PLACES],
    pub sets: [u64; SETS],
}

impl Gateway {
    /// A box with zeros in every place of its lists.
    pub fn bare(head: Head) -> Gateway {
        Gateway {
            head,
            nodes: [0; PLACES],
            starts: [0; PLACES],
            ports: [0; PLACES],
            sizes: [0; PLACES],
            order: [0; PLACES],
            sets: [0; SETS],
        }
    }

    /// The line in a place, as the reference has lines.
    pub fn line(&self, place: usize) -> gateway::Line {
        gateway::Line {
            port: self.ports[place].into(),
            node: self.nodes[place],
            start: self.starts[place],
            k: self.sizes[place].into(),
        }
    }

    /// Puts a line into a place; its port and k fit into a byte.
    pub fn set_line(&mut self, place: usize, line: &gateway::Line) {
        self.nodes[place] = line.node;
        self.starts[place] = line.start;
        self.ports[place] = line.port as u8;
        self.sizes[place] = line.k as u8;
    }

    /// Its lists, all places of each.
    pub fn lists(&mut self) -> Lists<'_> {
        Lists {
            nodes: &mut self.nodes,
            starts: &mut self.starts,
            ports: &mut self.ports,
            sizes: &mut self.sizes,
            order: &mut self.order,
            sets: &mut self.sets,
        }
    }

    /// How many places the count takes, which may say more than there are.
    pub fn used(&self) -> usize {
        self.head.count.min(PLACES)
    }

    /// The lines up to the count.
    pub fn lines(&self) -> Vec<gateway::Line> {
        (0..self.used()).map(|place| self.line(place)).collect()
    }

    /// The index up to the count, as the reference has it.
    pub fn index(&self) -> Index {
        let order = &self.order[..self.used()];
        Index {
            order: order.iter().copied().map(usize::from).collect(),
            sets: self.sets,
        }
    }

    /// Puts an index into its places, as far as there are any; the places past it stay.
    pub fn set_index(&mut self, index: &Index) {
        for (place, number) in self.order.iter_mut().zip(&index.order) {
            *place = *number as u8;
        }
        self.sets = index.sets;
    }
}

#[repr(C)]
#[derive(Clone, Copy)]
pub struct Answer {
    pub refusal: u8,
    pub sent: u8,
    pub gateway: Gateway,
}

#[repr(C)]
#[derive(Clone, Copy, Debug, PartialEq, Eq)]
pub struct LentAnswer {
    pub refusal: u8,
    pub sent: u8,
    pub marks: u8,
    pub count: usize,
}

/// A box's lists, lent for one call; only 256 places each are taken, of the sets nine.
pub struct Lists<'a> {
    pub nodes: &'a mut [u64],
    pub starts: &'a mut [u64],
    pub ports: &'a mut [u8],
    pub sizes: &'a mut [u8],
    pub order: &'a mut [u8],
    pub sets: &'a mut [u64],
}

impl Lists<'_> {
    /// How long each of them is.
    pub fn lengths(&self) -> [usize; 6] {
        [
            self.nodes.len(),
            self.starts.len(),
            self.ports.len(),
            self.sizes.len(),
            self.order.len(),
            self.sets.len(),
        ]
    }
}

/// Why a report is sent or not; place, node and block are 0 beside another reason than 4, and all but the refusal beside a refusal.
#[repr(C)]
#[derive(Clone, Copy, Debug, PartialEq, Eq)]
pub struct Reason {
    pub refusal: u8,
    pub reason: u8,
    pub place: usize,
    pub node: u64,
    pub block: Block,
}
