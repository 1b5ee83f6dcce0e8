//! Boxes laid out by hand, in bounds or out of them in a chosen way, in the form of each side.

use std::collections::BTreeSet;

use crate::gateway::{self, Line};
use crate::index::Index;
use crate::lent_box::{Block, Gateway, Head, PLACES};

use super::histories::Arrival;
use super::laid_lines::{any_numbers, lines_apart, lines_at_times_nested, share_out};
use super::parts::Parts;
use super::random::Dice;
use super::world::{crooked_block, endless_block, low_bits, Area, World, HIGHEST_NODE};

/// A state as both sides can take it; more lines than the table has places are there for the reference's sake.
pub struct Layout {
    pub ports: u8,
    automatic: (u64, u32),
    marks: u8,
    lines: Vec<Line>,
    /// Lines that the proved side is told of beyond those laid out.
    pub told: usize,
}

impl Layout {
    /// A state in bounds, equal lines and such as lie inside one another among its lines at times.
    pub fn in_bounds(dice: &mut Dice, world: &World, automatic: Area) -> Layout {
        let ports = dice.between(2, 8) as u8;
        let count = dice.pick(&[0, 1, 3, 20, 100, 254, 255, 256, 256]);
        let lines = lines_at_times_nested(dice, ports, world, count, 10);
        Layout::with_lines(dice, ports, automatic, lines)
    }

    /// A state in bounds for announcements near its lines: no lines, as from a start, lines that are apart, or such as lie inside one another.
    pub fn nested(dice: &mut Dice, world: &World, automatic: Area) -> Layout {
        let ports = dice.between(2, 8) as u8;
        let count = dice.pick(&[0, 0, 0, 1, 2, 5, 12, 40, 254, 255, 255, 256, 256, 256]);
        let lines = match dice.chance(50) {
            true => lines_apart(dice, ports, &world.nodes, count),
            false => lines_at_times_nested(dice, ports, world, count, 60),
        };
        Layout::with_lines(dice, ports, automatic, lines)
    }

    /// A state with these lines.
    fn with_lines(dice: &mut Dice, ports: u8, automatic: Area, lines: Vec<Line>) -> Layout {
        let any_marks = dice.number() as u8;
        let marks = dice.pick(&[0, 0, 0xFF, any_marks]);
        Layout {
            ports,
            automatic: (automatic.first, automatic.run),
            marks: marks & low_bits(u32::from(ports)) as u8,
            lines,
            told: 0,
        }
    }

    /// Gives its lines, so many times in a hundred, to nodes that are to restart, and answers these.
    pub fn share_out_at_times(&mut self, dice: &mut Dice, percent: u64) -> Vec<u64> {
        match dice.chance(percent) {
            true => share_out(dice, &mut self.lines),
            false => Vec::new(),
        }
    }

    /// Puts the state out of bounds in one way, by its place in the table of counts.
    pub fn spoil(&mut self, dice: &mut Dice, way: usize) {
        match way {
            0 => self.set_ports(dice.pick(&[0, 1, 9, 10, 255])),
            1 => self.lengthen(dice),
            2 => self.some_line(dice).port = dice.pick(&[self.ports.into(), 8, 255]),
            3 => self.some_line(dice).node = dice.pick(&[0, HIGHEST_NODE + 1, u64::MAX]),
            4 => self.set_block_of_a_line(endless_block(dice), dice),
            5 => self.set_block_of_a_line(crooked_block(dice), dice),
            6 => self.mark_a_missing_port(dice),
            7 => self.automatic.1 = 0,
            8 => self.automatic = endless_block(dice),
            _ => self.automatic = crooked_block(dice),
        }
    }

    /// More lines than there may be, by one or by as many as can be told.
    fn lengthen(&mut self, dice: &mut Dice) {
        let line = *self.some_line(dice);
        let count = dice.pick(&[PLACES + 1, PLACES + 1, 300]);
        self.lines.resize(count, line);
        self.told = dice.pick(&[0, 0, 1 << 32, usize::MAX - count]);
    }

    /// Another block for one of the lines.
    fn set_block_of_a_line(&mut self, block: (u64, u32), dice: &mut Dice) {
        let line = self.some_line(dice);
        (line.start, line.k) = block;
    }

    /// One of the lines; the first is made where there is none.
    fn some_line(&mut self, dice: &mut Dice) -> &mut Line {
        if self.lines.is_empty() {
            self.lines.push(Line {
                port: 0,
                node: 1,
                start: 0,
                k: 64,
            });
        }
        let place = dice.between(0, self.lines.len() - 1);
        &mut self.lines[place]
    }

    /// Another port count, with lines and marks at the ports that are left.
    fn set_ports(&mut self, ports: u8) {
        self.ports = ports;
        self.marks &= low_bits(u32::from(ports)) as u8;
        for line in &mut self.lines {
            line.port = line.port.min(ports.saturating_sub(1).into());
        }
    }

    /// Seven ports at most, and a mark past them.
    fn mark_a_missing_port(&mut self, dice: &mut Dice) {
        self.set_ports(self.ports.min(7));
        self.marks |= 1 << dice.between(usize::from(self.ports), 7);
    }

    /// A report of an event that one of the lines holds, the last one as often as not.
    pub fn report_of_a_line(&self, dice: &mut Dice, world: &World) -> Option<Arrival> {
        let last = *self.lines.last()?;
        let any = dice.pick(&self.lines);
        let line = dice.pick(&[last, any]);
        let parts = Parts::with_event(dice, world, 0x05B4, line.start);
        Some(Arrival {
            port: dice.below(u64::from(self.ports)) as u8,
            bytes: parts.bytes(),
        })
    }

    /// The state for the proved side, any numbers standing in the places past the lines and past their index.
    pub fn for_proved(&self, dice: &mut Dice) -> Gateway {
        let mut gateway = Gateway::bare(self.head());
        for place in 0..PLACES {
            let past = any_numbers(dice);
            gateway.set_line(place, self.lines.get(place).unwrap_or(&past));
            gateway.order[place] = dice.number() as u8;
        }
        gateway.set_index(&self.index());
        gateway
    }

    /// The index of the lines that the table has places for.
    fn index(&self) -> Index {
        Index::of(&self.lines[..self.lines.len().min(PLACES)])
    }

    /// The state but for its lines, for the proved side.
    fn head(&self) -> Head {
        let (start, k) = self.automatic;
        Head {
            ports: self.ports,
            marks: self.marks,
            automatic: Block { start, k: k as u8 },
            count: self.lines.len() + self.told,
        }
    }

    /// The state for the reference.
    pub fn for_reference(&self) -> gateway::Gateway {
        gateway::Gateway {
            ports: self.ports.into(),
            automatic: self.automatic,
            lines: self.lines.clone(),
            open: ports_in(self.marks),
            index: self.index(),
        }
    }
}

/// The ports of a set of bits.
fn ports_in(bits: u8) -> BTreeSet<u32> {
    (0..8).filter(|port| bits >> port & 1 == 1).collect()
}
