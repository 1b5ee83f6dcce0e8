//! Restarts of nodes whose lines stand first, last, together, here and there or nowhere in the table (02, W5), which new lines fill again after each.

use crate::gateway::{Gateway, Line};

use super::histories::Arrival;
use super::laid_lines::{lines_apart, new_nodes, share_out};
use super::moves::{announcement, with_event};
use super::parts::Parts;
use super::questions::event_of;
use super::random::Dice;
use super::world::{near_node, World};

/// How many lines a table has that is laid out from a start: mostly it is full.
const COUNTS: [usize; 10] = [1, 3, 40, 256, 256, 256, 256, 256, 256, 256];

/// Messages that are being made.
struct Maker<'a> {
    dice: &'a mut Dice,
    /// The reference's box after the messages so far.
    gateway: &'a mut Gateway,
    /// How many lines the table is filled to.
    count: usize,
    arrivals: Vec<Arrival>,
}

/// Announcements that lay out a table, and restarts in it; the box is left as they leave it.
pub fn restarts_from_a_start(
    dice: &mut Dice,
    gateway: &mut Gateway,
    world: &World,
) -> Vec<Arrival> {
    let count = dice.pick(&COUNTS);
    let mut lines = lines_apart(dice, gateway.ports as u8, &world.nodes, count);
    let nodes = share_out(dice, &mut lines);
    let mut maker = Maker::new(dice, gateway, count);
    maker.announce(&lines);
    maker.restart_all(&nodes);
    maker.arrivals
}

/// Restarts of these nodes; the box is left as they leave it.
pub fn restarts_of(dice: &mut Dice, gateway: &mut Gateway, nodes: &[u64]) -> Vec<Arrival> {
    let count = gateway.lines.len();
    let mut maker = Maker::new(dice, gateway, count);
    maker.restart_all(nodes);
    maker.arrivals
}

impl<'a> Maker<'a> {
    fn new(dice: &'a mut Dice, gateway: &'a mut Gateway, count: usize) -> Maker<'a> {
        Maker {
            dice,
            gateway,
            count,
            arrivals: Vec::new(),
        }
    }

    /// Each of the nodes restarts in a table that is filled again, and after it mostly the node that has filled the last place.
    fn restart_all(&mut self, nodes: &[u64]) {
        for node in nodes {
            self.fill();
            self.restart(*node);
            if self.dice.chance(60) {
                if let Some(last) = self.fill() {
                    self.restart(last);
                }
            }
        }
    }

    /// A node restarts, and reports of lines that stood beside its first gap, of the last line or of any follow.
    fn restart(&mut self, node: u64) {
        let before = self.gateway.lines.clone();
        let bytes = Parts::restart(self.dice, node, node).bytes();
        let port = self.port();
        self.add(Arrival { port, bytes });
        for _ in 0..self.dice.between(1, 3) {
            let line = line_beside_the_gap(self.dice, &before, node);
            let event = event_of(self.dice, (line.start, line.k));
            let source = near_node(self.dice, node);
            let port = self.port();
            self.add(with_event(port, 0x05B4, source, event));
        }
    }

    /// New lines of a node that has none, as often as not the last of them of another; the last one's node, if a line was missing.
    fn fill(&mut self) -> Option<u64> {
        let missing = self.count - self.gateway.lines.len();
        let [node, other] = new_nodes(self.dice, &self.gateway.lines);
        let mut lines = lines_apart(self.dice, self.gateway.ports as u8, &[node], missing);
        let last = lines.last_mut()?;
        last.node = self.dice.pick(&[node, other]);
        let last = last.node;
        self.announce(&lines);
        Some(last)
    }

    /// Announces lines in their order.
    fn announce(&mut self, lines: &[Line]) {
        for line in lines {
            let block = (line.start, line.k);
            let arrival = announcement(self.dice, line.port as u8, line.node, block);
            self.add(arrival);
        }
    }

    fn port(&mut self) -> u8 {
        self.dice.below(self.gateway.ports.into()) as u8
    }

    fn add(&mut self, arrival: Arrival) {
        self.gateway.receive(arrival.port.into(), &arrival.bytes);
        self.arrivals.push(arrival);
    }
}

/// The line before a node's first gap, its first or the one after it, the last line or any; the table has lines.
fn line_beside_the_gap(dice: &mut Dice, lines: &[Line], node: u64) -> Line {
    let goes = |line: &Line| line.node == node;
    let first = lines.iter().position(goes).unwrap_or(0);
    let gap = lines[first..].iter().take_while(|line| goes(line)).count();
    let last = lines.len() - 1;
    let any = dice.between(0, last);
    let place = dice.pick(&[first.saturating_sub(1), first, first + gap, last, any]);
    lines[place.min(last)]
}

#[cfg(test)]
mod tests {
    use super::super::counts::Column;
    use super::super::observed;
    use super::super::rows::Row;
    use super::super::shapes::Shape;
    use super::super::world::Area;
    use super::*;

    /// Every shape is reached soon, in full tables too, and the box is left as the messages leave it.
    #[test]
    fn every_shape() {
        let mut dice = Dice::of_input(1, 1, 1);
        let mut column = Column::default();
        for _ in 0..100 {
            let world = World::new(&mut dice, 3, 4, Area::house());
            let (start, _) = Gateway::start(4, Area::house().number);
            let (mut from_start, mut followed) = (start.clone(), start);
            let arrivals = restarts_from_a_start(&mut dice, &mut from_start, &world);
            for arrival in &arrivals {
                observed::receive(&mut followed, arrival, &mut column);
            }
            assert_eq!(from_start, followed);
            assert!(followed.in_bounds() && followed.open.is_empty() && arrivals.len() <= 800);
        }
        for shape in Shape::ALL {
            for row in [Row::Restarted(shape), Row::RestartedInFull(shape)] {
                let seen = column.seen(row);
                assert!(seen >= 15, "{}: {seen}", row.label());
            }
        }
    }
}
