//! Histories of a box: messages one after the other that fill its table, open its ports, restart and move its nodes, announce what is covered or holds lines, and
//! report events.

use crate::gateway::{Gateway, MOST_LINES};

use super::mixes::{Mix, AT_THE_LIMIT, EVEN, FILLING, NESTED, RANGES};
use super::moves::any_move;
use super::nests::{any_nested, any_replacing};
use super::parts::{any_mti, bytes_damaged_at_times, Parts};
use super::questions::event_of;
use super::random::Dice;
use super::restarts::restarts_from_a_start;
use super::witness::Hex;
use super::world::{Area, World};

/// A message at a port.
#[derive(Clone)]
pub struct Arrival {
    pub port: u8,
    pub bytes: Vec<u8>,
}

impl Arrival {
    /// What is asked where the message is put in this way.
    pub fn put(&self, way: &str) -> String {
        let bytes = Hex(self.bytes.clone());
        format!("receive {way} at port {:02X}: {bytes:?}", self.port)
    }
}

/// The longest run of a range that holds few of the events that fill a table.
const SHORT_RUN: usize = 3;

/// A history that is being made.
struct Maker<'a> {
    dice: &'a mut Dice,
    world: World,
    /// The reference's box after the messages so far, whose lines a move is made of.
    gateway: Gateway,
    arrivals: Vec<Arrival>,
}

/// A history of a box with so many ports, at most 900 messages.
pub fn any_history(dice: &mut Dice, ports: u8, automatic: Area) -> Vec<Arrival> {
    let start = started(ports, automatic);
    match dice.weighted(&[40, 15, 15, 15, 15, 25]) {
        0 => {
            let world = any_world(dice, automatic, (1, 4), (1, 12));
            history_in(dice, start, world)
        }
        1 => {
            let world = any_world(dice, automatic, (1, 6), (300, 700));
            full_history(dice, start, world)
        }
        2 => {
            let world = any_world(dice, automatic, (60, 120), (4, 30));
            full_history(dice, start, world)
        }
        3 => {
            let world = any_world(dice, automatic, (1, 3), (1, 6));
            history_of_ranges(dice, start, world)
        }
        4 => {
            let world = any_world(dice, automatic, (1, 3), (1, 6));
            nested_history(dice, start, world, 80)
        }
        _ => {
            let world = any_world(dice, automatic, (1, 6), (1, 12));
            history_of_restarts(dice, start, world)
        }
    }
}

/// The reference's box that is started so.
fn started(ports: u8, automatic: Area) -> Gateway {
    Gateway::start(ports.into(), automatic.number).0
}

/// A world with as many nodes and events as the limits allow.
fn any_world(
    dice: &mut Dice,
    automatic: Area,
    nodes: (usize, usize),
    events: (usize, usize),
) -> World {
    let nodes = dice.between(nodes.0, nodes.1);
    let events = dice.between(events.0, events.1);
    World::new(dice, nodes, events, automatic)
}

/// A short history of everything in a world of the caller's, from a state in bounds on.
pub fn history_in(dice: &mut Dice, from: Gateway, world: World) -> Vec<Arrival> {
    let mut maker = Maker::new(dice, from, world);
    maker.take(EVEN, (1, 60));
    maker.arrivals
}

/// A history of announcements near the lines that are there, at most so long but for a move at its end.
pub fn nested_history(dice: &mut Dice, from: Gateway, world: World, most: usize) -> Vec<Arrival> {
    let mut maker = Maker::new(dice, from, world);
    maker.take(NESTED, (8, most));
    maker.arrivals
}

/// A history that fills the table and goes on from there. Wide ranges come last: they hold what filled the table.
fn full_history(dice: &mut Dice, from: Gateway, mut world: World) -> Vec<Arrival> {
    let longest_run = dice.pick(&[3, 3, 12, 64]);
    world.longest_run = SHORT_RUN;
    let mut maker = Maker::new(dice, from, world);
    maker.fill((220, 420));
    maker.take(AT_THE_LIMIT, (10, 250));
    maker.world.longest_run = longest_run;
    maker.take(AT_THE_LIMIT, (10, 100));
    maker.arrivals
}

/// A history of ranges of every size.
fn history_of_ranges(dice: &mut Dice, from: Gateway, world: World) -> Vec<Arrival> {
    let mut maker = Maker::new(dice, from, world);
    maker.take(RANGES, (5, 150));
    maker.arrivals
}

/// A history of restarts that leave gaps of every shape, and of everything after them.
fn history_of_restarts(dice: &mut Dice, mut from: Gateway, world: World) -> Vec<Arrival> {
    let mut arrivals = restarts_from_a_start(dice, &mut from, &world);
    arrivals.extend(history_in(dice, from, world));
    arrivals
}

/// A history of exactly so many messages, the table full or nearly so in most of it.
pub fn long_history(dice: &mut Dice, ports: u8, automatic: Area, length: usize) -> Vec<Arrival> {
    let mut world = any_world(dice, automatic, (1, 30), (200, 500));
    world.longest_run = SHORT_RUN;
    let mut maker = Maker::new(dice, started(ports, automatic), world);
    let filling = length.min(300);
    maker.fill((filling, filling));
    let rest = length.saturating_sub(maker.arrivals.len());
    maker.take(AT_THE_LIMIT, (rest, rest));
    maker.arrivals.truncate(length);
    maker.arrivals
}

impl<'a> Maker<'a> {
    /// An empty history, from a state in bounds on.
    fn new(dice: &'a mut Dice, from: Gateway, world: World) -> Maker<'a> {
        Maker {
            dice,
            world,
            gateway: from,
            arrivals: Vec::new(),
        }
    }

    /// Adds messages of a mix, their number within the limits, but for a move at the end, which is not cut short.
    fn take(&mut self, mix: Mix, length: (usize, usize)) {
        self.take_until(|_| false, mix, length);
    }

    /// The same, ended earlier where the box has come to a state of that kind.
    fn take_until(&mut self, there: fn(&Gateway) -> bool, mix: Mix, length: (usize, usize)) {
        let end = self.arrivals.len() + self.dice.between(length.0, length.1);
        while self.arrivals.len() < end && !there(&self.gateway) {
            let arrivals = self.next(&mix);
            self.add(arrivals);
        }
    }

    /// Fills the table, at times after a first move; as often as not only until it is full, before a port is opened, and then mostly a line is replaced, and a
    /// board moves.
    fn fill(&mut self, length: (usize, usize)) {
        if self.dice.chance(60) {
            self.move_a_board();
        }
        if self.dice.chance(50) {
            return self.take(FILLING, length);
        }
        self.take_until(|gateway| gateway.lines.len() == MOST_LINES, FILLING, length);
        if self.dice.chance(70) {
            let arrivals = any_replacing(self.dice, &self.gateway);
            self.add(arrivals);
        }
        self.move_a_board();
    }

    /// Adds a move.
    fn move_a_board(&mut self) {
        let arrivals = any_move(self.dice, &self.gateway, &self.world);
        self.add(arrivals);
    }

    /// Adds messages.
    fn add(&mut self, arrivals: Vec<Arrival>) {
        for arrival in &arrivals {
            self.gateway.receive(arrival.port.into(), &arrival.bytes);
        }
        self.arrivals.extend(arrivals);
    }

    /// The next message of a mix, or the messages of a move.
    fn next(&mut self, mix: &Mix) -> Vec<Arrival> {
        let weights = [
            mix.announcement,
            mix.range,
            mix.report,
            mix.restart,
            mix.other,
            mix.repetition,
            mix.moving,
            mix.nested,
        ];
        let parts = match self.dice.weighted(&weights) {
            0 => self.of_any(&[0x04C4, 0x04C5, 0x04C7]),
            1 => self.range(),
            2 => self.report(),
            3 => self.of_any(&[0x0100, 0x0110]),
            4 => self.other(),
            5 => return vec![self.repetition()],
            6 => return any_move(self.dice, &self.gateway, &self.world),
            _ => return vec![any_nested(self.dice, &self.gateway, &self.world)],
        };
        vec![Arrival {
            port: self.port(),
            bytes: bytes_damaged_at_times(self.dice, parts, mix.damaged),
        }]
    }

    /// A message of one of these MTIs.
    fn of_any(&mut self, mtis: &[u16]) -> Parts {
        let mti = self.dice.pick(mtis);
        Parts::of_mti(self.dice, &self.world, mti)
    }

    /// A Consumer Range Identified.
    fn range(&mut self) -> Parts {
        let number = self.world.area(self.dice).number;
        Parts::with_event(self.dice, &self.world, 0x04A4, number)
    }

    /// A report, at times of the event that the message before it had, or of one at the edges of a line.
    fn report(&mut self) -> Parts {
        let mut parts = self.of_any(&[0x05B4, 0x05B4, 0x05B4, 0x0F14]);
        let before = self.arrivals.last().and_then(event_in);
        if before.is_some() && self.dice.chance(30) {
            parts.event = before;
        } else if !self.gateway.lines.is_empty() && self.dice.chance(30) {
            let line = self.dice.pick(&self.gateway.lines);
            parts.event = Some(event_of(self.dice, (line.start, line.k)));
        }
        parts
    }

    /// A message of any MTI.
    fn other(&mut self) -> Parts {
        let mti = any_mti(self.dice);
        Parts::of_mti(self.dice, &self.world, mti)
    }

    /// An earlier message once more, at its port or at another; the first message of all is any.
    fn repetition(&mut self) -> Arrival {
        if self.arrivals.is_empty() {
            let bytes = self.other().bytes();
            return Arrival { port: 0, bytes };
        }
        let place = self.dice.between(0, self.arrivals.len() - 1);
        let mut arrival = self.arrivals[place].clone();
        if self.dice.chance(30) {
            arrival.port = self.port();
        }
        arrival
    }

    /// A port that is there, or at times one that is not.
    fn port(&mut self) -> u8 {
        let ports = self.gateway.ports as u8;
        if self.dice.chance(2) {
            return self.dice.pick(&[ports, ports + 1, 255]);
        }
        self.dice.below(u64::from(ports)) as u8
    }
}

/// The event of a message that has one and no destination; any other message of that length will do as well.
pub fn event_in(arrival: &Arrival) -> Option<u64> {
    let field = arrival.bytes.get(8..16)?;
    field.try_into().ok().map(u64::from_be_bytes)
}

#[cfg(test)]
mod tests {
    use super::*;

    /// A long history is exactly as long as it is to be, moves or not, and any history fits into a trial file with a question behind it.
    #[test]
    fn lengths() {
        for index in 0..100 {
            let mut dice = Dice::of_input(1, 1, index);
            for length in [1, 299, 300, 320, 1_002] {
                let history = long_history(&mut dice, 4, Area::house(), length);
                assert_eq!(history.len(), length);
            }
            let history = any_history(&mut dice, 4, Area::house());
            assert!((1..=900).contains(&history.len()));
        }
    }
}
