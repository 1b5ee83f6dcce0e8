//! Boards that are carried to another leg (02, W2): the messages of one move, made of what the table holds, and the rows of moves.

use crate::gateway::{Gateway, Line, MOST_LINES};
use crate::range;

use super::histories::Arrival;
use super::parts::{bytes_damaged_at_times, Parts};
use super::random::Dice;
use super::world::{low_bits, near_node, World};

/// What a restart can be beside that removes lines at another port than its own.
#[derive(Clone, Copy, PartialEq, Eq, PartialOrd, Ord, Debug)]
pub enum Move {
    FullTable,
    OpenPort,
    SeveralPorts,
    ThreePorts,
    NoLineAtItsPort,
    NextNodeId,
    SameLowBits,
}

impl Move {
    /// All of them, in the order of the table.
    pub const ALL: [Move; 7] = [
        Move::FullTable,
        Move::OpenPort,
        Move::SeveralPorts,
        Move::ThreePorts,
        Move::NoLineAtItsPort,
        Move::NextNodeId,
        Move::SameLowBits,
    ];

    /// What its row is called.
    pub fn label(self) -> &'static str {
        match self {
            Move::FullTable => "moved with a full table",
            Move::OpenPort => "moved with an open port",
            Move::SeveralPorts => "restarts that removed lines at several ports",
            Move::ThreePorts => "restarts that removed lines at three or more",
            Move::NoLineAtItsPort => "moved to a port without a line of the node",
            Move::NextNodeId => "moved beside lines of the next Node ID",
            Move::SameLowBits => "moved beside lines of the same low 40 bits",
        }
    }
}

/// How many of its announcements a board makes anew at most.
const ANEW: [usize; 3] = [4, 24, 64];

/// A board with a line at a port, the port where it comes up, and a third one where its events are reported.
struct Moved {
    node: u64,
    from: u8,
    to: u8,
    third: u8,
    /// What the board has announced at any port, as start and k: first of all that line's block.
    blocks: Vec<(u64, u32)>,
}

/// A board with lines comes up at another port, mostly announces there what it had announced, and reports of it follow at a third port.
pub fn any_move(dice: &mut Dice, gateway: &Gateway, world: &World) -> Vec<Arrival> {
    let moved = Moved::any(dice, gateway, world);
    let mut arrivals = moved.before(dice, gateway);
    arrivals.push(moved.restart(dice));
    if dice.chance(30) {
        arrivals.extend(moved.reports(dice));
    }
    if dice.chance(85) {
        arrivals.extend(moved.announcements(dice));
    }
    arrivals.extend(moved.reports(dice));
    arrivals
}

impl Moved {
    /// A move of a board of one of the lines, or of any board where there is none.
    fn any(dice: &mut Dice, gateway: &Gateway, world: &World) -> Moved {
        let ports = gateway.ports as u8;
        let line = match gateway.lines.is_empty() {
            true => Line {
                port: dice.below(ports.into()) as u32,
                node: world.node(dice),
                start: world.event(dice),
                k: 0,
            },
            false => dice.pick(&gateway.lines),
        };
        let from = line.port as u8;
        let to = another_port(dice, ports, &[from]);
        let third = another_port(dice, ports, &[from, to]);
        let others = gateway.lines.iter().filter(|other| **other != line);
        let own = others.filter(|other| other.node == line.node);
        let blocks = [&line].into_iter().chain(own);
        Moved {
            node: line.node,
            from,
            to,
            third,
            blocks: blocks.map(|line| (line.start, line.k)).collect(),
        }
    }

    /// The line that there is to be, once more where it is there; where there is room, also lines of the board and of near Node IDs, at any ports.
    fn before(&self, dice: &mut Dice, gateway: &Gateway) -> Vec<Arrival> {
        let mut arrivals = vec![announcement(dice, self.from, self.node, self.blocks[0])];
        let most = if gateway.lines.len() < MOST_LINES {
            4
        } else {
            0
        };
        for _ in 0..dice.between(0, most) {
            let port = dice.below(gateway.ports.into()) as u8;
            let near = near_node(dice, self.node);
            let node = dice.pick(&[self.node, near]);
            let block = dice.pick(&self.blocks);
            arrivals.push(announcement(dice, port, node, block));
        }
        arrivals
    }

    /// The board comes up at its new port, seldom with a message that is damaged.
    fn restart(&self, dice: &mut Dice) -> Arrival {
        let parts = Parts::restart(dice, self.node, self.node);
        Arrival {
            port: self.to,
            bytes: bytes_damaged_at_times(dice, parts, 4),
        }
    }

    /// It announces at its new port what it had announced.
    fn announcements(&self, dice: &mut Dice) -> Vec<Arrival> {
        let most = dice.pick(&ANEW);
        let blocks = self.blocks.iter().take(most);
        blocks
            .map(|block| announcement(dice, self.to, self.node, *block))
            .collect()
    }

    /// Reports of the first of its blocks, each of the first event or of the last.
    fn reports(&self, dice: &mut Dice) -> Vec<Arrival> {
        let count = dice.between(1, 3);
        let mut arrivals = Vec::new();
        for (start, k) in self.blocks.iter().take(count) {
            let event = dice.pick(&[*start, start | low_bits(*k)]);
            let source = near_node(dice, self.node);
            arrivals.push(with_event(self.third, 0x05B4, source, event));
        }
        arrivals
    }
}

/// A port that is none of these; the first of them where there is no other.
fn another_port(dice: &mut Dice, ports: u8, taken: &[u8]) -> u8 {
    let left: Vec<u8> = (0..ports).filter(|port| !taken.contains(port)).collect();
    match left.is_empty() {
        true => taken[0],
        false => dice.pick(&left),
    }
}

/// The announcement of a block, by its range number where it has one, every event by either of its two.
pub fn announcement(dice: &mut Dice, port: u8, node: u64, (start, k): (u64, u32)) -> Arrival {
    match range::number_of(start, k) {
        Some(u64::MAX) => with_event(port, 0x04A4, node, dice.pick(&[0, u64::MAX])),
        Some(number) => with_event(port, 0x04A4, node, number),
        None => with_event(port, dice.pick(&[0x04C4, 0x04C5, 0x04C7]), node, start),
    }
}

/// A message at a port that has an event and nothing more.
pub fn with_event(port: u8, mti: u16, source: u64, event: u64) -> Arrival {
    let parts = Parts {
        mti,
        source,
        destination: None,
        event: Some(event),
        content: Vec::new(),
    };
    Arrival {
        port,
        bytes: parts.bytes(),
    }
}

#[cfg(test)]
mod tests {
    use super::super::counts::Column;
    use super::super::observed;
    use super::super::rows::Row;
    use super::super::world::Area;
    use super::*;

    /// A box with so many lines of one event, eight to a node, at all of its ports in turn.
    fn with_lines(ports: u32, count: usize) -> Gateway {
        let (mut gateway, _) = Gateway::start(ports, Area::house().number);
        let line = |place| Line {
            port: place as u32 % ports,
            node: 0x0A00_0000_0001 + place as u64 / 8,
            start: place as u64,
            k: 0,
        };
        gateway.set_lines((0..count).map(line).collect());
        gateway
    }

    /// Nearly every move is one, whatever the table holds: lines at another port go, and mostly the last report goes to the new port.
    #[test]
    fn boards_move() {
        let mut dice = Dice::of_input(1, 1, 1);
        let world = World::new(&mut dice, 2, 4, Area::house());
        for (ports, count) in [(2, 0), (8, 0), (2, 1), (4, 3), (4, 200), (8, 256)] {
            let mut column = Column::default();
            let mut sent = 0;
            for _ in 0..100 {
                let mut gateway = with_lines(ports, count);
                let arrivals = any_move(&mut dice, &gateway, &world);
                column.saw_input();
                let mut last = Default::default();
                for arrival in &arrivals {
                    last = observed::receive(&mut gateway, arrival, &mut column).sent;
                }
                let is_restart = |arrival: &&Arrival| arrival.bytes.starts_with(&[0x01]);
                let restart = arrivals.iter().find(is_restart);
                sent += usize::from(restart.is_some_and(|it| last.contains(&it.port.into())));
                assert!(gateway.in_bounds() && arrivals.len() <= 80);
            }
            assert!(column.seen(Row::BoardMoved) >= 90);
            assert!(sent >= 60);
            let full = column.seen(Row::Moved(Move::FullTable));
            assert_eq!(full >= 90, count == MOST_LINES);
        }
    }

    /// Every port that is not taken comes up, and the first that is taken where there is no other.
    #[test]
    fn another_port_than_these() {
        let mut dice = Dice::of_input(1, 1, 1);
        for _ in 0..50 {
            assert!([0, 2].contains(&another_port(&mut dice, 3, &[1])));
            assert_eq!(another_port(&mut dice, 3, &[2, 1]), 0);
            assert_eq!(another_port(&mut dice, 2, &[1, 0]), 1);
        }
    }
}
