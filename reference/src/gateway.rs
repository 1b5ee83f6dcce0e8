//! The gateway of 2 to 8 ports (01-scope, Gateway).

use std::collections::BTreeSet;

use crate::index::{Index, SETS};
use crate::message::{self, Message};
use crate::range::{self, Comparison};
use crate::refusal;

/// The most lines of the table (01-scope, Gateway).
pub const MOST_LINES: usize = 256;
/// How long the lists are that a caller lends: nodes, starts, ports, sizes and order, and the sets of the index (01-scope, Gateway; 02, W6).
pub const LENT_LENGTHS: [usize; 6] = [
    MOST_LINES, MOST_LINES, MOST_LINES, MOST_LINES, MOST_LINES, SETS,
];

/// A line of the table: port, owner's Node ID, block as start and k (01-scope, Gateway).
#[derive(Clone, Copy, Debug, PartialEq, Eq)]
pub struct Line {
    pub port: u32,
    pub node: u64,
    pub start: u64,
    pub k: u32,
}

impl Line {
    /// How the line's block lies to that of another line of the same port and node, nothing where the other is of another port or node (02, W4).
    pub fn against(&self, other: &Line) -> Option<Comparison> {
        if (self.port, self.node) != (other.port, other.node) {
            return None;
        }
        range::compare((self.start, self.k), (other.start, other.k)).ok()
    }

    /// Whether another line of the same port and node is equal to it or holds it (02, W4, "inside a line of the same port and node").
    pub fn is_covered_by(&self, other: &Line) -> bool {
        let lies = self.against(other);
        lies == Some(Comparison::Equal) || lies == Some(Comparison::FirstInside)
    }

    /// Whether it holds another line of the same port and node, which is not equal to it (02, W4, "one that holds such lines").
    pub fn is_over(&self, other: &Line) -> bool {
        self.against(other) == Some(Comparison::SecondInside)
    }
}

/// The state: port count, automatic block, table, open marks (01-scope, Gateway), and the table's index (02, W6), which a given state can have wrong.
#[derive(Clone, Debug, PartialEq, Eq)]
pub struct Gateway {
    pub ports: u32,
    pub automatic: (u64, u32),
    pub lines: Vec<Line>,
    pub open: BTreeSet<u32>,
    pub index: Index,
}

/// What a call answers beside the state: the refusal or 0, and the ports it is sent on to (01-scope, Gateway).
#[derive(Clone, Debug, PartialEq, Eq)]
pub struct Outcome {
    pub refusal: u8,
    pub sent: BTreeSet<u32>,
}

impl Gateway {
    /// Starts a gateway; the second answer is refusal 8 or 0 (01-scope, Refusal numbers, "A start").
    pub fn start(ports: u32, automatic_number: u64) -> (Gateway, u8) {
        let accepted = (2..=8).contains(&ports);
        let gateway = Gateway {
            ports: if accepted { ports } else { 0 },
            automatic: range::block_of(automatic_number),
            lines: Vec::new(),
            open: BTreeSet::new(),
            index: Index::of(&[]),
        };
        let refusal = if accepted {
            refusal::NONE
        } else {
            refusal::PORT
        };
        (gateway, refusal)
    }

    /// Puts other lines in the table's place, with their index (02, W6).
    pub fn set_lines(&mut self, lines: Vec<Line>) {
        self.index = Index::of(&lines);
        self.lines = lines;
    }

    /// Whether the state is in bounds (01-scope, Gateway, "Out of bounds"), its index that of its table (02, W6).
    pub fn in_bounds(&self) -> bool {
        if !(2..=8).contains(&self.ports) {
            return false;
        }
        if self.lines.len() > MOST_LINES {
            return false;
        }
        for line in &self.lines {
            if line.port >= self.ports
                || !message::is_node_id(line.node)
                || !range::is_block(line.start, line.k)
            {
                return false;
            }
        }
        for port in &self.open {
            if *port >= self.ports {
                return false;
            }
        }
        is_automatic_block(self.automatic) && self.index == Index::of(&self.lines)
    }

    /// A message arrives at a port: refusals 7, 8, then reading (01-scope, Refusal numbers, order; Gateway).
    pub fn receive(&mut self, port: u32, bytes: &[u8]) -> Outcome {
        match self.accept(port, bytes) {
            Ok(sent) => Outcome {
                refusal: refusal::NONE,
                sent,
            },
            Err(refusal) => Outcome {
                refusal,
                sent: BTreeSet::new(),
            },
        }
    }

    /// The ports a message is sent on to, with the state changed, or its refusal (01-scope, Gateway).
    fn accept(&mut self, port: u32, bytes: &[u8]) -> Result<BTreeSet<u32>, u8> {
        if !self.in_bounds() {
            return Err(refusal::BOUNDS);
        }
        if port >= self.ports {
            return Err(refusal::PORT);
        }
        let message = message::read(bytes)?;
        let sent = self.ports_for(port, &message);
        if let Some((start, k)) = message::announced_block(&message) {
            self.announce(Line {
                port,
                node: message.source,
                start,
                k,
            });
        }
        if message::is_initialization_complete(&message) {
            self.restart(message.source);
        }
        Ok(sent)
    }

    /// The ports other than the arrival port that get the message (01-scope, Gateway, first point).
    fn ports_for(&self, arrival: u32, message: &Message) -> BTreeSet<u32> {
        let mut sent = BTreeSet::new();
        for port in 0..self.ports {
            if port == arrival {
                continue;
            }
            let wanted = match message::reported_event(message) {
                Some(event) => self.wants(port, event),
                None => true,
            };
            if wanted {
                sent.insert(port);
            }
        }
        sent
    }

    /// Whether a port gets a report of this event (01-scope, Gateway, first point).
    fn wants(&self, port: u32, event: u64) -> bool {
        if holds(self.automatic, event) {
            return true;
        }
        if self.open.contains(&port) {
            return true;
        }
        for line in &self.lines {
            if line.port == port && holds((line.start, line.k), event) {
                return true;
            }
        }
        false
    }

    /// Takes an announcement into the table (01-scope, Gateway, second point, with 02, W4): what is covered changes nothing; the lines that it holds go, the
    /// rest keeping their order, and it stands at the end; the port becomes open where the table is full and no line went.
    fn announce(&mut self, line: Line) {
        if self.lines.iter().any(|other| line.is_covered_by(other)) {
            return;
        }
        let mut lines = self.lines.clone();
        lines.retain(|other| !line.is_over(other));
        if lines.len() < MOST_LINES {
            lines.push(line);
            self.set_lines(lines);
            return;
        }
        self.open.insert(line.port);
    }

    /// Removes one node's lines at every port (02, W2), the rest keeping their order; an open mark stays (01-scope, Gateway, third point).
    fn restart(&mut self, node: u64) {
        let mut kept = Vec::new();
        for line in &self.lines {
            if line.node == node {
                continue;
            }
            kept.push(*line);
        }
        self.set_lines(kept);
    }
}

/// Whether an automatic block may stand: a block, k not 0 (01-scope, Gateway, "Out of bounds").
pub fn is_automatic_block(block: (u64, u32)) -> bool {
    range::is_block(block.0, block.1) && block.1 != 0
}

/// Whether a block in bounds holds the event (01-scope, Ranges).
pub fn holds(block: (u64, u32), event: u64) -> bool {
    range::contains(block.0, block.1, event) == Ok(true)
}

#[cfg(test)]
mod tests {
    mod covers;
    mod moves;
    mod sets;

    use super::*;
    use crate::message::{has_destination, has_event, node_id_bytes};

    const HOUSE: u64 = 0x010000000000FFFF;
    const EVENT: u64 = 0x0A00000000010001;

    fn message(mti: u16, source: u64, event: u64) -> Vec<u8> {
        let header = Message {
            mti,
            source,
            destination: has_destination(mti).then_some(9),
            event: has_event(mti).then_some(event),
        };
        let content = match mti {
            0x0100 | 0x0110 => node_id_bytes(source),
            0x0F14 => vec![1],
            _ => Vec::new(),
        };
        message::write(&header, &content, 1000).unwrap()
    }

    fn gateway(ports: u32) -> Gateway {
        let (gateway, refusal) = Gateway::start(ports, HOUSE);
        assert_eq!(refusal, 0);
        gateway
    }

    fn sent(gateway: &mut Gateway, port: u32, bytes: &[u8]) -> Vec<u32> {
        let outcome = gateway.receive(port, bytes);
        assert_eq!(outcome.refusal, 0);
        outcome.sent.into_iter().collect()
    }

    /// 01-scope, Refusal numbers, 8 and "A start gives".
    #[test]
    fn starts() {
        for ports in [0, 1, 9, 10, u32::MAX] {
            let (mut gateway, refusal) = Gateway::start(ports, HOUSE);
            assert_eq!(refusal, 8);
            assert_eq!(gateway.ports, 0);
            assert_eq!(gateway.automatic, (0x0100000000000000, 16));
            assert_eq!(gateway.receive(0, &message(0x05B4, 1, EVENT)).refusal, 7);
        }
        for ports in 2..=8 {
            let (gateway, refusal) = Gateway::start(ports, 0);
            assert_eq!((refusal, gateway.ports), (0, ports));
            assert_eq!(gateway.automatic, (0, 64));
            assert!(gateway.lines.is_empty() && gateway.open.is_empty() && gateway.in_bounds());
        }
    }

    /// 01-scope, Refusal numbers: port 7 of 8 accepted, 8 is 8; order 7, 8, reading.
    #[test]
    fn order_of_refusals() {
        let mut eight = gateway(8);
        assert_eq!(eight.receive(7, &message(0x05B4, 1, EVENT)).refusal, 0);
        assert_eq!(eight.receive(8, &message(0x05B4, 1, EVENT)).refusal, 8);
        assert_eq!(eight.receive(8, &[]).refusal, 8);
        assert_eq!(eight.receive(7, &[]).refusal, 1);
        assert_eq!(eight.receive(7, &[0x0F, 0x16]).refusal, 2);
        eight.open.insert(8);
        let before = eight.clone();
        assert_eq!(eight.receive(8, &[]).refusal, 7);
        assert_eq!(eight, before);
    }

    /// 01-scope, Gateway, "Out of bounds".
    #[test]
    fn bounds() {
        let good = Line {
            port: 1,
            node: 5,
            start: 4,
            k: 2,
        };
        let mut equal = gateway(4);
        equal.set_lines(vec![good; 256]);
        assert!(equal.in_bounds());
        equal.set_lines(vec![good; 257]);
        assert!(!equal.in_bounds());
        for bad in [
            Line { port: 4, ..good },
            Line { node: 0, ..good },
            Line {
                node: 1 << 48,
                ..good
            },
            Line { k: 65, ..good },
            Line { k: 3, ..good },
        ] {
            let mut gateway = gateway(4);
            gateway.set_lines(vec![good, bad]);
            assert!(!gateway.in_bounds());
        }
        for block in [(0, 0), (0, 65), (1, 1)] {
            let mut gateway = gateway(4);
            gateway.automatic = block;
            assert!(!gateway.in_bounds());
        }
    }

    /// 01-scope, Gateway, first point: reports by block, the rest to all ports but the arrival port.
    #[test]
    fn forwarding() {
        let mut four = gateway(4);
        assert!(sent(&mut four, 0, &message(0x05B4, 9, EVENT)).is_empty());
        assert!(sent(&mut four, 0, &message(0x0F14, 9, EVENT)).is_empty());
        assert_eq!(
            sent(&mut four, 0, &message(0x05B4, 9, 0x010000000000FFFF)),
            [1, 2, 3]
        );
        assert!(sent(&mut four, 0, &message(0x05B4, 9, 0x0100000000010000)).is_empty());
        for mti in [0x0970, 0x0968, 0x0594, 0x0914, 0x0544, 0x0524, 0x0490] {
            assert_eq!(sent(&mut four, 2, &message(mti, 9, EVENT)), [0, 1, 3]);
            assert!(four.lines.is_empty());
        }
        assert_eq!(sent(&mut four, 3, &message(0x04A4, 9, 4)), [0, 1, 2]);
        assert_eq!(sent(&mut four, 0, &message(0x05B4, 9, 7)), [3]);
        assert!(sent(&mut four, 3, &message(0x05B4, 9, 7)).is_empty());
        assert!(sent(&mut four, 0, &message(0x05B4, 9, 8)).is_empty());
    }

    /// 01-scope, Traps: two boards on one leg; 04C6 announces nothing; the three others do. 02, W2: the restart at port 1 takes the line at port 2 too.
    #[test]
    fn traps() {
        let mut four = gateway(4);
        sent(&mut four, 1, &message(0x04C4, 7, EVENT));
        sent(&mut four, 1, &message(0x04C5, 9, EVENT));
        sent(&mut four, 2, &message(0x04C7, 7, EVENT));
        sent(&mut four, 3, &message(0x04C6, 7, EVENT));
        assert_eq!(four.lines.len(), 3);
        sent(&mut four, 1, &message(0x04C7, 7, EVENT));
        assert_eq!(four.lines.len(), 3);
        assert_eq!(sent(&mut four, 0, &message(0x05B4, 1, EVENT)), [1, 2]);
        sent(&mut four, 1, &message(0x0100, 7, 0));
        assert_eq!(sent(&mut four, 0, &message(0x05B4, 1, EVENT)), [1]);
        let left = Line {
            port: 1,
            node: 9,
            start: EVENT,
            k: 0,
        };
        assert_eq!(four.lines, [left]);
        sent(&mut four, 1, &message(0x0110, 9, 0));
        assert!(sent(&mut four, 0, &message(0x05B4, 1, EVENT)).is_empty());
        assert!(four.lines.is_empty());
    }

    /// 01-scope, Gateway, second point, and Ranges: 0 and all ones announce the same line.
    #[test]
    fn whole_space_line() {
        let mut two = gateway(2);
        sent(&mut two, 1, &message(0x04A4, 7, 0));
        sent(&mut two, 1, &message(0x04A4, 7, u64::MAX));
        assert_eq!(two.lines.len(), 1);
        assert_eq!(sent(&mut two, 0, &message(0x05B4, 1, u64::MAX)), [1]);
        assert_eq!(sent(&mut two, 0, &message(0x05B4, 1, 0)), [1]);
    }

    /// 01-scope, Gateway, second and third points: full table, open mark, lines used again. 02, W2: the last restart takes a line at another port.
    #[test]
    fn full_table() {
        let mut four = gateway(4);
        for event in 0..256 {
            sent(&mut four, 1, &message(0x04C4, 7 + event % 2, EVENT + event));
        }
        assert_eq!((four.lines.len(), four.open.len()), (256, 0));
        let full = four.lines.clone();
        sent(&mut four, 1, &message(0x04C4, 7, EVENT));
        assert!(four.open.is_empty());
        assert_eq!(sent(&mut four, 2, &message(0x04C4, 9, 5)), [0, 1, 3]);
        assert_eq!(four.open, BTreeSet::from([2]));
        assert_eq!(four.lines, full);
        assert_eq!(sent(&mut four, 0, &message(0x05B4, 1, 12345)), [2]);
        sent(&mut four, 1, &message(0x0100, 7, 0));
        assert_eq!(four.lines.len(), 128);
        assert_eq!(four.open, BTreeSet::from([2]));
        assert!(four.lines.iter().all(|line| line.node == 8));
        sent(&mut four, 3, &message(0x04C4, 9, 5));
        assert_eq!(four.lines.len(), 129);
        assert_eq!(four.lines[128].port, 3);
        sent(&mut four, 2, &message(0x0100, 9, 0));
        assert_eq!(four.lines.len(), 128);
        assert_eq!(four.open, BTreeSet::from([2]));
    }

    /// A small generator for the random histories below.
    struct Dice(u64);

    impl Dice {
        fn roll(&mut self, below: u64) -> u64 {
            self.0 ^= self.0 << 13;
            self.0 ^= self.0 >> 7;
            self.0 ^= self.0 << 17;
            (self.0 >> 11) % below
        }
    }

    /// 00-order, demand 3 with 02, W2 and W4, and 01-scope, Gateway: live taken from the accepted messages alone; from a start no line of a port and node lies
    /// inside another.
    #[test]
    fn demand_three() {
        let mut dice = Dice(88172645463325252);
        let (mut openings, mut moves, mut replaced) = (0, 0, 0);
        for _ in 0..30 {
            let mut gateway = gateway(4);
            let mut accepted: Vec<(u32, Vec<u8>)> = Vec::new();
            let mut opened: BTreeSet<u32> = BTreeSet::new();
            let spread = if dice.roll(2) == 0 { 12 } else { 600 };
            for _ in 0..700 {
                let port = dice.roll(5) as u32;
                let node = 1 + dice.roll(3);
                let event = EVENT + dice.roll(spread);
                let mti = match dice.roll(12) {
                    0 if dice.roll(20) == 0 => [0x0100, 0x0110][dice.roll(2) as usize],
                    1 => 0x04A4,
                    2 => 0x04C6,
                    3 => 0x05B4,
                    4 => 0x0F14,
                    5 => 0x0544,
                    6 => 0x04C5,
                    7 => 0x04C7,
                    _ => 0x04C4,
                };
                let mut bytes = message(mti, node, event);
                if dice.roll(10) == 0 {
                    bytes.pop();
                }
                let before = gateway.clone();
                let outcome = gateway.receive(port, &bytes);
                if outcome.refusal != 0 {
                    assert_eq!(gateway, before);
                    assert!(outcome.sent.is_empty());
                    continue;
                }
                if (mti == 0x05B4) || (mti == 0x0F14) {
                    for other in (0..4).filter(|other| *other != port) {
                        let kept_out = !live(&accepted, other, event) && !opened.contains(&other);
                        assert_eq!(outcome.sent.contains(&other), !kept_out);
                    }
                    assert_eq!(gateway, before);
                }
                let read = message::read(&bytes).unwrap();
                if let Some((start, k)) = message::announced_block(&read) {
                    let line = Line {
                        port,
                        node,
                        start,
                        k,
                    };
                    let near = |other: &Line| line.is_covered_by(other) || line.is_over(other);
                    let new = !before.lines.iter().any(near);
                    if new && before.lines.len() == 256 {
                        opened.insert(port);
                        openings += 1;
                    }
                    replaced += u32::from(before.lines.iter().any(|other| line.is_over(other)));
                }
                assert_eq!(gateway.open, opened);
                if message::is_initialization_complete(&read) {
                    let elsewhere = |line: &Line| line.node == node && line.port != port;
                    moves += u32::from(before.lines.iter().any(elsewhere));
                }
                accepted.push((port, bytes));
            }
            assert!(covers::is_tidy(&gateway));
        }
        assert!(openings > 0 && moves > 30 && replaced > 30);
    }

    /// Whether an announcement at the port is live for the event, from the messages alone (00-order, demand 3; 02, W2, "at any port").
    fn live(accepted: &[(u32, Vec<u8>)], port: u32, event: u64) -> bool {
        for (place, (at, bytes)) in accepted.iter().enumerate() {
            let message = message::read(bytes).unwrap();
            let Some(block) = message::announced_block(&message) else {
                continue;
            };
            if *at != port || !holds(block, event) {
                continue;
            }
            let restarted = accepted[place + 1..].iter().any(|(_, bytes)| {
                let complete = message::read(bytes).unwrap();
                message::is_initialization_complete(&complete) && complete.source == message.source
            });
            if !restarted {
                return true;
            }
        }
        false
    }
}
