//! The box with the index of W6 as one writes it without proofs: lines and index changed in place, nothing allocated and nothing sorted anew.

use reference::index::{SETS, WHOLE_SPACE};
use reference::refusal;

use crate::quick::{block_of, holds, low_bits, take_apart, Kind, Reading, MOST_LINES};
use crate::quick_trial::PlainBox;

/// The k of the whole space.
pub const WHOLE_K: u8 = 64;
/// How many places are looked at one by one before the rest is halved.
const NEAR: usize = 4;
/// Above every number of a line.
const STAYS: u16 = MOST_LINES as u16;

#[derive(Clone, Copy)]
pub struct Gateway {
    pub ports: u8,
    pub marks: u8,
    pub automatic: (u64, u8),
    pub count: usize,
    pub nodes: [u64; MOST_LINES],
    pub starts: [u64; MOST_LINES],
    /// Port and k in one number, by which the index is sorted first.
    pub kinds: [u16; MOST_LINES],
    pub order: [u8; MOST_LINES],
    pub sets: [u64; SETS],
}

/// A port and a k in one number.
pub fn kind_of(port: u8, k: u8) -> u16 {
    u16::from_le_bytes([k, port])
}

/// The set that tells of a size, and its bit there.
fn bit_of(kind: u16) -> (usize, u64) {
    let [k, port] = kind.to_le_bytes();
    match k {
        WHOLE_K => (WHOLE_SPACE, 1 << port),
        _ => (port.into(), 1 << (k & 63)),
    }
}

impl PlainBox for Gateway {
    fn start(ports: u8, automatic: u64) -> Gateway {
        Gateway {
            ports,
            marks: 0,
            automatic: block_of(automatic),
            count: 0,
            nodes: [0; MOST_LINES],
            starts: [0; MOST_LINES],
            kinds: [0; MOST_LINES],
            order: [0; MOST_LINES],
            sets: [0; SETS],
        }
    }

    #[inline(never)]
    fn receive(&mut self, port: u8, bytes: &[u8], check: bool) -> (u8, u8) {
        match self.accept(port, bytes, check) {
            Ok(sent) => (refusal::NONE, sent),
            Err(refusal) => (refusal, 0),
        }
    }

    fn count(&self) -> usize {
        self.count
    }
}

impl Gateway {
    /// The message is read before the state is tested, so that one pass over the index tests it and looks a report up.
    fn accept(&mut self, port: u8, bytes: &[u8], check: bool) -> Result<u8, u8> {
        let read = take_apart(bytes);
        let event = reported_event(&read);
        let mut holding = 0;
        if check {
            let tested = match event {
                Some(event) => self.tested::<true>(event),
                None => self.tested::<false>(0),
            };
            holding = tested.ok_or(refusal::BOUNDS)?;
        }
        if port >= self.ports {
            return Err(refusal::PORT);
        }
        let Reading { kind, message, .. } = read?;
        let others = low_bits(self.ports) as u8 & !(1 << port);
        match (kind, message.event) {
            (Kind::Report | Kind::ReportWithPayload, Some(event)) => {
                let (start, k) = self.automatic;
                if holds(start, k, event) {
                    return Ok(others);
                }
                if !check {
                    holding = self.looked_up(event, others & !self.marks);
                }
                return Ok((holding | self.marks) & others);
            }
            (Kind::ConsumerIdentified, Some(event)) => {
                self.announce(port, message.source, (event, 0));
            }
            (Kind::ConsumerRangeIdentified, Some(number)) => {
                self.announce(port, message.source, block_of(number));
            }
            (Kind::InitializationComplete, _) => self.restart(message.source),
            _ => {}
        }
        Ok(others)
    }

    /// Those of these ports that have a line that holds the event: size by size, each a search for the event's prefix behind the one before.
    fn looked_up(&self, event: u64, ports: u8) -> u8 {
        let mut holding = ports & self.sets[WHOLE_SPACE] as u8;
        let mut from = 0;
        for port in 0..self.ports {
            if (ports & !holding) >> port & 1 == 0 {
                continue;
            }
            let mut sizes = self.sets[usize::from(port)];
            while sizes != 0 {
                let k = sizes.trailing_zeros() as u8;
                sizes &= sizes - 1;
                let (kind, prefix) = (kind_of(port, k), event & !low_bits(k));
                from = self.next_not_below(from, kind, prefix);
                if self.is_at(from, kind, prefix) {
                    holding |= 1 << port;
                    break;
                }
            }
        }
        holding
    }

    /// The first place of the index, from one on, whose line is not below this size and first event.
    fn first_not_below(&self, from: usize, kind: u16, start: u64) -> usize {
        let (mut from, mut left) = (from, self.count - from);
        while left > 0 {
            let half = left / 2;
            let is_below = self.is_below(from + half, kind, start);
            from = if is_below { from + half + 1 } else { from };
            left = if is_below { left - half - 1 } else { half };
        }
        from
    }

    fn is_below(&self, place: usize, kind: u16, start: u64) -> bool {
        let line = usize::from(self.order[place & (MOST_LINES - 1)]);
        (self.kinds[line], self.starts[line]) < (kind, start)
    }

    /// The same where it is mostly near: among the next few places first.
    fn next_not_below(&self, from: usize, kind: u16, start: u64) -> usize {
        let near = from + NEAR;
        if near >= self.count || self.is_below(near, kind, start) {
            return self.first_not_below(from, kind, start);
        }
        (from..near)
            .find(|place| !self.is_below(*place, kind, start))
            .unwrap_or(near)
    }

    /// Whether the line in a place of the index is of this size and first event.
    fn is_at(&self, place: usize, kind: u16, start: u64) -> bool {
        self.order[..self.count].get(place).is_some_and(|number| {
            let line = usize::from(*number);
            (self.kinds[line], self.starts[line]) == (kind, start)
        })
    }

    fn announce(&mut self, port: u8, node: u64, (start, k): (u64, u8)) {
        let kind = kind_of(port, k);
        let above = !low_bits(k);
        // The lines are changed only once none covers it.
        let mut first_held = self.count;
        for (place, other) in self.nodes[..self.count].iter().enumerate() {
            let [other_k, other_port] = self.kinds[place].to_le_bytes();
            if *other == node && other_port == port {
                let other_start = self.starts[place];
                if other_k < k {
                    if other_start & above == start {
                        first_held = first_held.min(place);
                    }
                } else if holds(other_start, other_k, start) {
                    return;
                }
            }
        }
        if first_held < self.count {
            // None covers it, so every line of its port and node that begins inside it is held.
            self.remove(first_held, |other, other_start, other_kind| {
                other == node && other_kind >> 8 == kind >> 8 && other_start & above == start
            });
        }
        if self.count == MOST_LINES {
            self.marks |= 1 << port;
            return;
        }
        self.add(node, start, kind);
    }

    /// Adds a line, and its number behind those of its size and first event, all of which are lower.
    fn add(&mut self, node: u64, start: u64, kind: u16) {
        let number = self.count;
        let place = match start.checked_add(1) {
            Some(next) => self.first_not_below(0, kind, next),
            None => self.first_not_below(0, kind + 1, 0),
        };
        self.order.copy_within(place..number, place + 1);
        self.order[place] = number as u8;
        self.nodes[number] = node;
        self.starts[number] = start;
        self.kinds[number] = kind;
        self.count = number + 1;
        let (set, bit) = bit_of(kind);
        self.sets[set] |= bit;
    }

    fn restart(&mut self, node: u64) {
        let lines = &self.nodes[..self.count];
        if let Some(first_gone) = first_of(node, lines) {
            self.remove(first_gone, |other, _, _| other == node);
        }
    }

    /// Takes lines out, the first of them at a place. Every survivor behind it moves once; one pass over the index takes the numbers out and lowers the others.
    #[inline(always)]
    fn remove(&mut self, first_gone: usize, goes: impl Fn(u64, u64, u16) -> bool) {
        let count = self.count;
        // Of each number what it becomes, and above that 1 where its line stays.
        let mut lowered: [u16; MOST_LINES] = std::array::from_fn(|number| STAYS | number as u16);
        let mut gone_sets = [0; SETS];
        let mut kept = first_gone;
        for (place, new_number) in (first_gone..).zip(&mut lowered[first_gone..count]) {
            let (node, start, kind) = (self.nodes[place], self.starts[place], self.kinds[place]);
            if goes(node, start, kind) {
                *new_number = 0;
                let (set, bit) = bit_of(kind);
                gone_sets[set] |= bit;
            } else {
                self.nodes[kept] = node;
                self.starts[kept] = start;
                self.kinds[kept] = kind;
                *new_number = STAYS | kept as u16;
                kept += 1;
            }
        }
        let mut numbers = 0;
        for place in 0..count {
            let number = lowered[usize::from(self.order[place])];
            self.order[numbers & (MOST_LINES - 1)] = number as u8;
            numbers += usize::from(number / STAYS);
        }
        self.count = kept;
        self.take_out_of_sets(&gone_sets);
    }

    /// Takes those of the sizes out of the sets that no line has any more.
    fn take_out_of_sets(&mut self, sizes: &[u64; SETS]) {
        for (set, mut left) in sizes.iter().copied().enumerate() {
            while left != 0 {
                let bit = left.trailing_zeros() as u8;
                left &= left - 1;
                let kind = match set {
                    WHOLE_SPACE => kind_of(bit, WHOLE_K),
                    _ => kind_of(set as u8, bit),
                };
                let place = self.first_not_below(0, kind, 0);
                let number = self.order[..self.count].get(place);
                if number.is_none_or(|number| self.kinds[usize::from(*number)] != kind) {
                    self.sets[set] &= !(1 << bit);
                }
            }
        }
    }
}

/// The event of a report that could be read.
fn reported_event(read: &Result<Reading, u8>) -> Option<u64> {
    match read {
        Ok(reading) if matches!(reading.kind, Kind::Report | Kind::ReportWithPayload) => {
            reading.message.event
        }
        _ => None,
    }
}

/// The place of a node's first line, eight to a step.
fn first_of(node: u64, nodes: &[u64]) -> Option<usize> {
    let (eights, rest) = nodes.as_chunks::<8>();
    for (step, eight) in eights.iter().enumerate() {
        if let Some(within) = eight.iter().position(|other| *other == node) {
            return Some(8 * step + within);
        }
    }
    let within = rest.iter().position(|other| *other == node)?;
    Some(8 * eights.len() + within)
}
