//! The case files of the box (CASE-FILES; the box is that of 01-scope, Gateway).

use crate::case_file::{places, text_of, Case};
use crate::gateway::{Gateway, Line, Outcome, LENT_LENGTHS, MOST_LINES};
use crate::index::{Index, SETS};
use crate::refusal;
use crate::why::Reason;

/// Of a longer table not every line is printed (CASE-FILES).
const SHORT: usize = 8;
/// A place that was not laid out.
const NOTHING: Line = Line {
    port: 0,
    node: 0,
    start: 0,
    k: 0,
};

/// A state as it is laid out: the count may pass the places (CASE-FILES).
#[derive(Clone, Debug, PartialEq, Eq)]
struct Bench {
    ports: u8,
    marks: u8,
    automatic: (u64, u32),
    count: u64,
    places: Vec<Line>,
    order: [u8; MOST_LINES],
    sets: [u64; SETS],
}

/// The text of a case file of the box (CASE-FILES).
pub fn gateway_cases_text(file: &[u8]) -> Vec<u8> {
    let mut bench = laid_out(0, 0, (0, 0), 0);
    text_of(file, |case| obey(&mut bench, case))
}

/// Does what a line says and gives its answer, nothing where there is no such command (CASE-FILES).
fn obey(bench: &mut Bench, case: &Case) -> Option<String> {
    match (case.name.as_str(), &case.numbers[..], &case.message) {
        ("star", &[ports, number], None) => Some(bench.start(ports as u8, number)),
        ("box", &[ports, marks, start, k, count], None) => {
            *bench = laid_out(ports as u8, marks as u8, (start, u32::from(k as u8)), count);
            Some(String::new())
        }
        ("line", &[first, last, stride, port, node, start, k, step], None) => {
            let mut line = Line {
                port: u32::from(port as u8),
                node,
                start,
                k: u32::from(k as u8),
            };
            for place in places(MOST_LINES as u64, first, last, stride) {
                bench.places[place] = line;
                line.start = line.start.wrapping_add(step);
            }
            bench.lay_out_index();
            Some(String::new())
        }
        ("orde", &[place, number], None) => {
            bench.order[place as usize % MOST_LINES] = number as u8;
            Some(String::new())
        }
        ("sets", &[place, set], None) => {
            bench.sets[place as usize % SETS] = set;
            Some(String::new())
        }
        ("at", &[port], Some(message)) => Some(bench.receive(1, port as u8, message)),
        ("repe", &[times, port], Some(message)) => Some(bench.receive(times, port as u8, message)),
        ("lent", &[nodes, starts, ports, sizes, order, sets, port], Some(message)) => {
            if lent([nodes, starts, ports, sizes, order, sets]) == LENT_LENGTHS {
                return Some(bench.receive(1, port as u8, message));
            }
            Some(bench.told(&refused(refusal::BOUNDS), ", kept") + &bench.index_line())
        }
        ("why", &[port, asked], Some(message)) => {
            Some(bench.why(LENT_LENGTHS, port as u8, asked as u8, message))
        }
        ("why", &[nodes, starts, ports, sizes, order, sets, port, asked], Some(message)) => {
            let lengths = lent([nodes, starts, ports, sizes, order, sets]);
            Some(bench.why(lengths, port as u8, asked as u8, message))
        }
        _ => None,
    }
}

/// How many places of each list are lent: a number past the most of a list is taken modulo one more than that (CASE-FILES, `lent`).
fn lent(numbers: [u64; 6]) -> [usize; 6] {
    let most = [256, 257, 256, 256, 256, 9];
    std::array::from_fn(|list| (numbers[list] % (most[list] + 1)) as usize)
}

/// A state with no line in any place (CASE-FILES, `box`).
fn laid_out(ports: u8, marks: u8, automatic: (u64, u32), count: u64) -> Bench {
    let mut bench = Bench {
        ports,
        marks,
        automatic,
        count,
        places: vec![NOTHING; MOST_LINES],
        order: [0; MOST_LINES],
        sets: [0; SETS],
    };
    bench.lay_out_index();
    bench
}

/// An answer that is a refusal alone (01-scope, Refusal numbers).
fn refused(number: u8) -> Outcome {
    Outcome {
        refusal: number,
        sent: Default::default(),
    }
}

impl Bench {
    /// How many of the 256 places the count takes.
    fn used(&self) -> usize {
        self.count.min(MOST_LINES as u64) as usize
    }

    /// The index of the lines as they stand, and 0 from there on (CASE-FILES, `box` and `lines`; 02, W6).
    fn lay_out_index(&mut self) {
        let index = Index::of(&self.places[..self.used()]);
        self.order = [0; MOST_LINES];
        self.take_index(&index);
    }

    /// Takes over an index; the places past it stay.
    fn take_index(&mut self, index: &Index) {
        for (place, number) in index.order.iter().enumerate() {
            self.order[place] = *number as u8;
        }
        self.sets = index.sets;
    }

    /// The lines that are part of the state; past the places there is a line more than a table has (01-scope, Gateway).
    fn lines(&self) -> Vec<Line> {
        let mut lines = self.places.clone();
        lines.push(NOTHING);
        lines.truncate(self.count.min(lines.len() as u64) as usize);
        lines
    }

    /// Starts anew (01-scope, Refusal numbers, "A start").
    fn start(&mut self, ports: u8, number: u64) -> String {
        let (gateway, refusal) = Gateway::start(u32::from(ports), number);
        *self = laid_out(0, 0, gateway.automatic, 0);
        self.take(&gateway);
        self.told(&refused(refusal), "")
    }

    /// The message so many times, its last byte one more each time (CASE-FILES, `repeat`).
    fn receive(&mut self, times: u64, port: u8, message: &[u8]) -> String {
        let before = self.total_of_all_places();
        let mut message = message.to_vec();
        let mut outcome = refused(refusal::NONE);
        for _ in 0..times {
            let mut gateway = self.gateway();
            outcome = gateway.receive(u32::from(port), &message);
            if outcome.refusal == refusal::NONE {
                self.take(&gateway);
            }
            if let Some(last) = message.last_mut() {
                *last = last.wrapping_add(1);
            }
        }
        let kept = if self.total_of_all_places() == before {
            ", kept"
        } else {
            ", CHANGED"
        };
        self.told(&outcome, kept) + &self.index_line()
    }

    /// Why a report goes to the asked port or not, on lists of which so many places are lent (CASE-FILES, `why`; 02, W1).
    fn why(&self, lengths: [usize; 6], port: u8, asked: u8, message: &[u8]) -> String {
        let (port, asked) = (u32::from(port), u32::from(asked));
        match self.gateway().why_on_lists(lengths, port, asked, message) {
            Ok(Reason::Held { place, line }) => format!(
                "  reason 4; line {place:x} {:012x} {:016x} {:x}\n",
                line.node, line.start, line.k
            ),
            Ok(reason) => format!("  reason {}\n", reason.number()),
            Err(refusal) => format!("  refused {refusal}\n"),
        }
    }

    /// The state as the box has it (01-scope, Gateway).
    fn gateway(&self) -> Gateway {
        Gateway {
            ports: u32::from(self.ports),
            automatic: self.automatic,
            lines: self.lines(),
            open: (0..8).filter(|port| self.marks >> port & 1 == 1).collect(),
            index: Index {
                order: self.order[..self.used()]
                    .iter()
                    .map(|number| usize::from(*number))
                    .collect(),
                sets: self.sets,
            },
        }
    }

    /// Takes over what a box has come to.
    fn take(&mut self, gateway: &Gateway) {
        self.ports = gateway.ports as u8;
        self.marks = gateway.open.iter().map(|port| 1u8 << port).sum();
        self.count = gateway.lines.len() as u64;
        self.places[..gateway.lines.len()].copy_from_slice(&gateway.lines);
        self.take_index(&gateway.index);
    }

    /// The answer and the state (CASE-FILES, what is printed).
    fn told(&self, outcome: &Outcome, kept: &str) -> String {
        let answer = if outcome.refusal == refusal::NONE {
            let digit = |port| {
                if outcome.sent.contains(&port) {
                    '1'
                } else {
                    '0'
                }
            };
            (0..u32::from(self.ports)).map(digit).collect()
        } else {
            format!("refused {}{kept}", outcome.refusal)
        };
        let (start, k) = self.automatic;
        let mut text = format!(
            "  {answer}; box {:x} {:x} {start:016x} {k:x} {:x}",
            self.ports, self.marks, self.count
        );
        if self.count > SHORT as u64 {
            text.push_str(&format!("; total {:016x}", self.total()));
        }
        text.push('\n');
        text + &self.table()
    }

    /// The lines of the table, of a long one the first four and the last four (CASE-FILES).
    fn table(&self) -> String {
        let mut text = String::new();
        for (place, line) in self.lines().iter().take(MOST_LINES).enumerate() {
            if place >= SHORT / 2 && (place + SHORT / 2) < self.count as usize {
                continue;
            }
            text.push_str(&format!(
                "    {place:x}: {:x} {:012x} {:016x} {:x}\n",
                line.port, line.node, line.start, line.k
            ));
        }
        text
    }

    /// The index up to the count, of a long one the first four and the last four numbers and their total, and the sets (CASE-FILES).
    fn index_line(&self) -> String {
        let order = &self.order[..self.used()];
        let mut text = "    order".to_string();
        for (place, number) in order.iter().enumerate() {
            if order.len() <= SHORT || place < SHORT / 2 || place + SHORT / 2 >= order.len() {
                text.push_str(&format!(" {number:x}"));
            }
        }
        if order.len() > SHORT {
            text.push_str(&format!(" total {:016x}", weighted(order.iter().copied())));
        }
        text.push_str("; sets");
        for set in self.sets {
            text.push_str(&format!(" {set:x}"));
        }
        text.push('\n');
        text
    }

    /// The total of the lines up to the count (CASE-FILES, "total").
    fn total(&self) -> u64 {
        weighted(self.places[..self.used()].iter().map(sum_of))
    }

    /// The total of everything that a refusal keeps (CASE-FILES, `kept`): of all 256 lines, and of order and sets.
    fn total_of_all_places(&self) -> u64 {
        let lines = weighted(self.places.iter().map(sum_of));
        let index = weighted(self.order).wrapping_add(weighted(self.sets));
        lines.wrapping_add(index)
    }
}

/// A line's numbers added up, modulo 2^64.
fn sum_of(line: &Line) -> u64 {
    let sum = (u128::from(line.node) + u128::from(line.start)) as u64;
    sum.wrapping_add(u64::from(line.port) + u64::from(line.k))
}

/// Each number times how many there are from it to the last, added up modulo 2^64 (CASE-FILES, "total").
fn weighted<T: Into<u64>>(numbers: impl IntoIterator<Item = T>) -> u64 {
    let numbers: Vec<u64> = numbers.into_iter().map(Into::into).collect();
    let mut total: u64 = 0;
    for (place, number) in numbers.iter().enumerate() {
        total = total.wrapping_add(number.wrapping_mul((numbers.len() - place) as u64));
    }
    total
}

#[cfg(test)]
mod tests;
