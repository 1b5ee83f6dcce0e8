//! Lists that are too short or too long for the calls on lent lists: refused with 7 before all else, and nothing changes.

use std::fmt::{self, Debug, Formatter};

use crate::gateway::LENT_LENGTHS;
use crate::index::SETS;
use crate::lent_box::{Gateway, LentAnswer, Lists, PLACES};
use crate::refusal;

use super::boxes::Calls;
use super::functions::Function;
use super::histories::Arrival;
use super::questions::{reason_of, Question};
use super::random::Dice;
use super::rows::Row;
use super::ways::LENGTH_COUNT;
use super::witness::Witness;

const TOO_SHORT: [usize; 5] = [0, 1, 128, 254, 255];
const TOO_LONG: [usize; 4] = [257, 258, 511, 512];
const TOO_FEW_SETS: [usize; 3] = [0, 1, 8];
const TOO_MANY_SETS: [usize; 3] = [10, 11, 18];
/// The places in the lists of lengths of the order and the sets of an index.
const ORDER: usize = 4;
const OF_SETS: usize = 5;
/// Lists three times as long as they should be have places past every length, which no call may touch.
const TIMES: usize = 3;

/// The lists that are lent, and what stands past their ends.
#[derive(Clone, PartialEq)]
struct Owned {
    nodes: Vec<u64>,
    starts: Vec<u64>,
    ports: Vec<u8>,
    sizes: Vec<u8>,
    order: Vec<u8>,
    sets: Vec<u64>,
}

/// What the call answers, and the lists after it.
#[derive(PartialEq, Debug)]
struct Answer<T> {
    answer: T,
    lists: Owned,
}

/// Puts a message, and a question beside it, to the calls on lent lists with one list, or all six, of another length.
pub fn judge(
    dice: &mut Dice,
    witness: &mut Witness,
    calls: &impl Calls,
    gateway: &Gateway,
    arrival: &Arrival,
) {
    let way = dice.between(0, LENGTH_COUNT - 1);
    let lengths = lengths_of(dice, way);
    witness.column.saw(Row::ListLength(way));
    judge_receive(witness, calls, gateway, lengths, arrival);
    let question = Question {
        arrival: arrival.clone(),
        asked: dice.below(9) as u8,
    };
    judge_why(witness, calls, gateway, lengths, &question);
}

/// The message alone.
fn judge_receive(
    witness: &mut Witness,
    calls: &impl Calls,
    gateway: &Gateway,
    lengths: [usize; 6],
    arrival: &Arrival,
) {
    let head = gateway.head;
    let theirs = Answer {
        answer: LentAnswer {
            refusal: refusal::BOUNDS,
            sent: 0,
            marks: head.marks,
            count: head.count,
        },
        lists: Owned::of(gateway),
    };
    let ours = Owned::of(gateway).lend(lengths, |lists| {
        calls.receive_lists(head, lists, arrival.port, &arrival.bytes)
    });
    witness
        .column
        .saw_answer(Function::Receive, refusal::BOUNDS);
    let asked = || arrival.put(&format!("in place with lists of {lengths:?}"));
    witness.compare(asked, &ours, &theirs);
}

/// The question alone.
fn judge_why(
    witness: &mut Witness,
    calls: &impl Calls,
    gateway: &Gateway,
    lengths: [usize; 6],
    question: &Question,
) {
    let Question { arrival, asked } = question;
    let theirs = Answer {
        answer: reason_of(Err(refusal::BOUNDS)),
        lists: Owned::of(gateway),
    };
    let ours = Owned::of(gateway).lend(lengths, |lists| {
        calls.why(gateway.head, lists, arrival.port, *asked, &arrival.bytes)
    });
    witness.column.saw_answer(Function::Why, refusal::BOUNDS);
    let asked = || question.put(&format!("with lists of {lengths:?}"));
    witness.compare(asked, &ours, &theirs);
}

/// The lengths of the lists, by the place in the table of counts.
fn lengths_of(dice: &mut Dice, way: usize) -> [usize; 6] {
    let (length, sets) = match way % 2 {
        0 => (dice.pick(&TOO_SHORT), dice.pick(&TOO_FEW_SETS)),
        _ => (dice.pick(&TOO_LONG), dice.pick(&TOO_MANY_SETS)),
    };
    let mut lengths = LENT_LENGTHS;
    match way {
        0..8 => lengths[way / 2] = length,
        8 | 9 => {
            lengths = [length; 6];
            lengths[OF_SETS] = sets;
        }
        10 => lengths[ORDER] = 0,
        11 => lengths[ORDER] = PLACES - 1,
        12 => lengths[ORDER] = PLACES + 1,
        13 => lengths[OF_SETS] = 0,
        14 => lengths[OF_SETS] = SETS - 1,
        _ => lengths[OF_SETS] = SETS + 1,
    }
    lengths
}

impl Owned {
    fn of(gateway: &Gateway) -> Owned {
        Owned {
            nodes: gateway.nodes.repeat(TIMES),
            starts: gateway.starts.repeat(TIMES),
            ports: gateway.ports.repeat(TIMES),
            sizes: gateway.sizes.repeat(TIMES),
            order: gateway.order.repeat(TIMES),
            sets: gateway.sets.repeat(TIMES),
        }
    }

    /// Lends so much of the lists for one call.
    fn lend<T>(mut self, lengths: [usize; 6], call: impl FnOnce(Lists) -> T) -> Answer<T> {
        let [nodes, starts, ports, sizes, order, sets] = lengths;
        let answer = call(Lists {
            nodes: &mut self.nodes[..nodes],
            starts: &mut self.starts[..starts],
            ports: &mut self.ports[..ports],
            sizes: &mut self.sizes[..sizes],
            order: &mut self.order[..order],
            sets: &mut self.sets[..sets],
        });
        Answer {
            answer,
            lists: self,
        }
    }
}

/// Shown place by place only where an answer is shown in full.
impl Debug for Owned {
    fn fmt(&self, out: &mut Formatter) -> fmt::Result {
        if !out.alternate() {
            return write!(out, "..");
        }
        for place in 0..TIMES * PLACES {
            let (port, node) = (self.ports[place], self.nodes[place]);
            let (start, k) = (self.starts[place], self.sizes[place]);
            let number = self.order[place];
            write!(
                out,
                "\nplace {place}: {port} {node:X} {start:016X} {k}; order {number:X}"
            )?;
        }
        write!(out, "\nsets {:X?}", self.sets)
    }
}
