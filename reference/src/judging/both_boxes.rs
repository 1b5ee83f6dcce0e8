//! A box on both sides: each message and each question is put to both, and what they answer and leave is compared.

use std::collections::BTreeSet;

use crate::gateway;
use crate::lent_box::{Block, Gateway, Head, PLACES};

use super::boxes::Calls;
use super::damages;
use super::functions::Function;
use super::histories::Arrival;
use super::indexed;
use super::laid_lines::any_numbers;
use super::laid_out::Layout;
use super::lengths;
use super::observed;
use super::questions::{self, Blocks, Question};
use super::random::Dice;
use super::rows::Row;
use super::tables::Table;
use super::witness::Witness;

/// What a call answers, and the whole state after it.
#[derive(PartialEq, Debug)]
struct Answer {
    refusal: u8,
    sent: u8,
    head: Head,
    table: Table,
}

/// The box on both sides, on the proved side once for each of the two calls.
pub struct Boxes {
    by_value: Gateway,
    in_place: Gateway,
    reference: gateway::Gateway,
    /// Lines that only the proved side is told of, where no list could be as long.
    told: usize,
}

/// Starts a box on both sides; nothing where they differ.
pub fn started(witness: &mut Witness, calls: &impl Calls, ports: u8, number: u64) -> Option<Boxes> {
    let answer = calls.start(ports, number);
    let (reference, refusal) = gateway::Gateway::start(u32::from(ports), number);
    witness.column.saw_answer(Function::Start, refusal);
    let boxes = Boxes {
        by_value: answer.gateway,
        in_place: answer.gateway,
        reference,
        told: 0,
    };
    let ours = proved_answer(&answer.gateway, answer.refusal, answer.sent);
    let theirs = boxes.reference_answer(refusal, 0);
    let asked = || format!("start with {ports:02X} ports, automatic {number:016X}");
    let same = witness.compare(asked, &ours, &theirs);
    let asked = || "nothing; every place of a started index is 0".to_string();
    (witness.compare(asked, &answer.gateway.order, &[0; PLACES]) && same).then_some(boxes)
}

/// Puts messages and questions to both sides, up to the first difference, and last one message with a list of another length and one with a damaged index.
pub fn follow(
    dice: &mut Dice,
    witness: &mut Witness,
    calls: &impl Calls,
    mut boxes: Boxes,
    arrivals: &[Arrival],
) {
    let before = proved_answer(&boxes.by_value, 0, 0);
    witness.show(|| format!("before the first message: {before:#X?}"));
    let asked = || "nothing; the same state on both sides".to_string();
    witness.compare(asked, &before, &boxes.reference_answer(0, 0));
    let litter = dice.chance(30);
    for (place, arrival) in arrivals.iter().enumerate() {
        if litter {
            boxes.litter(dice);
        }
        // Every state that is laid out is asked.
        if (place == 0 || dice.chance(40)) && !boxes.ask(dice, witness, calls, arrival) {
            return;
        }
        if !boxes.step(witness, calls, arrival) {
            return;
        }
    }
    let place = dice.between(0, arrivals.len() - 1);
    lengths::judge(dice, witness, calls, &boxes.in_place, &arrivals[place]);
    boxes.judge_damaged(dice, witness, calls, &arrivals[place]);
}

impl Boxes {
    /// Both sides in a state that is laid out.
    pub fn of_layout(dice: &mut Dice, layout: &Layout) -> Boxes {
        let proved = layout.for_proved(dice);
        Boxes {
            by_value: proved,
            in_place: proved,
            reference: layout.for_reference(),
            told: layout.told,
        }
    }

    /// Any numbers in two places past the lines and past the index, which are no part of the state.
    fn litter(&mut self, dice: &mut Dice) {
        let count = self.by_value.head.count;
        if count >= PLACES {
            return;
        }
        for place in [count, dice.between(count, PLACES - 1)] {
            let (line, number) = (any_numbers(dice), dice.number() as u8);
            for gateway in [&mut self.by_value, &mut self.in_place] {
                gateway.set_line(place, &line);
                gateway.order[place] = number;
            }
        }
    }

    /// Damages the index of a state in bounds (02, W6), and puts a question and a message to it.
    fn judge_damaged(
        mut self,
        dice: &mut Dice,
        witness: &mut Witness,
        calls: &impl Calls,
        arrival: &Arrival,
    ) {
        if !self.reference.in_bounds() {
            return;
        }
        let (damage, index) = damages::any(dice, &self.reference);
        witness.column.saw(Row::Damaged(damage));
        witness.show(|| damage.label().to_string());
        for gateway in [&mut self.by_value, &mut self.in_place] {
            gateway.set_index(&index);
        }
        self.reference.index = index;
        if self.ask(dice, witness, calls, arrival) {
            self.step(witness, calls, arrival);
        }
    }

    /// Asks both sides why, once or more, beside a message; whether they agree.
    fn ask(
        &self,
        dice: &mut Dice,
        witness: &mut Witness,
        calls: &impl Calls,
        arrival: &Arrival,
    ) -> bool {
        (0..dice.between(1, 3)).all(|_| {
            let question = self.any_question(dice, arrival);
            questions::ask(witness, calls, &self.in_place, &self.reference, &question)
        })
    }

    /// A question, at times of a line that stands past the count, which no answer may depend on.
    fn any_question(&self, dice: &mut Dice, arrival: &Arrival) -> Question {
        let lines = match dice.chance(8) {
            true => Table::of_all_places(&self.in_place).lines,
            false => self.in_place.lines(),
        };
        let Head {
            ports, automatic, ..
        } = self.in_place.head;
        let blocks = Blocks {
            lines: &lines,
            automatic: (automatic.start, automatic.k.into()),
        };
        Question::any(dice, ports, &blocks, arrival)
    }

    /// Puts one message to both sides; whether they agree.
    fn step(&mut self, witness: &mut Witness, calls: &impl Calls, arrival: &Arrival) -> bool {
        let outcome = observed::receive(&mut self.reference, arrival, witness.column);
        indexed::saw_litter(&self.in_place, outcome.refusal, witness.column);
        let expected = self.reference_answer(outcome.refusal, bits(&outcome.sent));
        let by_value = self.step_by_value(witness, calls, arrival, &expected);
        let in_place = self.step_in_place(witness, calls, arrival, &expected);
        by_value && in_place
    }

    /// Puts one message to the call by value; whether its answer is the expected one, and a refusal gives every place of the lists back as it was.
    fn step_by_value(
        &mut self,
        witness: &mut Witness,
        calls: &impl Calls,
        arrival: &Arrival,
        expected: &Answer,
    ) -> bool {
        let before = self.by_value;
        let answer = calls.receive(&self.by_value, arrival.port, &arrival.bytes);
        self.by_value = answer.gateway;
        let ours = proved_answer(&self.by_value, answer.refusal, answer.sent);
        let same = witness.compare(|| arrival.put("by value"), &ours, expected);
        same & kept_if_refused(witness, expected, &before, &self.by_value)
    }

    /// Puts one message to the call in place; whether its answer is the expected one, and a refusal leaves every place of the lists as it was.
    fn step_in_place(
        &mut self,
        witness: &mut Witness,
        calls: &impl Calls,
        arrival: &Arrival,
        expected: &Answer,
    ) -> bool {
        let before = self.in_place;
        let (head, lists) = (self.in_place.head, self.in_place.lists());
        let answer = calls.receive_lists(head, lists, arrival.port, &arrival.bytes);
        (self.in_place.head.marks, self.in_place.head.count) = (answer.marks, answer.count);
        let ours = proved_answer(&self.in_place, answer.refusal, answer.sent);
        let same = witness.compare(|| arrival.put("in place"), &ours, expected);
        same & kept_if_refused(witness, expected, &before, &self.in_place)
    }

    /// The reference's answer and state.
    fn reference_answer(&self, refusal: u8, sent: u8) -> Answer {
        let (start, k) = self.reference.automatic;
        Answer {
            refusal,
            sent,
            head: Head {
                ports: self.reference.ports as u8,
                marks: bits(&self.reference.open),
                automatic: Block { start, k: k as u8 },
                count: self.reference.lines.len() + self.told,
            },
            table: Table::of_reference(&self.reference),
        }
    }
}

/// The proved side's answer and state.
fn proved_answer(gateway: &Gateway, refusal: u8, sent: u8) -> Answer {
    Answer {
        refusal,
        sent,
        head: gateway.head,
        table: Table::of_proved(gateway),
    }
}

/// Whether every place of the lists, past the count too, is as it was where the message is to be refused.
fn kept_if_refused(
    witness: &mut Witness,
    expected: &Answer,
    before: &Gateway,
    after: &Gateway,
) -> bool {
    if expected.refusal == 0 {
        return true;
    }
    let asked = || "nothing; every place of the lists after the refusal".to_string();
    let (before, after) = (Table::of_all_places(before), Table::of_all_places(after));
    witness.compare(asked, &after, &before)
}

/// A set of ports as bits.
fn bits(ports: &BTreeSet<u32>) -> u8 {
    ports.iter().fold(0, |bits, port| bits | 1 << port)
}
