//! Stands in for the archive's comparing of blocks in tests of the judge: the reference itself, with a slip in it or without (02, W4).

use crate::lent_box::Block;
use crate::lent_range::Number;
use crate::range::is_block;
use crate::refusal;

use super::command::{Amounts, Judge, Options};
use super::counts::Columns;
use super::pairs::{self, Compares};
use super::random::Dice;
use super::reached;
use super::rows::Row;
use super::sort::Sort;
use super::witness::Witness;
use super::world::low_bits;

/// A slip: what it makes of the right answer to two blocks.
type Slip = fn(Block, Block, &mut Number);

struct StandIn(Slip);

impl Compares for StandIn {
    fn compare(&self, first: Block, second: Block) -> Number {
        let mut number = Number::of_comparison(first, second);
        (self.0)(first, second, &mut number);
        number
    }
}

const EQUAL: u64 = 1;
const FIRST_INSIDE: u64 = 2;
const SECOND_INSIDE: u64 = 3;
const APART: u64 = 4;

fn none(_: Block, _: Block, _: &mut Number) {}

fn equal_is_apart(_: Block, _: Block, number: &mut Number) {
    if number.number == EQUAL {
        number.number = APART;
    }
}

fn equal_is_inside(_: Block, _: Block, number: &mut Number) {
    if number.number == EQUAL {
        number.number = FIRST_INSIDE;
    }
}

fn changed_over(_: Block, _: Block, number: &mut Number) {
    if [FIRST_INSIDE, SECOND_INSIDE].contains(&number.number) {
        number.number = 5 - number.number;
    }
}

fn inside_one_way_only(_: Block, _: Block, number: &mut Number) {
    if number.number == SECOND_INSIDE {
        number.number = APART;
    }
}

fn counted_from_zero(_: Block, _: Block, number: &mut Number) {
    if number.refusal == refusal::NONE {
        number.number -= 1;
    }
}

fn every_event_is_apart(first: Block, second: Block, number: &mut Number) {
    if first.k != second.k && [first.k, second.k].contains(&64) && number.number > 0 {
        number.number = APART;
    }
}

fn every_event_is_not_equal_to_itself(first: Block, second: Block, number: &mut Number) {
    if (first.k, second.k) == (64, 64) && number.number > 0 {
        number.number = APART;
    }
}

fn a_k_of_64_is_refused(first: Block, second: Block, number: &mut Number) {
    if [first.k, second.k].contains(&64) {
        *number = Number {
            refusal: refusal::NO_RANGE,
            number: 0,
        };
    }
}

fn a_k_of_0_is_refused(first: Block, second: Block, number: &mut Number) {
    if [first.k, second.k].contains(&0) {
        *number = Number {
            refusal: refusal::NO_RANGE,
            number: 0,
        };
    }
}

fn two_halves_are_equal(first: Block, second: Block, number: &mut Number) {
    let wider = u32::from(first.k) + 1;
    let differ = first.start ^ second.start;
    if first.k == second.k && number.number == APART && differ & !low_bits(wider.min(64)) == 0 {
        number.number = EQUAL;
    }
}

fn by_the_low_32_bits(first: Block, second: Block, number: &mut Number) {
    if number.number == APART && (first.start ^ second.start) & low_bits(32) == 0 {
        number.number = match first.k.cmp(&second.k) {
            std::cmp::Ordering::Less => FIRST_INSIDE,
            std::cmp::Ordering::Equal => EQUAL,
            std::cmp::Ordering::Greater => SECOND_INSIDE,
        };
    }
}

fn only_one_start_is_inside(first: Block, second: Block, number: &mut Number) {
    if number.number == FIRST_INSIDE && first.start != second.start {
        number.number = APART;
    }
}

/// Answers where it should be refused, as though the number that is none were one.
fn taken(number: &mut Number) {
    *number = Number {
        refusal: refusal::NONE,
        number: APART,
    };
}

fn is_good(block: Block) -> bool {
    is_block(block.start, block.k.into())
}

fn the_first_is_not_tested(_: Block, second: Block, number: &mut Number) {
    if number.refusal != 0 && is_good(second) {
        taken(number);
    }
}

fn the_second_is_not_tested(first: Block, _: Block, number: &mut Number) {
    if number.refusal != 0 && is_good(first) {
        taken(number);
    }
}

fn one_of_two_is_enough(first: Block, second: Block, number: &mut Number) {
    if number.refusal != 0 && (is_good(first) || is_good(second)) {
        taken(number);
    }
}

fn starts_are_not_tested(first: Block, second: Block, number: &mut Number) {
    if number.refusal != 0 && first.k <= 64 && second.k <= 64 {
        taken(number);
    }
}

fn a_k_above_64_is_taken(first: Block, second: Block, number: &mut Number) {
    if number.refusal != 0 && (first.k > 64 || second.k > 64) {
        taken(number);
    }
}

fn one_thing_twice_is_equal(first: Block, second: Block, number: &mut Number) {
    if number.refusal != 0 && first == second {
        taken(number);
        number.number = EQUAL;
    }
}

fn a_number_beside_14(_: Block, _: Block, number: &mut Number) {
    if number.refusal != 0 {
        number.number = APART;
    }
}

fn refused_with_7(_: Block, _: Block, number: &mut Number) {
    if number.refusal != 0 {
        number.refusal = refusal::BOUNDS;
    }
}

const SLIPS: [Slip; 20] = [
    equal_is_apart,
    equal_is_inside,
    changed_over,
    inside_one_way_only,
    counted_from_zero,
    every_event_is_apart,
    every_event_is_not_equal_to_itself,
    a_k_of_64_is_refused,
    a_k_of_0_is_refused,
    two_halves_are_equal,
    by_the_low_32_bits,
    only_one_start_is_inside,
    the_first_is_not_tested,
    the_second_is_not_tested,
    one_of_two_is_enough,
    starts_are_not_tested,
    a_k_above_64_is_taken,
    one_thing_twice_is_equal,
    a_number_beside_14,
    refused_with_7,
];
const JUDGE: Judge = Judge {
    name: "stand-in",
    sorts: &[Sort::Pair],
    amounts: Amounts {
        files: 0,
        small: 20_000,
        times: 1,
    },
    without: &[],
};

/// How many of the inputs differ, and what they have reached.
fn differences(seed: u64, inputs: u64, slip: Slip) -> (u64, Columns) {
    let mut columns = Columns::default();
    let mut differing = 0;
    for index in 0..inputs {
        let column = &mut columns[Sort::Pair as usize];
        column.saw_input();
        let mut witness = Witness::new(column, false);
        let mut dice = Dice::of_input(seed, Sort::Pair as u64, index);
        pairs::judge(&mut dice, &mut witness, &StandIn(slip));
        differing += u64::from(!witness.agreed());
    }
    (differing, columns)
}

/// A sound archive agrees on every pair, and fewer pairs than there are by default reach every row many times.
#[test]
fn a_sound_archive() {
    let (differing, columns) = differences(1, JUDGE.amounts.small, none);
    assert_eq!(differing, 0);
    let options = Options {
        seed: 1,
        amounts: JUDGE.amounts,
        only: None,
        help: false,
    };
    assert_eq!(reached::faults(&JUDGE, &options, &columns), [""; 0]);
    let many = |row: &Row| row.sorts() == [Sort::Pair];
    for row in Row::all().into_iter().filter(many) {
        let seen = columns[Sort::Pair as usize].seen(row);
        assert!(seen >= 500, "{}: {seen}", row.label());
    }
}

/// Every slip is found soon, whatever the seed.
#[test]
fn slips() {
    for (place, slip) in SLIPS.into_iter().enumerate() {
        for seed in 1..=4 {
            assert!(differences(seed, 400, slip).0 > 0, "slip {place}");
        }
    }
}
