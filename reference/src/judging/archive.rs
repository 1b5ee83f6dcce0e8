//! The proved functions, called in the archive with random inputs of every sort.

use std::process::ExitCode;

use super::archive_boards::Archive;
use super::command::{self, Amounts, Judge, Options};
use super::counts::{self, Column, Columns};
use super::random::Dice;
use super::sort::Sort;
use super::witness::Witness;
use super::{
    boards, boxes, calls, can_calls, frames, messages, nests, pairs, ranges, trials, verdict,
};

/// The judge of the archive.
const JUDGE: Judge = Judge {
    name: "./judge",
    sorts: &Sort::OF_ARCHIVE,
    amounts: Amounts {
        files: 2_000,
        small: 50_000,
        times: 10,
    },
    without: &[],
};

/// Does what the command line asks for.
pub fn run(words: &[String]) -> ExitCode {
    let options = match command::asked(&JUDGE, words) {
        Ok(options) => options,
        Err(ended) => return ended,
    };
    match options.only {
        Some((sort, index)) => verdict::rerun(options.seed, sort, index, |witness| {
            judge(options.seed, sort, index, witness);
        }),
        None => run_all(&options),
    }
}

/// Runs all inputs and prints the table.
fn run_all(options: &Options) -> ExitCode {
    let mut columns = Columns::default();
    let mut differences = Vec::new();
    for sort in Sort::OF_ARCHIVE {
        let column = &mut columns[sort as usize];
        for index in 0..options.amounts.of(sort) {
            if differs(options.seed, sort, index, column) {
                differences.push((sort, index));
            }
        }
    }
    counts::print_table(&JUDGE, &columns);
    verdict::print(&JUDGE, options, &columns, &differences)
}

/// Whether the answers to one input differ.
fn differs(seed: u64, sort: Sort, index: u64, column: &mut Column) -> bool {
    let mut witness = Witness::new(column, false);
    judge(seed, sort, index, &mut witness);
    !witness.agreed()
}

/// Makes one input and compares the answers.
fn judge(seed: u64, sort: Sort, index: u64, witness: &mut Witness) {
    witness.column.saw_input();
    let mut dice = Dice::of_input(seed, sort as u64, index);
    match sort {
        Sort::Range => ranges::judge(&mut dice, witness),
        Sort::Message => messages::judge(&mut dice, index, witness),
        Sort::Box => boxes::judge(&mut dice, witness, &Archive),
        Sort::Trial => trials::judge(&mut dice, witness),
        Sort::Board => boards::judge(&mut dice, witness),
        Sort::Calls => calls::judge(&mut dice, witness, &Archive),
        Sort::Frame => frames::judge(&mut dice, witness, &Archive),
        Sort::Can => can_calls::judge(&mut dice, witness, &Archive),
        Sort::Pair => pairs::judge(&mut dice, witness, &Archive),
        Sort::Nest => nests::judge(&mut dice, witness, &Archive),
        Sort::Why | Sort::Explain => unreachable!("these are of the programs alone"),
    }
}
