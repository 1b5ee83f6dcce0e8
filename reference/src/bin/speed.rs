//! `speed` measures the proved calls beside the same work written without proofs; `speed --rows` lists the rows;
//! `speed --count ROW COLUMN N` makes one row's call N times in one column, for counting its instructions.

#[path = "speed/agree.rs"]
mod agree;
#[path = "speed/agree_can.rs"]
mod agree_can;
#[path = "speed/dice.rs"]
mod dice;
#[path = "speed/quick.rs"]
mod quick;
#[path = "speed/quick_can.rs"]
mod quick_can;
#[path = "speed/quick_index.rs"]
mod quick_index;
#[path = "speed/quick_index_test.rs"]
mod quick_index_test;
#[path = "speed/quick_trial.rs"]
mod quick_trial;
#[path = "speed/rows.rs"]
mod rows;
#[path = "speed/rows_box.rs"]
mod rows_box;
#[path = "speed/rows_can.rs"]
mod rows_can;
#[path = "speed/rows_sizes.rs"]
mod rows_sizes;
#[path = "speed/states.rs"]
mod states;

use std::fmt::Display;
use std::process::ExitCode;
use std::time::{Duration, Instant};

use rows::{Call, Row, COLUMNS};

const ROUNDS: usize = 31;
const ROUND_TIME: Duration = Duration::from_millis(5);
const USAGE: &str =
    "speed | speed --rows | speed --count ROW proved|'by value'|checked|unchecked|'by line' N";
const NOTES: &str = "proved: the box's call in place on lent lists; by value: the same work through the call that takes the state and gives the next one back.
checked: the box without proofs that keeps the same index, with the test of the whole state and of its index first; unchecked: without that test.
by line: a box without proofs and without an index that tests its state and reads its table line by line. - where there is no such call.
report-256-of-4-on-8: a report that no line holds, through 256 lines of 4 sizes at 8 ports. test-256: a call that is refused with 8, which is the test of the state and
of its index, through 256 lines of 4 sizes at 4 ports; by line without an index to test.
split-256 and join-256: a report with 256 bytes of payload and a list of 128 pairs, the state by value in all columns, join-256 all 33 frames; unchecked leaves
out the test of the list.
announce-inside: an event inside the last of 64 lines. announce-over-64: a block that holds every other one of 128 lines.
restart-1, -64 and -none: a node with one line in the middle, with every other one of the first 128, and with none, in 128 and in 256 lines.
announce-new, announce-over-64 and restarts: every call on a fresh copy of the state, the copy counted in, by value the call's own; copy is that copy alone.
The ratios are of proved. Output buffers (trial, write) are not cleared between calls.";

fn main() -> ExitCode {
    let arguments: Vec<String> = std::env::args().skip(1).collect();
    let words: Vec<&str> = arguments.iter().map(String::as_str).collect();
    let understood = match words[..] {
        [] => {
            measure();
            true
        }
        ["--rows"] => {
            list();
            true
        }
        ["--count", row, column, times] => call_one(row, column, times).is_some(),
        _ => false,
    };
    if !understood {
        eprintln!("{USAGE}");
        return ExitCode::from(2);
    }
    ExitCode::SUCCESS
}

fn list() {
    for row in rows::all() {
        println!("{}", row.name);
    }
}

/// Nothing where the row, the column or the number is none.
fn call_one(name: &str, column: &str, times: &str) -> Option<()> {
    let times = times.parse().ok()?;
    let column = COLUMNS.iter().position(|known| *known == column)?;
    let mut row = rows::all().into_iter().find(|row| row.name == name)?;
    let call = row.calls[column].as_mut()?;
    call(times);
    Some(())
}

fn measure() {
    agree::with_the_reference();
    agree_can::with_the_reference();
    let mut measured = Vec::new();
    for mut row in rows::all() {
        let rounds = sorted_rounds(&mut row);
        measured.push((row.name, rounds));
    }
    let round = ROUND_TIME.as_millis();
    println!(
        "ns per call, the median of {ROUNDS} rounds of about {round} ms, the columns in turn:"
    );
    print_table(&measured, ROUNDS / 2);
    println!("\nThe fastest of these rounds, for a machine that has other work:");
    print_table(&measured, 0);
    println!("\n{NOTES}");
}

/// ns per call in every round of a column, the fastest first; none where the column is empty.
type Rounds = [Vec<f64>; COLUMNS.len()];

fn print_table(measured: &[(String, Rounds)], place: usize) {
    let ratios = ["p/checked", "p/unchecked", "p/by line"];
    print_line("row", COLUMNS.into_iter().chain(ratios));
    for (name, rounds) in measured {
        let figures = rounds.each_ref().map(|all| all.get(place).copied());
        let [proved, _, others @ ..] = figures;
        let ratios = others.map(|other| ratio(proved, other));
        let figures = figures.map(|figure| shown(figure, 1));
        let ratios = ratios.map(|ratio| shown(ratio, 2));
        print_line(name, figures.into_iter().chain(ratios));
    }
}

fn print_line(name: &str, cells: impl Iterator<Item = impl Display>) {
    let cells: String = cells.map(|cell| format!("{cell:>12}")).collect();
    println!("{name:<24}{cells}");
}

fn shown(figure: Option<f64>, decimals: usize) -> String {
    figure.map_or("-".into(), |figure| format!("{figure:.decimals$}"))
}

fn ratio(over: Option<f64>, under: Option<f64>) -> Option<f64> {
    Some(over? / under?)
}

/// In turn, so that a change of the machine's pace meets every column.
fn sorted_rounds(row: &mut Row) -> Rounds {
    let times = row
        .calls
        .each_mut()
        .map(|call| call.as_mut().map(calls_a_round));
    let mut rounds = Rounds::default();
    for _ in 0..ROUNDS {
        for column in 0..COLUMNS.len() {
            if let (Some(call), Some(times)) = (&mut row.calls[column], times[column]) {
                let nanoseconds = time_of(call, times).as_nanos() as f64;
                rounds[column].push(nanoseconds / times as f64);
            }
        }
    }
    for column in &mut rounds {
        column.sort_by(f64::total_cmp);
    }
    rounds
}

fn calls_a_round(call: &mut Call) -> u64 {
    let mut times = 1;
    loop {
        let taken = time_of(call, times);
        // Long enough to tell how many calls fill a round.
        if taken > ROUND_TIME / 4 {
            return (times as f64 * ROUND_TIME.div_duration_f64(taken)) as u64 + 1;
        }
        times *= 2;
    }
}

fn time_of(call: &mut Call, times: u64) -> Duration {
    let begin = Instant::now();
    call(times);
    begin.elapsed()
}
