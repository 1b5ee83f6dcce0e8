//! What a judge ends with: how many inputs there were, which of them differed, and what they have not reached.

use std::process::ExitCode;

use super::command::{Judge, Options};
use super::counts::{Column, Columns};
use super::output::say;
use super::reached;
use super::rows::Row;
use super::sort::Sort;
use super::witness::Witness;

/// More differences than this are counted and not listed.
const MOST_LISTED: usize = 10;

/// Runs one input, printing it and both answers.
pub fn rerun(seed: u64, sort: Sort, index: u64, judge: impl FnOnce(&mut Witness)) -> ExitCode {
    let name = sort.name();
    say(format!(
        "{name}:{index} with seed {seed}, the numbers of the answers in hexadecimal"
    ));
    let mut column = Column::default();
    let mut witness = Witness::new(&mut column, true);
    judge(&mut witness);
    say(witness.outcome());
    ExitCode::from(u8::from(!witness.agreed()))
}

/// Prints how to rerun the first inputs that differed, what was not reached, and how many inputs there were.
pub fn print(
    judge: &Judge,
    options: &Options,
    columns: &Columns,
    differences: &[(Sort, u64)],
) -> ExitCode {
    for (sort, index) in differences.iter().take(MOST_LISTED) {
        let name = sort.name();
        let rerun = format!(
            "{} --seed {} --only {name}:{index}",
            judge.name, options.seed
        );
        say(format!("{name} {index} differs: {rerun}"));
    }
    for sort in reached::not_asked(judge, options) {
        say(format!(
            "{}: fewer inputs than by default, so not every row has to be reached",
            sort.name()
        ));
    }
    let faults = reached::faults(judge, options, columns);
    faults.iter().for_each(say);
    let sum = |row| columns.iter().map(|column| column.seen(row)).sum::<u64>();
    say(format!(
        "{} inputs, {} comparisons, {} differences, {} rows amiss",
        sum(Row::Inputs),
        sum(Row::Comparisons),
        differences.len(),
        faults.len()
    ));
    ExitCode::from(status(differences.len(), faults.len()))
}

/// The exit status: a judge has passed where nothing differed and everything was reached.
fn status(differences: usize, faults: usize) -> u8 {
    u8::from(differences > 0 || faults > 0)
}

#[cfg(test)]
mod tests {
    use super::*;

    #[test]
    fn only_agreement_passes() {
        assert_eq!(status(0, 0), 0);
        assert_eq!(status(1, 0), 1);
        assert_eq!(status(0, 1), 1);
    }
}
