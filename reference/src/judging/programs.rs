//! The proved programs, run on random files: what they print, beside the reference's text.

use std::process::ExitCode;

use crate::board::board_text;
use crate::explain::explain_text;
use crate::frame_file::frame_text;
use crate::trial::trial_text;
use crate::why_text::why_text;

use super::children::{at_once, Printed, Program};
use super::command::{self, Amounts, Judge, Options};
use super::counts::{self, Column, Columns};
use super::random::Dice;
use super::rows::Row;
use super::sort::Sort;
use super::witness::{Hex, Witness};
use super::{board_files, frame_files, observed, observed_can, trial_files, verdict};

/// The judge of the programs.
const JUDGE: Judge = Judge {
    name: "./judge --programs",
    sorts: &Sort::OF_PROGRAMS,
    amounts: Amounts {
        files: 1_000,
        small: 0,
        times: 1,
    },
    // A program prints its text whole.
    without: &[Row::TextInParts],
};

/// A program's name, and all there is to know of its files.
struct Reader {
    sort: Sort,
    name: &'static str,
    any_file: fn(&mut Dice) -> Vec<u8>,
    text: fn(&[u8]) -> Vec<u8>,
    observe: fn(&mut Column, &[u8]),
}

/// The programs that read a file.
const READERS: [Reader; 5] = [
    Reader {
        sort: Sort::Trial,
        name: "trial",
        any_file: trial_files::any_file,
        text: trial_text,
        observe: observed::trial_file,
    },
    Reader {
        sort: Sort::Board,
        name: "rehearse",
        any_file: board_files::any_file,
        text: board_text,
        observe: observed::board_file,
    },
    Reader {
        sort: Sort::Why,
        name: "why",
        any_file: trial_files::any_file_to_ask,
        text: why_text,
        observe: observed::why_file,
    },
    Reader {
        sort: Sort::Explain,
        name: "explain",
        any_file: trial_files::any_file_to_ask,
        text: explain_text,
        observe: observed::explain_file,
    },
    Reader {
        sort: Sort::Frame,
        name: "frames",
        any_file: frame_files::any_file,
        text: frame_text,
        observe: observed_can::frame_file,
    },
];

impl Reader {
    /// The file of one input; of the sorts that the archive's judge has too, the one that it makes.
    fn file(&self, seed: u64, index: u64) -> Vec<u8> {
        (self.any_file)(&mut Dice::of_input(seed, self.sort as u64, index))
    }

    /// Compares what the program printed for a file with the reference's text.
    fn compare(&self, witness: &mut Witness, file: &[u8], printed: &Printed) {
        witness.column.saw_input();
        let text = (self.text)(file);
        (self.observe)(witness.column, file);
        let asked = || format!("{} < file", self.name);
        witness.compare(asked, printed, &Printed::expected(text));
    }
}

/// Does what the command line asks for; behind `--` stand the programs' folder and the words that start a program, if there are any.
pub fn run(words: &[String]) -> ExitCode {
    let end = words.iter().position(|word| word == "--");
    let (words, folder_and_starter) = words.split_at(end.unwrap_or(words.len()));
    let options = match command::asked(&JUDGE, words) {
        Ok(options) => options,
        Err(ended) => return ended,
    };
    let [_, folder, starter @ ..] = folder_and_starter else {
        eprintln!(
            "{}: `-- FOLDER` is missing: where the programs stand",
            JUDGE.name
        );
        return ExitCode::from(2);
    };
    let started = |reader: &Reader| {
        let path = format!("{folder}/{}", reader.name);
        Program([starter, &[path]].concat())
    };
    match options.only {
        Some((sort, index)) => rerun(options.seed, sort, index, started),
        None => run_all(&options, started),
    }
}

/// Runs the program of a sort on one file, and prints the file and both texts.
fn rerun(seed: u64, sort: Sort, index: u64, started: impl Fn(&Reader) -> Program) -> ExitCode {
    verdict::rerun(seed, sort, index, |witness| {
        for reader in READERS.iter().filter(|reader| reader.sort == sort) {
            let file = reader.file(seed, index);
            witness.show(|| format!("{} file: {:?}", sort.name(), Hex(file.clone())));
            let printed = started(reader).run(&file);
            reader.compare(witness, &file, &printed);
        }
    })
}

/// Runs all programs on all files and prints the table.
fn run_all(options: &Options, started: impl Fn(&Reader) -> Program) -> ExitCode {
    let mut columns = Columns::default();
    let mut differences = Vec::new();
    for reader in &READERS {
        let column = &mut columns[reader.sort as usize];
        let mut differing = run_reader(reader, options, &started(reader), column);
        differing.sort_unstable();
        differences.extend(differing.iter().map(|index| (reader.sort, *index)));
    }
    counts::print_table(&JUDGE, &columns);
    verdict::print(&JUDGE, options, &columns, &differences)
}

/// Runs one program on its files; those whose texts differ.
fn run_reader(
    reader: &Reader,
    options: &Options,
    program: &Program,
    column: &mut Column,
) -> Vec<u64> {
    let mut differing = Vec::new();
    let work = |place: usize| {
        let file = reader.file(options.seed, place as u64);
        let printed = program.run(&file);
        (file, printed)
    };
    at_once(
        options.amounts.of(reader.sort) as usize,
        work,
        |place, (file, printed)| {
            let mut witness = Witness::new(column, false);
            reader.compare(&mut witness, &file, &printed);
            if !witness.agreed() {
                differing.push(place as u64);
            }
        },
    );
    differing
}

#[cfg(test)]
mod tests {
    use super::super::reached;
    use super::*;

    /// Every sort that the command line takes has its program.
    #[test]
    fn a_reader_for_each_sort() {
        let sorts = READERS.map(|reader| reader.sort);
        assert_eq!(sorts, JUDGE.sorts);
    }

    /// As many files as there are by default reach every row that files can, those of moves and of what is covered many times and those of what goes at a restart
    /// twice as often as is asked for, where the programs print what they should. In half of the trial files or more a board moves.
    #[test]
    fn every_row_by_default() {
        let mut columns = Columns::default();
        for reader in &READERS {
            for index in 0..JUDGE.amounts.of(reader.sort) {
                let file = reader.file(1, index);
                let printed = Printed::expected((reader.text)(&file));
                let mut witness = Witness::new(&mut columns[reader.sort as usize], false);
                reader.compare(&mut witness, &file, &printed);
                assert!(witness.agreed());
            }
        }
        let options = Options {
            seed: 1,
            amounts: JUDGE.amounts,
            only: None,
            help: false,
        };
        assert_eq!(reached::faults(&JUDGE, &options, &columns), [""; 0]);
        for sort in [Sort::Trial, Sort::Why, Sort::Explain] {
            let column = &columns[sort as usize];
            assert!(2 * column.seen(Row::BoardMoved) >= column.seen(Row::Inputs));
            let least = |row: Row| match row {
                Row::Cover(cover) if !cover.is_of_given_tables() => 50,
                Row::Moved(_) => 50,
                Row::Restarted(_) | Row::RestartedInFull(_) => 2 * row.least(),
                _ => 0,
            };
            for row in Row::all() {
                let seen = column.seen(row);
                assert!(
                    seen >= least(row),
                    "{}: {}: {seen}",
                    sort.name(),
                    row.label()
                );
            }
        }
    }

    /// A program that prints nothing is found out, but for files whose text is nothing.
    #[test]
    fn a_silent_program() {
        let options = Options {
            seed: 1,
            amounts: Amounts {
                files: 20,
                small: 0,
                times: 1,
            },
            only: None,
            help: false,
        };
        let silent = Program(vec!["true".to_string()]);
        for reader in &READERS {
            let mut column = Column::default();
            let mut differing = run_reader(reader, &options, &silent, &mut column);
            differing.sort_unstable();
            let speaks = |index: &u64| !(reader.text)(&reader.file(1, *index)).is_empty();
            assert_eq!(differing, (0..20).filter(speaks).collect::<Vec<u64>>());
            assert_eq!(column.seen(Row::Inputs), 20);
        }
    }
}
