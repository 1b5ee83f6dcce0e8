//! The command line.

use std::process::ExitCode;

use super::output::say;
use super::rows::Row;
use super::sort::Sort;

/// What `--help` prints.
const HELP: &str = include_str!("help.txt");

/// How many inputs there are.
#[derive(Clone, Copy, Debug, PartialEq)]
pub struct Amounts {
    pub files: u64,
    /// 0 for a judge that has no messages, ranges and pairs of blocks.
    pub small: u64,
    /// How many frame files, inputs of the CAN side's calls and histories of a box, for each other file.
    pub times: u64,
}

impl Amounts {
    /// How many inputs of a sort.
    pub fn of(self, sort: Sort) -> u64 {
        match sort {
            Sort::Range | Sort::Message | Sort::Pair => self.small,
            Sort::Trial | Sort::Board | Sort::Calls | Sort::Why | Sort::Explain => self.files,
            Sort::Box | Sort::Frame | Sort::Can | Sort::Nest => {
                self.files.saturating_mul(self.times)
            }
        }
    }
}

/// One of the two judges: how it is called, its sorts of input, how many there are where the line does not say, and the rows that it has no way to reach.
pub struct Judge {
    pub name: &'static str,
    pub sorts: &'static [Sort],
    pub amounts: Amounts,
    pub without: &'static [Row],
}

impl Judge {
    /// Whether its inputs of a sort can reach a row.
    pub fn can_reach(&self, row: Row, sort: Sort) -> bool {
        row.sorts().contains(&sort) && !self.without.contains(&row)
    }
}

/// What the command line asks for.
#[derive(Debug, PartialEq)]
pub struct Options {
    pub seed: u64,
    pub amounts: Amounts,
    pub only: Option<(Sort, u64)>,
    pub help: bool,
}

/// The words of the command line.
pub fn words() -> Vec<String> {
    let arguments = std::env::args_os().skip(1);
    arguments
        .map(|argument| argument.to_string_lossy().into_owned())
        .collect()
}

/// The options, or the exit status where there is nothing left to do.
pub fn asked(judge: &Judge, words: &[String]) -> Result<Options, ExitCode> {
    match options_of(judge, words) {
        Ok(options) if options.help => {
            say(HELP.trim_end());
            Err(ExitCode::SUCCESS)
        }
        Ok(options) => Ok(options),
        Err(wrong) => {
            eprintln!("{}: {wrong}; ./judge --help says what there is", judge.name);
            Err(ExitCode::from(2))
        }
    }
}

/// The options, or what is wrong with the command line.
fn options_of(judge: &Judge, words: &[String]) -> Result<Options, String> {
    let mut options = Options {
        seed: 1,
        amounts: judge.amounts,
        only: None,
        help: false,
    };
    let mut words = words.iter();
    while let Some(word) = words.next() {
        match word.as_str() {
            "--help" => options.help = true,
            "--seed" => options.seed = number(word, words.next())?,
            "--files" => options.amounts.files = number(word, words.next())?,
            "--small" if judge.amounts.small > 0 => {
                options.amounts.small = number(word, words.next())?;
            }
            "--only" => options.only = Some(input(judge, words.next())?),
            _ => return Err(format!("`{word}` is no option")),
        }
    }
    Ok(options)
}

/// The number after an option.
fn number(option: &str, word: Option<&String>) -> Result<u64, String> {
    let word = word.ok_or_else(|| format!("{option} needs a number"))?;
    word.parse()
        .map_err(|_| format!("{option} needs a number, not `{word}`"))
}

/// The sort and the index after `--only`.
fn input(judge: &Judge, word: Option<&String>) -> Result<(Sort, u64), String> {
    let word = word.ok_or("--only needs an input, as trial:1234")?;
    let wrong = || format!("--only needs an input, as trial:1234, not `{word}`");
    let (name, index) = word.split_once(':').ok_or_else(wrong)?;
    let known = |sort: &Sort| judge.sorts.contains(sort);
    let sort = Sort::named(name).filter(known).ok_or_else(wrong)?;
    let index = index.parse().map_err(|_| wrong())?;
    Ok((sort, index))
}

#[cfg(test)]
mod tests {
    use super::*;

    const ALL: Judge = Judge {
        name: "all",
        sorts: &Sort::OF_ARCHIVE,
        amounts: Amounts {
            files: 2_000,
            small: 50_000,
            times: 10,
        },
        without: &[],
    };
    const FILES_ONLY: Judge = Judge {
        name: "files only",
        sorts: &Sort::OF_PROGRAMS,
        amounts: Amounts {
            files: 30,
            small: 0,
            times: 1,
        },
        without: &[],
    };

    fn options(judge: &Judge, line: &str) -> Result<Options, String> {
        let words: Vec<String> = line.split_whitespace().map(str::to_string).collect();
        options_of(judge, &words)
    }

    #[test]
    fn good_lines() {
        let defaults = options(&ALL, "").unwrap();
        assert_eq!((defaults.seed, defaults.amounts), (1, ALL.amounts));
        assert_eq!(defaults.only, None);
        let all = options(&ALL, "--seed 7 --files 3 --small 4 --only box:9").unwrap();
        let asked = Amounts {
            files: 3,
            small: 4,
            times: 10,
        };
        assert_eq!((all.seed, all.amounts), (7, asked));
        let counts = [Sort::Box, Sort::Frame, Sort::Can, Sort::Nest].map(|sort| asked.of(sort));
        assert_eq!(counts, [30; 4]);
        assert_eq!(asked.of(Sort::Trial), 3);
        let small = [Sort::Message, Sort::Range, Sort::Pair].map(|sort| asked.of(sort));
        assert_eq!(small, [4; 3]);
        assert_eq!(all.only, Some((Sort::Box, 9)));
        assert!(options(&ALL, "--help").unwrap().help);
        let files = options(&FILES_ONLY, "--only board:9").unwrap();
        assert_eq!(files.amounts, FILES_ONLY.amounts);
        assert_eq!(files.only, Some((Sort::Board, 9)));
        for (name, sort) in [("why", Sort::Why), ("explain", Sort::Explain)] {
            let only = options(&FILES_ONLY, &format!("--only {name}:7")).unwrap();
            assert_eq!(only.only, Some((sort, 7)));
            assert!(options(&ALL, &format!("--only {name}:7")).is_err());
        }
        for (name, sort) in [("pair", Sort::Pair), ("nest", Sort::Nest)] {
            let only = options(&ALL, &format!("--only {name}:7")).unwrap();
            assert_eq!(only.only, Some((sort, 7)));
        }
        for judge in [&ALL, &FILES_ONLY] {
            let only = options(judge, "--only frame:7").unwrap();
            assert_eq!(only.only, Some((Sort::Frame, 7)));
        }
    }

    #[test]
    fn wrong_lines() {
        for line in [
            "--seed",
            "--seed x",
            "--seed -1",
            "--files 1.5",
            "--only",
            "--only trial",
            "--only trial:",
            "--only crate:1",
            "--fast",
            "7",
        ] {
            assert!(options(&ALL, line).is_err(), "{line}");
        }
        for line in [
            "--small 4",
            "--only box:9",
            "--only can:9",
            "--only pair:9",
            "--only nest:9",
        ] {
            assert!(options(&FILES_ONLY, line).is_err(), "{line}");
        }
    }
}
