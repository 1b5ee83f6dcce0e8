//! Whether the inputs have reached what they are to reach: a judge that has not seen an answer has not judged it.

use super::command::{Judge, Options};
use super::counts::Columns;
use super::rows::Row;
use super::sort::Sort;

/// What keeps a judge from passing even where nothing differs, in words; nothing if nothing does.
pub fn faults(judge: &Judge, options: &Options, columns: &Columns) -> Vec<String> {
    let mut faults = Vec::new();
    for sort in judge.sorts {
        let column = &columns[*sort as usize];
        if column.seen(Row::Comparisons) == 0 {
            faults.push(format!("{}: nothing was compared", sort.name()));
            continue;
        }
        let missed = |row: &Row| judge.can_reach(*row, *sort) && column.seen(*row) < row.least();
        if is_asked(judge, options, *sort) {
            for row in Row::all().into_iter().filter(missed) {
                let how_often = how_often(column.seen(row), row.least());
                faults.push(format!("{}: {how_often}: {}", sort.name(), row.label()));
            }
        }
        let barred = |row: &Row| !judge.can_reach(*row, *sort);
        for row in column.reached().filter(barred) {
            let label = row.label();
            faults.push(format!("{}: reached but cannot be: {label}", sort.name()));
        }
    }
    faults
}

/// A row that was reached too few times, in words.
fn how_often(seen: u64, least: u64) -> String {
    match seen {
        0 => "never reached".to_string(),
        _ => format!("reached {seen} times, and {least} are asked for"),
    }
}

/// The sorts of which there are some inputs but fewer than by default, so that not every row has to be reached.
pub fn not_asked<'a>(judge: &'a Judge, options: &'a Options) -> impl Iterator<Item = Sort> + 'a {
    let sorts = judge.sorts.iter().copied();
    sorts.filter(|sort| options.amounts.of(*sort) > 0 && !is_asked(judge, options, *sort))
}

/// Whether there are inputs enough of a sort for every row to be reached.
fn is_asked(judge: &Judge, options: &Options, sort: Sort) -> bool {
    options.amounts.of(sort) >= judge.amounts.of(sort)
}

#[cfg(test)]
mod tests {
    use super::super::command::Amounts;
    use super::super::functions::Function;
    use super::*;

    const DEFAULT: Amounts = Amounts {
        files: 10,
        small: 20,
        times: 0,
    };
    const JUDGE: Judge = Judge {
        name: "judge",
        sorts: &[Sort::Message, Sort::Board],
        amounts: DEFAULT,
        without: &[Row::TextInParts],
    };

    fn options(files: u64, small: u64) -> Options {
        Options {
            seed: 1,
            amounts: Amounts {
                files,
                small,
                times: 0,
            },
            only: None,
            help: false,
        }
    }

    /// Columns in which every row is reached that can be, but for those left out.
    fn all_but(left_out: &[(Sort, Row)]) -> Columns {
        let mut columns = Columns::default();
        for sort in Sort::ALL {
            for row in Row::all() {
                if JUDGE.can_reach(row, sort) && !left_out.contains(&(sort, row)) {
                    (0..row.least()).for_each(|_| columns[sort as usize].saw(row));
                }
            }
        }
        columns
    }

    /// A row that is not reached is named, whichever it is; rows of sorts that this judge has not are not its business.
    #[test]
    fn every_row_is_asked_for() {
        let all = options(10, 20);
        assert_eq!(faults(&JUDGE, &all, &all_but(&[])), [""; 0]);
        for row in Row::all() {
            for sort in Sort::ALL
                .into_iter()
                .filter(|sort| JUDGE.can_reach(row, *sort))
            {
                let found = faults(&JUDGE, &all, &all_but(&[(sort, row)]));
                let said = match row {
                    Row::Comparisons => format!("{}: nothing was compared", sort.name()),
                    _ => format!("{}: never reached: {}", sort.name(), row.label()),
                };
                let expected: Vec<String> = JUDGE
                    .sorts
                    .contains(&sort)
                    .then_some(said)
                    .into_iter()
                    .collect();
                assert_eq!(found, expected);
            }
        }
    }

    /// A row that has to be reached several times, and is not.
    #[test]
    fn too_few_times() {
        let judge = Judge {
            sorts: &[Sort::Can],
            amounts: Amounts {
                times: 1,
                ..DEFAULT
            },
            ..JUDGE
        };
        let row = Row::Answer(Function::Join, 20);
        assert!(row.least() > 1);
        let options = Options {
            amounts: judge.amounts,
            ..options(10, 20)
        };
        let mut columns = all_but(&[(Sort::Can, row)]);
        for seen in 0..row.least() {
            let said = match seen {
                0 => "can: never reached: join: refused 20".to_string(),
                _ => format!("can: reached {seen} times, and 10 are asked for: join: refused 20"),
            };
            assert_eq!(faults(&judge, &options, &columns), [said]);
            columns[Sort::Can as usize].saw(row);
        }
        assert_eq!(faults(&judge, &options, &columns), [""; 0]);
    }

    /// A row that cannot be reached is a fault where it is, with few inputs too.
    #[test]
    fn what_cannot_be() {
        for (sort, row) in [
            (Sort::Board, Row::TooManyReplies),
            (Sort::Message, Row::TooManyReplies),
            (Sort::Message, Row::BadFile),
            (Sort::Board, Row::WrittenBack),
            (Sort::Board, Row::TextInParts),
        ] {
            let mut columns = all_but(&[]);
            columns[sort as usize].saw(row);
            let said = format!("{}: reached but cannot be: {}", sort.name(), row.label());
            for few_or_all in [options(1, 1), options(10, 20)] {
                assert_eq!(faults(&JUDGE, &few_or_all, &columns), [&*said]);
            }
        }
    }

    /// Fewer inputs than by default, of one sort or of all: it is said, and nothing else is asked for but that something was compared.
    #[test]
    fn few_inputs() {
        let unreached = [
            (Sort::Message, Row::WrittenBack),
            (Sort::Board, Row::BadFile),
        ];
        let columns = all_but(&unreached);
        let said = |files, small| faults(&JUDGE, &options(files, small), &columns).len();
        assert_eq!(
            [said(10, 20), said(9, 20), said(10, 19), said(9, 19)],
            [2, 1, 1, 0]
        );
        assert_eq!([said(11, 21), said(11, 19)], [2, 1]);
        let told = |files, small| not_asked(&JUDGE, &options(files, small)).collect::<Vec<_>>();
        assert_eq!(told(10, 20), []);
        assert_eq!(told(9, 20), [Sort::Board]);
        assert_eq!(told(1, 1), [Sort::Message, Sort::Board]);
        assert_eq!(told(0, 1), [Sort::Message]);
    }

    /// No inputs of a sort: nothing was compared.
    #[test]
    fn nothing() {
        let none = [
            "message: nothing was compared",
            "board: nothing was compared",
        ];
        for amounts in [options(0, 0), options(10, 20)] {
            assert_eq!(faults(&JUDGE, &amounts, &Columns::default()), none);
        }
        let mut columns = all_but(&[]);
        columns[Sort::Board as usize] = Default::default();
        assert_eq!(faults(&JUDGE, &options(0, 20), &columns), none[1..]);
    }
}
