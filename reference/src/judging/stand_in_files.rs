//! Whether files show a slip of the stand-in for the archive's box.

use crate::lent_box::{self, Reason};
use crate::trial::{self, Entry, HOUSE_NUMBER, PORTS};

use super::boxes::Calls;
use super::random::Dice;
use super::sort::Sort;
use super::stand_in_box::{Slips, StandIn, NO_SLIPS, SOUND};
use super::trial_files::{any_file, any_file_to_ask};

/// What comes of the entries of a file, each with the state before it.
fn answers<T>(
    file: &[u8],
    stand_in: &StandIn,
    shown: impl Fn(&mut lent_box::Gateway, &Entry, &lent_box::Answer) -> T,
) -> Vec<T> {
    let mut gateway = stand_in.start(PORTS as u8, HOUSE_NUMBER).gateway;
    let mut all = Vec::new();
    for entry in trial::entries_of(file).unwrap_or_default() {
        let answer = stand_in.receive(&gateway, entry.port as u8, &entry.body);
        all.push(shown(&mut gateway, &entry, &answer));
        gateway = answer.gateway;
    }
    all
}

/// What the lines of `trial` say: each entry's refusal, the ports sent to, and the lines in the table.
fn shown_by_trial(file: &[u8], stand_in: &StandIn) -> Vec<(u8, u8, usize)> {
    answers(file, stand_in, |_, _, answer| {
        (answer.refusal, answer.sent, answer.gateway.head.count)
    })
}

/// What the lines of `explain` say: each entry's refusal, and the reasons at all ports.
fn shown_by_explain(file: &[u8], stand_in: &StandIn) -> Vec<(u8, Vec<Reason>)> {
    answers(file, stand_in, |before, entry, answer| {
        let (head, port) = (before.head, entry.port as u8);
        let why = |asked| stand_in.why(head, before.lists(), port, asked, &entry.body);
        (answer.refusal, (0..PORTS as u8).map(why).collect())
    })
}

/// Whether files of a sort show slips soon, whatever the seed.
fn files_show<T: PartialEq>(
    slips: Slips,
    sort: Sort,
    any_file: fn(&mut Dice) -> Vec<u8>,
    shown: fn(&[u8], &StandIn) -> T,
) -> bool {
    let slipped = StandIn::with_slips(slips, NO_SLIPS);
    let shows = |seed, index| {
        let file = any_file(&mut Dice::of_input(seed, sort as u64, index));
        shown(&file, &slipped) != shown(&file, &SOUND)
    };
    (1..=4).all(|seed| (0..200).any(|index| shows(seed, index)))
}

/// Whether trial files do.
pub fn trial_shows(slips: Slips) -> bool {
    files_show(slips, Sort::Trial, any_file, shown_by_trial)
}

/// Whether files that are explained do.
pub fn explain_shows(slips: Slips) -> bool {
    files_show(slips, Sort::Explain, any_file_to_ask, shown_by_explain)
}
