//! Slips at an announcement, in the stand-in for the archive's box (02, W4): here those in what is covered.

use crate::gateway::{Gateway, Line, MOST_LINES};
use crate::message;
use crate::range::{self, Comparison};

use super::counts::Column;
use super::sort::Sort;
use super::stand_in_box::{differs, Slips, StandIn, NO_SLIPS};
use super::stand_in_files::{explain_shows, trial_shows};
use super::stand_in_replaces as replaces;

/// An announcement that is accepted: the state before it, and the line that it would be.
pub struct Announcement<'a> {
    pub before: &'a Gateway,
    pub line: Line,
}

/// A slip: what it makes of the state that an announcement rightly leaves.
pub type Slip = fn(&Announcement, &mut Gateway);

impl Announcement<'_> {
    /// The announcement that a message is, if it is one.
    pub fn of<'a>(before: &'a Gateway, port: u8, bytes: &[u8]) -> Option<Announcement<'a>> {
        let message = message::read(bytes).ok()?;
        let (start, k) = message::announced_block(&message)?;
        let line = Line {
            port: port.into(),
            node: message.source,
            start,
            k,
        };
        Some(Announcement { before, line })
    }

    fn has(&self, is_so: impl Fn(&Line) -> bool) -> bool {
        self.before.lines.iter().any(is_so)
    }

    pub fn is_full(&self) -> bool {
        self.before.lines.len() == MOST_LINES
    }

    /// Whether it is equal to a line of its port and node.
    fn is_there(&self) -> bool {
        self.has(|line| *line == self.line)
    }

    /// Whether it rightly isn't stored.
    pub fn is_covered(&self) -> bool {
        self.has(|line| self.line.is_covered_by(line))
    }

    /// Whether it rightly replaces lines.
    pub fn replaces(&self) -> bool {
        !self.is_covered() && self.has(|line| self.line.is_over(line))
    }

    /// How its block lies to a line's, whosever and wherever that is.
    pub fn lies(&self, line: &Line) -> Option<Comparison> {
        range::compare((self.line.start, self.line.k), (line.start, line.k)).ok()
    }

    /// The same with another line taken for one of its port and node.
    fn is_inside(&self, line: &Line) -> bool {
        matches!(
            self.lies(line),
            Some(Comparison::Equal | Comparison::FirstInside)
        )
    }

    /// The state where these lines go and it is stored, or opens the port.
    pub fn stores(&self, after: &mut Gateway, gone: impl Fn(&Line) -> bool) {
        *after = self.before.clone();
        after.lines.retain(|line| !gone(line));
        if after.lines.len() < MOST_LINES {
            after.lines.push(self.line);
        } else {
            after.open.insert(self.line.port);
        }
    }

    /// The state where it has gone unheard.
    pub fn ignores(&self, after: &mut Gateway) {
        *after = self.before.clone();
    }
}

pub fn none(_: &Announcement, _: &mut Gateway) {}

fn covered_is_stored(announcement: &Announcement, after: &mut Gateway) {
    if announcement.is_covered() {
        announcement.stores(after, |_| false);
    }
}

fn only_equal_is_covered(announcement: &Announcement, after: &mut Gateway) {
    if announcement.is_covered() && !announcement.is_there() {
        announcement.stores(after, |_| false);
    }
}

fn only_inside_is_covered(announcement: &Announcement, after: &mut Gateway) {
    if announcement.is_there() {
        announcement.stores(after, |_| false);
    }
}

fn only_events_are_covered(announcement: &Announcement, after: &mut Gateway) {
    if announcement.line.k > 0 {
        only_equal_is_covered(announcement, after);
    }
}

fn every_event_covers_nothing(announcement: &Announcement, after: &mut Gateway) {
    let covers = |line: &Line| announcement.line.is_covered_by(line) && line.k < 64;
    if announcement.is_covered() && !announcement.has(covers) {
        announcement.stores(after, |_| false);
    }
}

fn only_the_first_own_line_covers(announcement: &Announcement, after: &mut Gateway) {
    let mut lines = announcement.before.lines.iter();
    let first = lines.find(|line| announcement.line.against(line).is_some());
    if announcement.is_covered() && !first.is_some_and(|line| announcement.is_inside(line)) {
        announcement.stores(after, |_| false);
    }
}

fn another_nodes_line_covers(announcement: &Announcement, after: &mut Gateway) {
    let port = announcement.line.port;
    if announcement.has(|line| line.port == port && announcement.is_inside(line)) {
        announcement.ignores(after);
    }
}

fn another_ports_line_covers(announcement: &Announcement, after: &mut Gateway) {
    let node = announcement.line.node;
    if announcement.has(|line| line.node == node && announcement.is_inside(line)) {
        announcement.ignores(after);
    }
}

fn the_first_event_is_enough(announcement: &Announcement, after: &mut Gateway) {
    let first = Line {
        k: 0,
        ..announcement.line
    };
    if announcement.has(|line| first.is_covered_by(line)) {
        announcement.ignores(after);
    }
}

fn two_halves_cover(announcement: &Announcement, after: &mut Gateway) {
    let Line { start, k, .. } = announcement.line;
    if k == 0 {
        return;
    }
    let half = |start: u64| Line {
        start,
        k: k - 1,
        ..announcement.line
    };
    let halves = [half(start), half(start | 1 << (k - 1))];
    if halves
        .iter()
        .all(|half| announcement.has(|line| line == half))
    {
        announcement.ignores(after);
    }
}

fn covered_opens_a_full_table(announcement: &Announcement, after: &mut Gateway) {
    if announcement.is_covered() && announcement.is_full() {
        after.open.insert(announcement.line.port);
    }
}

/// Slips in what is covered.
const SLIPS: [Slip; 11] = [
    covered_is_stored,
    only_equal_is_covered,
    only_inside_is_covered,
    only_events_are_covered,
    every_event_covers_nothing,
    only_the_first_own_line_covers,
    another_nodes_line_covers,
    another_ports_line_covers,
    the_first_event_is_enough,
    two_halves_cover,
    covered_opens_a_full_table,
];
/// The slips that trial files show.
fn of_trial() -> impl Iterator<Item = Slip> {
    SLIPS.into_iter().chain(replaces::SLIPS)
}

/// The slip alone.
fn with(announcement: Slip) -> Slips {
    Slips {
        announcement,
        ..NO_SLIPS
    }
}

/// Every slip is found soon, in whichever call it is, whatever the seed, in histories of nested ranges and in all others.
#[test]
fn slips() {
    let all = of_trial()
        .chain(replaces::OF_ORDER)
        .chain(replaces::OF_GIVEN);
    for (place, slip) in all.enumerate() {
        for (by_value, in_place) in [(slip, none as Slip), (none, slip)] {
            let stand_in = StandIn::with_slips(with(by_value), with(in_place));
            for (sort, inputs) in [(Sort::Nest, 200), (Sort::Box, 600)] {
                for seed in 1..=3 {
                    let column = &mut Column::default();
                    let found = |index| differs(seed, sort, index, &stand_in, column);
                    let name = sort.name();
                    assert!(
                        (0..inputs).any(found),
                        "slip {place} with {name} and seed {seed}"
                    );
                }
            }
        }
    }
}

/// Trial files show every slip too, but for those of order and of given tables.
#[test]
fn slips_in_trial_files() {
    for (place, slip) in of_trial().enumerate() {
        assert!(trial_shows(with(slip)), "slip {place}");
    }
}

/// Files that are explained show those of order too.
#[test]
fn slips_in_explained_files() {
    for (place, slip) in of_trial().chain(replaces::OF_ORDER).enumerate() {
        assert!(explain_shows(with(slip)), "slip {place}");
    }
}
