//! Slips at a restart, in the stand-in for the archive's box (02, W2): here those in which lines go, and in how the rest is ordered.

use crate::gateway::{Gateway, Line, MOST_LINES};
use crate::message;

use super::counts::Column;
use super::sort::Sort;
use super::stand_in_box::{differs, Slips, StandIn, NO_SLIPS};
use super::stand_in_files::{explain_shows, trial_shows};
use super::stand_in_survivors as survivors;
use super::world::low_bits;

/// A restart that is accepted: the state before it, its port, its MTI and its node.
pub struct Restart<'a> {
    pub before: &'a Gateway,
    port: u32,
    mti: u16,
    pub node: u64,
}

/// A slip: what it makes of the state that a restart rightly leaves.
pub type Slip = fn(&Restart, &mut Gateway);

impl Restart<'_> {
    /// The restart that a message is, if it is one.
    pub fn of<'a>(before: &'a Gateway, port: u8, bytes: &[u8]) -> Option<Restart<'a>> {
        let message = message::read(bytes).ok()?;
        message::is_initialization_complete(&message).then_some(Restart {
            before,
            port: port.into(),
            mti: message.mti,
            node: message.source,
        })
    }

    /// Whether the line is rightly removed.
    pub fn is_own(&self, line: &Line) -> bool {
        line.node == self.node
    }

    /// Whether the line is of the port where the restart came in.
    fn is_here(&self, line: &Line) -> bool {
        line.port == self.port
    }

    /// Whether the line is of the node at another port.
    fn is_elsewhere(&self, line: &Line) -> bool {
        self.is_own(line) && !self.is_here(line)
    }

    /// The state where these lines have gone and no others.
    fn removes(&self, after: &mut Gateway, gone: impl Fn(&Line) -> bool) {
        after.lines = self.before.lines.clone();
        after.lines.retain(|line| !gone(line));
    }
}

pub fn none(_: &Restart, _: &mut Gateway) {}

fn at_its_own_port_only(restart: &Restart, after: &mut Gateway) {
    restart.removes(after, |line| restart.is_own(line) && restart.is_here(line));
}

fn at_every_port_but_its_own(restart: &Restart, after: &mut Gateway) {
    restart.removes(after, |line| restart.is_elsewhere(line));
}

fn at_ports_up_to_its_own(restart: &Restart, after: &mut Gateway) {
    restart.removes(after, |line| {
        restart.is_own(line) && line.port <= restart.port
    });
}

fn at_one_port_only(restart: &Restart, after: &mut Gateway) {
    let first = restart
        .before
        .lines
        .iter()
        .find(|line| restart.is_own(line));
    restart.removes(after, |line| {
        restart.is_own(line) && first.is_some_and(|first| first.port == line.port)
    });
}

fn every_line_at_every_port(_: &Restart, after: &mut Gateway) {
    after.lines.clear();
}

fn every_line_at_its_own_port(restart: &Restart, after: &mut Gateway) {
    after.lines.retain(|line| !restart.is_here(line));
}

fn the_next_node_in_its_place(restart: &Restart, after: &mut Gateway) {
    restart.removes(after, |line| line.node == restart.node + 1);
}

fn the_next_node_too(restart: &Restart, after: &mut Gateway) {
    after.lines.retain(|line| line.node != restart.node + 1);
}

fn the_node_before_too(restart: &Restart, after: &mut Gateway) {
    after.lines.retain(|line| line.node + 1 != restart.node);
}

/// Nodes count as one where so many low bits are the same.
fn by_low_bits(count: u32, restart: &Restart, after: &mut Gateway) {
    let same = |line: &Line| (line.node ^ restart.node) & low_bits(count) == 0;
    after.lines.retain(|line| !same(line));
}

fn by_the_low_32_bits(restart: &Restart, after: &mut Gateway) {
    by_low_bits(32, restart, after);
}

fn by_the_low_40_bits(restart: &Restart, after: &mut Gateway) {
    by_low_bits(40, restart, after);
}

fn ranges_elsewhere_stay(restart: &Restart, after: &mut Gateway) {
    restart.removes(after, |line| {
        restart.is_own(line) && (restart.is_here(line) || line.k == 0)
    });
}

/// One of the node's lines at another port stays.
fn stays(kept: Option<&Line>, restart: &Restart, after: &mut Gateway) {
    restart.removes(after, |line| restart.is_own(line) && Some(line) != kept);
}

fn the_first_elsewhere_stays(restart: &Restart, after: &mut Gateway) {
    let mut lines = restart.before.lines.iter();
    stays(
        lines.find(|line| restart.is_elsewhere(line)),
        restart,
        after,
    );
}

fn the_last_elsewhere_stays(restart: &Restart, after: &mut Gateway) {
    let mut lines = restart.before.lines.iter();
    stays(
        lines.rfind(|line| restart.is_elsewhere(line)),
        restart,
        after,
    );
}

fn a_full_table_at_its_own_port_only(restart: &Restart, after: &mut Gateway) {
    if restart.before.lines.len() == MOST_LINES {
        at_its_own_port_only(restart, after);
    }
}

fn the_second_mti_at_its_own_port_only(restart: &Restart, after: &mut Gateway) {
    if restart.mti == 0x0110 {
        at_its_own_port_only(restart, after);
    }
}

fn a_move_clears_the_open_marks(restart: &Restart, after: &mut Gateway) {
    let mut lines = restart.before.lines.iter();
    if lines.any(|line| restart.is_elsewhere(line)) {
        after.open.clear();
    }
}

fn its_own_open_mark_goes(restart: &Restart, after: &mut Gateway) {
    after.open.remove(&restart.port);
}

fn the_rest_is_reversed(restart: &Restart, after: &mut Gateway) {
    if after.lines.len() < restart.before.lines.len() {
        after.lines.reverse();
    }
}

fn the_last_line_fills_the_gap(restart: &Restart, after: &mut Gateway) {
    after.lines = restart.before.lines.clone();
    while let Some(place) = after.lines.iter().position(|line| restart.is_own(line)) {
        after.lines.swap_remove(place);
    }
}

const SLIPS: [Slip; 18] = [
    at_its_own_port_only,
    at_every_port_but_its_own,
    at_ports_up_to_its_own,
    at_one_port_only,
    every_line_at_every_port,
    every_line_at_its_own_port,
    the_next_node_in_its_place,
    the_next_node_too,
    the_node_before_too,
    by_the_low_32_bits,
    by_the_low_40_bits,
    ranges_elsewhere_stay,
    the_first_elsewhere_stays,
    the_last_elsewhere_stays,
    a_full_table_at_its_own_port_only,
    the_second_mti_at_its_own_port_only,
    a_move_clears_the_open_marks,
    its_own_open_mark_goes,
];
/// Slips in the order of the lines, which `trial` does not show.
const SLIPS_OF_ORDER: [Slip; 2] = [the_rest_is_reversed, the_last_line_fills_the_gap];

/// The slips that trial files show.
fn of_trial() -> impl Iterator<Item = Slip> {
    SLIPS.into_iter().chain(survivors::SLIPS)
}

/// The slips that files to explain show.
fn of_explain() -> impl Iterator<Item = Slip> {
    of_trial().chain(SLIPS_OF_ORDER).chain(survivors::OF_ORDER)
}

/// The slip alone.
fn with(restart: Slip) -> Slips {
    Slips {
        restart,
        ..NO_SLIPS
    }
}

/// Every slip is found soon, in whichever call it is, whatever the seed.
#[test]
fn slips() {
    for (place, slip) in of_explain().chain(survivors::OF_COUNT).enumerate() {
        for (by_value, in_place) in [(slip, none as Slip), (none, slip)] {
            let stand_in = StandIn::with_slips(with(by_value), with(in_place));
            for seed in 1..=4 {
                let column = &mut Column::default();
                let found = |index| differs(seed, Sort::Box, index, &stand_in, column);
                assert!((0..200).any(found), "slip {place} with seed {seed}");
            }
        }
    }
}

/// Trial files show every slip too, but for those of order.
#[test]
fn slips_in_trial_files() {
    for (place, slip) in of_trial().chain(survivors::OF_COUNT).enumerate() {
        assert!(trial_shows(with(slip)), "slip {place}");
    }
}

/// Files that are explained show those of order too, but not a line too many.
#[test]
fn slips_in_explained_files() {
    for (place, slip) in of_explain().enumerate() {
        assert!(explain_shows(with(slip)), "slip {place}");
    }
}
