//! The meters of a box's ports, and what they save (02, W7).

use std::collections::BTreeSet;

use crate::gateway::{Gateway, Outcome};
use crate::message;
use crate::refusal;

/// The ports that a box can have at most; each has a meter, those that a box does not have too.
pub const MOST_PORTS: usize = 8;
/// The counts of a meter.
pub const COUNTS: usize = 5;

/// What is counted, by its place in a meter (02, W7, "a meter of five counts").
#[derive(Clone, Copy, Debug, PartialEq, Eq)]
pub enum Count {
    Accepted,
    Refused,
    ReportsIn,
    Sent,
    HeldBack,
}

/// A port's meter: five counts and a mark (02, W7).
#[derive(Clone, Copy, Debug, Default, PartialEq, Eq)]
pub struct Meter {
    pub counts: [u32; COUNTS],
    pub marked: bool,
}

impl Meter {
    /// One more; a count that would pass what 32 bits hold stays, and marks the meter (02, W7).
    fn count(&mut self, what: Count) {
        let count = &mut self.counts[what as usize];
        match count.checked_add(1) {
            Some(more) => *count = more,
            None => self.marked = true,
        }
    }
}

/// The meters of all ports; at first all counts are zero and none is marked (02, W7, "counted up from zero").
pub type Meters = [Meter; MOST_PORTS];

/// A message arrives at a port of a box with meters: what the box answers, and what its meters count of it. 7 and 8 are on no meter (02, W7).
pub fn receive(gateway: &mut Gateway, meters: &mut Meters, port: u32, bytes: &[u8]) -> Outcome {
    let outcome = gateway.receive(port, bytes);
    match outcome.refusal {
        refusal::BOUNDS | refusal::PORT => {}
        refusal::NONE => {
            meters[port as usize].count(Count::Accepted);
            if is_report(bytes) {
                count_report(meters, gateway.ports, port, &outcome.sent);
            }
        }
        _ => meters[port as usize].count(Count::Refused),
    }
    outcome
}

/// Whether an accepted message is an event report (01-scope, Messages, "An event report").
fn is_report(bytes: &[u8]) -> bool {
    message::read(bytes).is_ok_and(|message| message::reported_event(&message).is_some())
}

/// A report is counted in at its own port, and sent or held back at every other port of the box (02, W7).
fn count_report(meters: &mut Meters, ports: u32, arrival: u32, sent: &BTreeSet<u32>) {
    for port in 0..ports {
        let what = match port {
            _ if port == arrival => Count::ReportsIn,
            _ if sent.contains(&port) => Count::Sent,
            _ => Count::HeldBack,
        };
        meters[port as usize].count(what);
    }
}

/// Held back in tenths of a per cent of sent plus held back, to the nearest, halves up; nothing where that sum is 0 (02, W7).
pub fn share_of(sent: u64, held_back: u64) -> Option<u64> {
    let (sent, held_back) = (u128::from(sent), u128::from(held_back));
    let sum = sent + held_back;
    if sum == 0 {
        return None;
    }
    // The nearest whole number to a fraction, halves up, is the whole part of the fraction and a half.
    Some(((2 * 1_000 * held_back + sum) / (2 * sum)) as u64)
}

#[cfg(test)]
mod tests;
