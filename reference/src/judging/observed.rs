//! The reference's box and board, with a count of what they went through.

use std::collections::BTreeSet;

use crate::board;
use crate::gateway::{Gateway, Line, Outcome, MOST_LINES};
use crate::message::{self, Message};
use crate::refusal;
use crate::trial::{self, Entry, HOUSE_NUMBER, PORTS};
use crate::why::Reason;

use super::counts::Column;
use super::functions::Function;
use super::histories::Arrival;
use super::indexed;
use super::moves::Move;
use super::observed_covers;
use super::rows::Row;
use super::shapes;
use super::world::low_bits;

/// Puts a message to the reference and counts what came of it.
pub fn receive(gateway: &mut Gateway, arrival: &Arrival, column: &mut Column) -> Outcome {
    let before = gateway.clone();
    let outcome = gateway.receive(u32::from(arrival.port), &arrival.bytes);
    column.saw_answer(Function::Receive, outcome.refusal);
    if outcome.refusal == refusal::NONE {
        column.saw(sent_row(outcome.sent.len(), gateway.ports as usize));
    }
    if gateway.open.len() > before.open.len() {
        column.saw(Row::PortOpened);
    }
    if gateway.lines.len() > before.lines.len() && gateway.lines.len() == MOST_LINES {
        column.saw(Row::TableFilled);
    }
    match message::read(&arrival.bytes) {
        Ok(message) if outcome.refusal == refusal::NONE => {
            saw_accepted(&before, gateway, arrival.port, &message, column);
        }
        _ => {}
    }
    outcome
}

/// Counts what an accepted announcement or restart was beside.
fn saw_accepted(
    before: &Gateway,
    after: &Gateway,
    port: u8,
    message: &Message,
    column: &mut Column,
) {
    if let Some((start, k)) = message::announced_block(message) {
        let line = Line {
            port: port.into(),
            node: message.source,
            start,
            k,
        };
        if after.lines != before.lines {
            column.saw(Row::of_block(k));
            indexed::saw_added(before, after, column);
            indexed::saw_removed(before, &after.index, |other| line.is_over(other), column);
        }
        observed_covers::saw_announced(before, &line, column);
    } else if let Some(event) = message::reported_event(message) {
        indexed::saw_report(before, port, event, column);
    } else if message::is_initialization_complete(message) {
        let source = message.source;
        shapes::saw_restart(before, source, column);
        indexed::saw_removed(before, &after.index, |line| line.node == source, column);
        if after.lines.len() < before.lines.len() {
            saw_removed(before, after, port, column);
        }
    }
}

/// Of a restart that removed lines counts whether some were at another port than its own, and what it was beside (02, W2).
fn saw_removed(before: &Gateway, after: &Gateway, port: u8, column: &mut Column) {
    let gone = |line: &&Line| !after.lines.contains(line);
    let removed: Vec<&Line> = before.lines.iter().filter(gone).collect();
    let ports: BTreeSet<u32> = removed.iter().map(|line| line.port).collect();
    if ports == BTreeSet::from([port.into()]) {
        return;
    }
    column.saw_once(Row::BoardMoved);
    column.saw(Row::RemovedElsewhere);
    let node = removed[0].node;
    let beside = |near: fn(u64, u64) -> bool| after.lines.iter().any(|line| near(line.node, node));
    for (row, is_so) in [
        (Move::FullTable, before.lines.len() == MOST_LINES),
        (Move::OpenPort, !before.open.is_empty()),
        (Move::SeveralPorts, ports.len() > 1),
        (Move::ThreePorts, ports.len() > 2),
        (Move::NoLineAtItsPort, !ports.contains(&port.into())),
        (Move::NextNodeId, beside(|other, node| other == node + 1)),
        (Move::SameLowBits, beside(same_low_bits)),
    ] {
        if is_so {
            column.saw(Row::Moved(row));
        }
    }
}

/// Whether two Node IDs differ in their high byte only.
fn same_low_bits(one: u64, other: u64) -> bool {
    (one ^ other) & low_bits(40) == 0
}

/// The row of a message that goes on to so many of the ports.
fn sent_row(sent: usize, ports: usize) -> Row {
    match sent {
        0 => Row::SentToNone,
        _ if sent == ports - 1 => Row::SentToAllOthers,
        _ => Row::SentToSome,
    }
}

/// Asks the reference why and counts what it answers.
pub fn why(
    gateway: &Gateway,
    arrival: &Arrival,
    asked: u8,
    column: &mut Column,
) -> Result<Reason, u8> {
    let answer = gateway.why(arrival.port.into(), asked.into(), &arrival.bytes);
    column.saw_answer(Function::Why, answer.err().unwrap_or(refusal::NONE));
    if let Ok(reason) = answer {
        saw_reason(gateway, arrival, reason, column);
    }
    answer
}

/// Counts a reason, and what can be said of the line.
fn saw_reason(gateway: &Gateway, arrival: &Arrival, reason: Reason, column: &mut Column) {
    column.saw(Row::Reason(reason.number()));
    let Reason::Held { place, line } = reason else {
        return;
    };
    column.saw(match line.k {
        0 => Row::HeldByOneEvent,
        _ => Row::HeldByRange,
    });
    if place == MOST_LINES - 1 {
        column.saw(Row::HeldInTheLastPlace);
    }
    let mut rest = gateway.clone();
    rest.set_lines(gateway.lines[place + 1..].to_vec());
    let again = rest.why(arrival.port.into(), line.port, &arrival.bytes);
    if again != Ok(Reason::Nothing) {
        column.saw(Row::HeldOnceMore);
    }
}

/// The entries of a trial file as they arrive; a bad file is counted.
fn arrivals_of(column: &mut Column, file: &[u8]) -> Option<Vec<Arrival>> {
    let Some(entries) = trial::entries_of(file) else {
        column.saw(Row::BadFile);
        return None;
    };
    let arrival = |entry: Entry| Arrival {
        port: entry.port as u8,
        bytes: entry.body,
    };
    Some(entries.into_iter().map(arrival).collect())
}

/// The box that a trial starts (01-scope, Trial program).
fn trial_box() -> Gateway {
    Gateway::start(PORTS, HOUSE_NUMBER).0
}

/// Counts what the reference's box goes through on a trial file.
pub fn trial_file(column: &mut Column, file: &[u8]) {
    let mut gateway = trial_box();
    for arrival in arrivals_of(column, file).unwrap_or_default() {
        receive(&mut gateway, &arrival, column);
    }
}

/// Counts what it answers of the last entry of a trial file, and what it goes through before (02, W1).
pub fn why_file(column: &mut Column, file: &[u8]) {
    let Some(arrivals) = arrivals_of(column, file) else {
        return;
    };
    let Some((last, before)) = arrivals.split_last() else {
        return column.saw(Row::NoEntries);
    };
    let mut gateway = trial_box();
    for arrival in before {
        receive(&mut gateway, arrival, column);
    }
    for asked in 0..PORTS as u8 {
        if why(&gateway, last, asked, column).is_err() {
            return;
        }
    }
}

/// Counts what it goes through on a trial file, and the reasons of every accepted report (02, W1).
pub fn explain_file(column: &mut Column, file: &[u8]) {
    let Some(arrivals) = arrivals_of(column, file) else {
        return;
    };
    if arrivals.is_empty() {
        column.saw(Row::NoEntries);
    }
    let mut gateway = trial_box();
    let mut reported = false;
    for arrival in &arrivals {
        for asked in 0..PORTS {
            if let Ok(reason) = gateway.why(arrival.port.into(), asked, &arrival.bytes) {
                saw_reason(&gateway, arrival, reason, column);
                reported = true;
            }
        }
        receive(&mut gateway, arrival, column);
    }
    if !reported {
        column.saw(Row::NoReport);
    }
}

/// Counts what the reference's board goes through on a board file.
pub fn board_file(column: &mut Column, file: &[u8]) {
    let Some((mut node, calls)) = board::parts_of(file) else {
        return column.saw(Row::BadFile);
    };
    column.saw(Row::of_board(node.slots.len()));
    for call in calls {
        let answer = call.make(&mut node);
        column.saw_call(&call, &answer, node.state);
    }
}

#[cfg(test)]
mod tests {
    use super::super::parts::Parts;
    use super::super::random::Dice;
    use super::*;

    /// The rows of moves that node 7's restart at port 2 reaches, from lines, each a port and a node, and open ports; nothing where it is no move.
    fn moves(lines: &[(u32, u64)], open: &[u32]) -> Option<Vec<Move>> {
        let mut gateway = trial_box();
        let line = |(start, (port, node)): (u64, &(u32, u64))| Line {
            port: *port,
            node: *node,
            start,
            k: 0,
        };
        gateway.set_lines((0..).zip(lines).map(line).collect());
        gateway.open = open.iter().copied().collect();
        let restart = Arrival {
            port: 2,
            bytes: Parts::restart(&mut Dice::of_input(1, 1, 1), 7, 7).bytes(),
        };
        let mut column = Column::default();
        receive(&mut gateway, &restart, &mut column);
        let moved = [Row::BoardMoved, Row::RemovedElsewhere].map(|row| column.seen(row));
        assert!(moved == [0, 0] || moved == [1, 1]);
        let beside = column.reached().filter_map(|row| match row {
            Row::Moved(beside) => Some(beside),
            _ => None,
        });
        (moved == [1, 1]).then(|| beside.collect())
    }

    /// 02, W2: a board has moved where a line at another port is removed; and what is seen beside it.
    #[test]
    fn what_a_move_is() {
        use Move::*;
        assert_eq!(moves(&[(2, 7)], &[1]), None);
        assert_eq!(moves(&[(1, 8), (2, 7), (3, 6)], &[]), None);
        assert_eq!(moves(&[(1, 8)], &[]), None);
        let alone = Some(vec![NoLineAtItsPort]);
        assert_eq!(moves(&[(1, 7)], &[]), alone);
        assert_eq!(moves(&[(1, 7), (2, 6), (2, 7 << 40)], &[]), alone);
        assert_eq!(moves(&[(1, 7), (2, 7)], &[]), Some(vec![SeveralPorts]));
        let three = [(0, 7), (1, 7), (2, 7)];
        assert_eq!(moves(&three, &[]), Some(vec![SeveralPorts, ThreePorts]));
        let next = Some(vec![NoLineAtItsPort, NextNodeId]);
        assert_eq!(moves(&[(2, 8), (3, 7)], &[]), next);
        let high = Some(vec![NoLineAtItsPort, SameLowBits]);
        assert_eq!(moves(&[(3, 7), (0, 7 | 1 << 40)], &[]), high);
        let open = Some(vec![OpenPort, NoLineAtItsPort]);
        assert_eq!(moves(&[(3, 7)], &[0]), open);
        let full = Some(vec![FullTable, NoLineAtItsPort]);
        assert_eq!(moves(&[(3, 7); 256], &[]), full);
        assert_eq!(moves(&[(3, 7); 255], &[]), alone);
    }
}
