//! The case files of the board (CASE-FILES; the calls are those of 01-scope, Node).

use crate::case_file::{places, text_of, Case, MOST_MESSAGE};
use crate::lent_board::LentBoard;
use crate::node::{Answer, Node, Slot};
use crate::refusal;

/// The places of a slot list (CASE-FILES).
const PLACES: usize = 65;
/// The most room that a call is lent (CASE-FILES).
const MOST_ROOM: u64 = 1_040;
/// The byte that a long message goes on with (CASE-FILES).
const FILL: u8 = 0x07;
/// The bytes of a printed line of output (CASE-FILES).
const A_LINE: usize = 16;

/// The text of a case file of the board (CASE-FILES).
pub fn node_cases_text(file: &[u8]) -> Vec<u8> {
    let slot = Slot {
        role: 0,
        event: 0,
        status: 0,
        mark: 0,
    };
    let mut bench = LentBoard {
        id: 0,
        state: 0,
        automatic: (0, 0),
        slots: vec![slot; PLACES],
        lengths: [0; 4],
    };
    let mut kept = bench.clone();
    text_of(file, |case| {
        match (case.name.as_str(), case.numbers.len(), &case.message) {
            ("keep", 0, None) => kept = bench.clone(),
            ("agai", 0, None) => bench = kept.clone(),
            _ => return lay_out(&mut bench, case).or_else(|| call(&mut bench, case)),
        }
        Some(String::new())
    })
}

/// Lays out what a line says, nothing where it is a call (CASE-FILES).
fn lay_out(bench: &mut LentBoard, case: &Case) -> Option<String> {
    match (case.name.as_str(), &case.numbers[..], &case.message) {
        ("reco", &[id, state, start, k], None) => {
            bench.id = id;
            bench.state = state as u8;
            bench.automatic = (start, u32::from(k as u8));
        }
        ("slot", &[first, last, stride, role, event, status, mark, step], None) => {
            let mut slot = Slot {
                role: role as u8,
                event,
                status: status as u8,
                mark: mark as u8,
            };
            for place in places(PLACES as u64, first, last, stride) {
                bench.slots[place] = slot;
                slot.event = slot.event.wrapping_add(step);
            }
        }
        ("leng", &[roles, events, statuses, marks], None) => {
            let within = |length: u64| (length % (PLACES as u64 + 1)) as usize;
            bench.lengths = [roles, events, statuses, marks].map(within);
        }
        _ => return None,
    }
    Some(String::new())
}

/// Makes the call of a line, nothing where there is no such command (CASE-FILES).
fn call(bench: &mut LentBoard, case: &Case) -> Option<String> {
    let within = |room: u64| (room % (MOST_ROOM + 1)) as usize;
    match (case.name.as_str(), &case.numbers[..], &case.message) {
        ("init", &[room], None) => Some(told(bench, |node| node.initialise(within(room)))),
        ("anno", &[slot, room], None) => Some(told(bench, |node| {
            node.announce(slot as usize, within(room))
        })),
        ("prod", &[slot, room], None) => Some(told(bench, |node| {
            node.produce(slot as usize, within(room))
        })),
        ("set", &[slot, status], None) => Some(told(bench, |node| {
            node.set_status(slot as usize, status as u8)
        })),
        ("rece", &[room], Some(message)) => {
            Some(told(bench, |node| node.receive(message, within(room))))
        }
        ("long", &[room, more], Some(message)) => {
            let most = MOST_MESSAGE + 1;
            let mut message = message.clone();
            let length = (message.len() + (more % most as u64) as usize) % most;
            message.resize(length, FILL);
            Some(told(bench, |node| node.receive(&message, within(room))))
        }
        _ => None,
    }
}

/// Makes a call on what is lent and prints what came of it (CASE-FILES).
fn told(bench: &mut LentBoard, make: impl FnOnce(&mut Node) -> Answer) -> String {
    let answer = bench.call(make);
    let said = if answer.refusal == refusal::NONE {
        "accepted".to_string()
    } else {
        format!("refused {}", answer.refusal)
    };
    let written = answer.written.len();
    let (start, k) = bench.automatic;
    let [_, _, statuses, marks] = bench.lengths;
    let mut text = format!(
            "  {said}; messages {:x}; bytes {written:x}; matches {:x}; record {:012x} {:x} {start:016x} {k:x}\n",
            answer.messages().count(),
            answer.matches,
            bench.id,
            bench.state
        );
    text.push_str("  marks ");
    for slot in &bench.slots[..marks] {
        text.push_str(&format!("{:x}", slot.mark));
    }
    text.push_str("; statuses ");
    for slot in &bench.slots[..statuses] {
        text.push_str(&format!("{:x}", slot.status));
    }
    for line in answer.written.chunks(A_LINE) {
        text.push_str("\n  ");
        for byte in line {
            text.push_str(&format!("{byte:02x}"));
        }
    }
    text + "\n  rest kept\n"
}

#[cfg(test)]
mod tests {
    use super::*;

    const RECORD: &str = "record 0a0000000001 0 0100000000000000 10\n";
    const SLOTS: &str = "slots 0 2 1 0 0a00000000010001 1 0 1\nlengths 3 3 3 3\n";

    fn last_of(calls: &str) -> String {
        let file = format!("{RECORD}{SLOTS}{calls}");
        let text = String::from_utf8(node_cases_text(file.as_bytes())).unwrap();
        let call = calls.trim_end().lines().last().unwrap();
        text.rsplit_once(&format!("{call}\n"))
            .unwrap()
            .1
            .to_string()
    }

    /// 01-scope, Node, "Initialise": the bytes, the state and the marks are printed.
    #[test]
    fn initialised() {
        let expected = "  accepted; messages 1; bytes e; matches 0; record 0a0000000001 1 0100000000000000 10\n  marks 000; statuses 111\n  01000a00000000010a0000000001\n  rest kept\n";
        assert_eq!(last_of("initialise e\n"), expected);
        assert!(last_of("initialise d\n").starts_with("  refused 6; messages 0; bytes 0;"));
    }

    /// 01-scope, Node, "Receive": three replies, a line each.
    #[test]
    fn identified() {
        let text = last_of("initialise e\nreceive 410: 0970 0a0000000009\n");
        assert!(text.starts_with("  accepted; messages 3; bytes 30; matches 0;"));
        assert!(text.contains("marks 111; statuses 111\n  05450a00000000010a00000000010001\n"));
        assert_eq!(text.lines().count(), 6);
    }

    /// 01-scope, Node, "Out of bounds": lists of unequal length; CASE-FILES, `keep` and `again`.
    #[test]
    fn unequal_lists() {
        assert!(last_of("keep\nlengths 3 3 2 4\nset 0 2\n").contains("marks 0000; statuses 11\n"));
        assert!(last_of("keep\nlengths 3 3 2 4\nset 0 2\n").starts_with("  refused 7;"));
        assert!(last_of("keep\nset 1 2\nagain\nset 0 2\n").contains("statuses 211\n"));
        assert!(last_of("keep\nlengths 0 0 0\n").ends_with("cannot be read\n"));
    }
}
