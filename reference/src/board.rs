//! Board files (BOARD-FILES; the calls are those of 01-scope, Node).

use crate::call::Call;
use crate::node::{Answer, Node, Slot, NOT_INITIALIZED, UNADVERTISED};
use crate::range;
use crate::rest::{hexadecimal, or_dash, Rest};

/// The most bytes of a file (BOARD-FILES).
pub const MOST_BYTES: usize = 65_536;
/// The most slots of a file (BOARD-FILES).
pub const MOST_SLOTS: u64 = 100;
/// The most calls of a file (BOARD-FILES).
pub const MOST_CALLS: usize = 1_000;
/// The most room a call may lend (BOARD-FILES).
pub const MOST_ROOM: u64 = 2_048;
/// What a file prints that cannot be taken (BOARD-FILES).
pub const BAD_FILE: &[u8] = b"bad file\n";

/// Takes a room, nothing where it is above 2,048 (BOARD-FILES).
fn room_of(rest: &mut Rest) -> Option<usize> {
    rest.at_most(2, MOST_ROOM).map(|room| room as usize)
}

/// Takes one byte as a slot's place (BOARD-FILES).
fn slot_of(rest: &mut Rest) -> Option<usize> {
    rest.number(1).map(|slot| slot as usize)
}

/// The text of a board file (BOARD-FILES).
pub fn board_text(file: &[u8]) -> Vec<u8> {
    let Some((mut node, calls)) = parts_of(file) else {
        return BAD_FILE.to_vec();
    };
    let mut text = String::new();
    for (place, call) in calls.iter().enumerate() {
        let answer = call.make(&mut node);
        text.push_str(&line_of(place, &answer, &node));
    }
    text.into_bytes()
}

/// The board and the calls of a file, or nothing for a bad file (BOARD-FILES).
pub fn parts_of(file: &[u8]) -> Option<(Node, Vec<Call>)> {
    if file.len() > MOST_BYTES {
        return None;
    }
    let mut rest = Rest(file);
    let node = node_of(&mut rest)?;
    let mut calls = Vec::new();
    while !rest.0.is_empty() {
        calls.push(call_of(&mut rest)?);
    }
    if calls.len() > MOST_CALLS {
        return None;
    }
    Some((node, calls))
}

/// The board as laid out, not Initialized and every mark clear (BOARD-FILES, the first table).
fn node_of(rest: &mut Rest) -> Option<Node> {
    let id = rest.number(8)?;
    let automatic_number = rest.number(8)?;
    let count = rest.at_most(1, MOST_SLOTS)?;
    let mut slots = Vec::new();
    for _ in 0..count {
        let role = rest.number(1)? as u8;
        let event = rest.number(8)?;
        let status = rest.number(1)? as u8;
        slots.push(Slot {
            role,
            event,
            status,
            mark: UNADVERTISED,
        });
    }
    Some(Node {
        id,
        state: NOT_INITIALIZED,
        automatic: range::block_of(automatic_number),
        slots,
    })
}

/// One call, nothing where it is another call or cut short (BOARD-FILES, the second table).
fn call_of(rest: &mut Rest) -> Option<Call> {
    match rest.number(1)? {
        1 => Some(Call::Initialise {
            room: room_of(rest)?,
        }),
        2 => Some(Call::Announce {
            room: room_of(rest)?,
            slot: slot_of(rest)?,
        }),
        3 => Some(Call::Produce {
            room: room_of(rest)?,
            slot: slot_of(rest)?,
        }),
        4 => Some(Call::SetStatus {
            slot: slot_of(rest)?,
            status: rest.number(1)? as u8,
        }),
        5 => {
            let room = room_of(rest)?;
            let length = rest.number(2)? as usize;
            let message = rest.bytes(length)?.to_vec();
            Some(Call::Receive { room, message })
        }
        _ => None,
    }
}

/// The line of one call, six fields (BOARD-FILES, "A line has six fields").
fn line_of(place: usize, answer: &Answer, node: &Node) -> String {
    let mut marks = String::new();
    for slot in &node.slots {
        marks.push_str(&slot.mark.to_string());
    }
    format!(
        "{place} {} {} {:016X} {} {}\n",
        answer.refusal,
        or_dash(hexadecimal(&answer.written)),
        answer.matches,
        node.state,
        or_dash(marks)
    )
}

#[cfg(test)]
mod tests {
    use super::*;

    const EVENT: u64 = 0x0A00000000070001;

    fn file(id: u64, slots: &[(u8, u64, u8)], calls: &[u8]) -> Vec<u8> {
        let mut file = id.to_be_bytes().to_vec();
        file.extend(0x010000000000FFFFu64.to_be_bytes());
        file.push(slots.len() as u8);
        for (role, event, status) in slots {
            file.push(*role);
            file.extend(event.to_be_bytes());
            file.push(*status);
        }
        file.extend(calls);
        file
    }

    fn text(file: &[u8]) -> String {
        String::from_utf8(board_text(file)).unwrap()
    }

    /// BOARD-FILES, all parts: each call and each field of a line.
    #[test]
    fn every_call() {
        let mut calls = vec![2, 0, 16, 0];
        calls.extend([1, 0, 14]);
        calls.extend([3, 0, 16, 0]);
        calls.extend([4, 0, 2]);
        calls.extend([2, 8, 0, 0]);
        calls.extend([3, 0, 16, 0]);
        calls.extend([5, 0, 0, 0, 16, 0x05, 0xB4, 0x0A, 0, 0, 0, 0, 9]);
        calls.extend(EVENT.to_be_bytes());
        calls.extend([5, 0, 0, 0, 1, 0xFF]);
        calls.extend([5, 0, 15, 0, 8, 0x09, 0x70, 0x0A, 0, 0, 0, 0, 9]);
        calls.extend([5, 0, 48, 0, 8, 0x09, 0x70, 0x0A, 0, 0, 0, 0, 9]);
        let slots = [(0, EVENT, 0), (1, EVENT, 1), (0, 0x0100000000000000, 0)];
        let expected = "\
0 9 - 0000000000000000 0 000
1 0 01000A00000000070A0000000007 0000000000000000 1 001
2 12 - 0000000000000000 1 001
3 0 - 0000000000000000 1 001
4 0 05470A00000000070A00000000070001 0000000000000000 1 101
5 0 05B40A00000000070A00000000070001 0000000000000000 1 101
6 0 - 0000000000000002 1 101
7 1 - 0000000000000000 1 101
8 6 - 0000000000000000 1 101
9 0 05470A00000000070A0000000007000104C50A00000000070A00000000070001 0000000000000000 1 111
";
        assert_eq!(text(&file(0x0A0000000007, &slots, &calls)), expected);
    }

    /// BOARD-FILES: `-` where there are no slots; no calls print nothing; refusal 3 for a bad Node ID.
    #[test]
    fn no_slots() {
        assert_eq!(text(&file(7, &[], &[])), "");
        let calls = [1, 0, 13, 1, 0, 14, 2, 0, 16, 0];
        let expected = "\
0 6 - 0000000000000000 0 -
1 0 0100000000000007000000000007 0000000000000000 1 -
2 10 - 0000000000000000 1 -
";
        assert_eq!(text(&file(7, &[], &calls)), expected);
        let refused = "0 3 - 0000000000000000 0 -\n";
        assert_eq!(text(&file(0, &[], &[1, 0, 14])), refused);
        assert_eq!(text(&file(1 << 48, &[], &[1, 0, 14])), refused);
    }

    /// BOARD-FILES: other numbers are taken as they stand, and 65 to 100 slots, each refused with 7.
    #[test]
    fn refused_with_seven() {
        for slots in [vec![(2, EVENT, 0)], vec![(0, EVENT, 3)]] {
            let refused = "0 7 - 0000000000000000 0 0\n";
            assert_eq!(text(&file(7, &slots, &[1, 0, 14])), refused);
        }
        for count in [65, 100] {
            let slots = vec![(0, EVENT, 0); count];
            let refused = format!("0 7 - 0000000000000000 0 {}\n", "0".repeat(count));
            assert_eq!(text(&file(0, &slots, &[4, 0, 9])), refused);
        }
        let slots = vec![(0, EVENT, 0); 64];
        assert!(text(&file(7, &slots, &[1, 0, 14])).starts_with("0 0 0100"));
        let slots = vec![(0, EVENT, 0); 101];
        assert_eq!(text(&file(7, &slots, &[1, 0, 14])), "bad file\n");
    }

    /// BOARD-FILES, "A file that is cut short ...".
    #[test]
    fn bad_files() {
        let whole = file(7, &[(0, EVENT, 0)], &[5, 0, 14, 0, 2, 1, 0]);
        assert_eq!(text(&whole), "0 1 - 0000000000000000 0 0\n");
        for length in 0..whole.len() {
            let expected = if length == 27 { "" } else { "bad file\n" };
            assert_eq!(text(&whole[..length]), expected, "{length}");
        }
        for other in [0, 6, b'1', 255] {
            assert_eq!(text(&file(7, &[], &[other, 0, 14])), "bad file\n");
        }
        assert_ne!(text(&file(7, &[], &[1, 8, 0])), "bad file\n");
        assert_eq!(text(&file(7, &[], &[1, 8, 1])), "bad file\n");
        let most = [4, 0, 0].repeat(1000);
        assert_eq!(text(&file(7, &[], &most)).lines().count(), 1000);
        let more = [4, 0, 0].repeat(1001);
        assert_eq!(text(&file(7, &[], &more)), "bad file\n");
    }

    /// BOARD-FILES: 65,536 bytes, both sides.
    #[test]
    fn longest_file() {
        let body = 65_536 - 17 - 5;
        let mut call = vec![5, 0, 0];
        call.extend((body as u16).to_be_bytes());
        call.extend(vec![0xFF; body]);
        let longest = file(7, &[], &call);
        assert_eq!(longest.len(), 65_536);
        assert_eq!(text(&longest), "0 2 - 0000000000000000 0 -\n");
        call[3..5].copy_from_slice(&(body as u16 + 1).to_be_bytes());
        call.push(0xFF);
        assert_eq!(text(&file(7, &[], &call)), "bad file\n");
    }
}
