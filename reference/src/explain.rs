//! The text of the program `explain`: why each report of a trial file was sent or held back, for people (00-order, "a line saying why a report was
//! held back"; 02, W1).

use crate::gateway::{Gateway, Line};
use crate::message;
use crate::range;
use crate::refusal;
use crate::trial::{self, Entry, BAD_FILE, HOUSE_NUMBER, PORTS};
use crate::why::Reason;

/// What is printed last where there is nothing to explain.
const NO_REPORT: &str = "no event report was accepted\n";

/// Of every entry what there is to say, in the state that the entries before it have left (02, W1).
pub fn explain_text(file: &[u8]) -> Vec<u8> {
    let Some(entries) = trial::entries_of(file) else {
        return BAD_FILE.to_vec();
    };
    let (mut gateway, _) = Gateway::start(PORTS, HOUSE_NUMBER);
    let mut text = String::new();
    let mut reported = false;
    for (place, entry) in entries.iter().enumerate() {
        let before = gateway.clone();
        let refusal = gateway.receive(entry.port, &entry.body).refusal;
        if refusal != refusal::NONE {
            text.push_str(&format!("{place}: refused {refusal}: sent to no leg\n"));
        } else if let Some(event) = event_of(entry) {
            reported = true;
            text.push_str(&lines_of(&before, place, entry, event));
        }
    }
    if !reported {
        text.push_str(NO_REPORT);
    }
    text.into_bytes()
}

/// The event of an entry that is an event report (01-scope, Messages).
fn event_of(entry: &Entry) -> Option<u64> {
    message::reported_event(&message::read(&entry.body).ok()?)
}

/// A line a leg for an accepted event report.
fn lines_of(gateway: &Gateway, place: usize, entry: &Entry, event: u64) -> String {
    let mut text = String::new();
    for leg in 0..PORTS {
        let reason = gateway.why(entry.port, leg, &entry.body);
        let reason = reason.expect("an accepted report has a reason at every leg");
        text.push_str(&format!("{place}: leg {leg} {}\n", words_of(reason, event)));
    }
    text
}

/// A reason in words.
fn words_of(reason: Reason, event: u64) -> String {
    match reason {
        Reason::Arrival => "not sent: the report came in there".to_string(),
        Reason::Automatic => format!("sent: {event:016X} is automatic"),
        Reason::Open => "sent: a full table opened the leg".to_string(),
        Reason::Held { place, line } => {
            let (node, block) = (line.node, block_words(&line));
            format!("sent: line {place}, board {node:012X} asked for {block}")
        }
        Reason::Nothing => format!("held back: nothing on that leg asks for {event:016X}"),
    }
}

/// A single event, or the first and the last of a block (01-scope, Ranges).
fn block_words(line: &Line) -> String {
    let first = line.start;
    match range::last(first, line.k) {
        Ok(last) if line.k > 0 => format!("{first:016X} to {last:016X}"),
        _ => format!("{first:016X}"),
    }
}

#[cfg(test)]
mod tests {
    use super::*;
    use crate::trial::file_of;

    fn bytes_of(hex: &str) -> Vec<u8> {
        let digits: Vec<char> = hex.chars().filter(|digit| *digit != ' ').collect();
        digits
            .chunks(2)
            .map(|pair| u8::from_str_radix(&pair.iter().collect::<String>(), 16).unwrap())
            .collect()
    }

    /// The text of entries, each a port and a body written out.
    fn text(entries: &[(u8, &str)]) -> String {
        let entries: Vec<_> = entries
            .iter()
            .map(|(port, body)| (*port, bytes_of(body)))
            .collect();
        String::from_utf8(explain_text(&file_of(&entries))).unwrap()
    }

    const ANNOUNCED: &str = "04C4 0A0000000009 0A00000000090001";
    const REPORTED: &str = "05B4 0A0000000001 0A00000000090001";

    /// 02, W1: arrival, nothing, a line; an entry that is no report prints nothing, one that is refused prints its refusal once.
    #[test]
    fn reasons_in_words() {
        let expected = "1: leg 0 not sent: the report came in there
1: leg 1 held back: nothing on that leg asks for 0A00000000090001
1: leg 2 sent: line 0, board 0A0000000009 asked for 0A00000000090001
1: leg 3 held back: nothing on that leg asks for 0A00000000090001
2: refused 8: sent to no leg
3: refused 1: sent to no leg
";
        let entries = [(2, ANNOUNCED), (0, REPORTED), (4, REPORTED), (0, "05")];
        assert_eq!(text(&entries), expected);
    }

    /// 02, W1: the first line in table order, a range with its last event; an automatic event is that before all but the arrival port.
    #[test]
    fn ranges_and_automatic_events() {
        let range = (1, "04A4 0A0000000007 0A000000000900FF");
        let expected = "2: leg 0 held back: nothing on that leg asks for 0A00000000090001
2: leg 1 sent: line 0, board 0A0000000007 asked for 0A00000000090000 to 0A000000000900FF
2: leg 2 held back: nothing on that leg asks for 0A00000000090001
2: leg 3 not sent: the report came in there
3: leg 0 sent: 0100000000000001 is automatic
3: leg 1 not sent: the report came in there
3: leg 2 sent: 0100000000000001 is automatic
3: leg 3 sent: 0100000000000001 is automatic
";
        let automatic = (1, "0F14 0A0000000001 0100000000000001 07");
        let entries = [range, (1, ANNOUNCED), (3, REPORTED), automatic];
        assert_eq!(text(&entries), expected);
        let whole = (2, "04A4 0A0000000007 0000000000000000");
        let said = "leg 2 sent: line 0, board 0A0000000007 asked for 0000000000000000 to FFFFFFFFFFFFFFFF\n";
        assert!(text(&[whole, (0, REPORTED)]).contains(said));
    }

    /// 02, W2: a board moves from leg 2 to leg 3; its line goes and the next one is the first, until it announces on leg 3.
    #[test]
    fn a_board_that_moves() {
        let other = (1, "04C4 0A0000000007 0A00000000090001");
        let moved = (3, "0100 0A0000000009 0A0000000009");
        let expected = "3: leg 0 not sent: the report came in there
3: leg 1 sent: line 0, board 0A0000000007 asked for 0A00000000090001
3: leg 2 held back: nothing on that leg asks for 0A00000000090001
3: leg 3 held back: nothing on that leg asks for 0A00000000090001
5: leg 0 not sent: the report came in there
5: leg 1 sent: line 0, board 0A0000000007 asked for 0A00000000090001
5: leg 2 held back: nothing on that leg asks for 0A00000000090001
5: leg 3 sent: line 1, board 0A0000000009 asked for 0A00000000090001
";
        let before = [(2, ANNOUNCED), other, moved, (0, REPORTED)];
        let entries = [&before[..], &[(3, ANNOUNCED), (0, REPORTED)]].concat();
        assert_eq!(text(&entries), expected);
    }

    /// 02, W1: a leg that a full table opened.
    #[test]
    fn an_open_leg() {
        let announcements: Vec<String> = (0..256)
            .map(|event| format!("04C4 0A0000000009 0A000000000901{event:02X}"))
            .collect();
        let mut entries: Vec<(u8, &str)> = announcements
            .iter()
            .map(|announcement| (1, announcement.as_str()))
            .collect();
        entries.push((3, ANNOUNCED));
        entries.push((0, "05B4 0A0000000001 0A000000000901FF"));
        let expected = "257: leg 0 not sent: the report came in there
257: leg 1 sent: line 255, board 0A0000000009 asked for 0A000000000901FF
257: leg 2 held back: nothing on that leg asks for 0A000000000901FF
257: leg 3 sent: a full table opened the leg
";
        assert_eq!(text(&entries), expected);
    }

    /// Nothing to explain, which is said last, and a bad file.
    #[test]
    fn no_report() {
        assert_eq!(text(&[]), NO_REPORT);
        assert_eq!(text(&[(2, ANNOUNCED)]), NO_REPORT);
        let refused = format!("0: refused 8: sent to no leg\n{NO_REPORT}");
        assert_eq!(text(&[(4, REPORTED)]), refused);
        assert_eq!(explain_text(&[0]), BAD_FILE);
    }
}
