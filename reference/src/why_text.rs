//! The text of the program `why` (02, W1: "For a trial file's last entry a program prints").

use crate::gateway::Gateway;
use crate::trial::{self, BAD_FILE, HOUSE_NUMBER, PORTS};

/// For the last entry of a trial file a line a port, the port and the reason, or only the refusal (02, W1).
pub fn why_text(file: &[u8]) -> Vec<u8> {
    let Some(mut entries) = trial::entries_of(file) else {
        return BAD_FILE.to_vec();
    };
    let Some(last) = entries.pop() else {
        return Vec::new();
    };
    let (mut gateway, _) = Gateway::start(PORTS, HOUSE_NUMBER);
    for entry in &entries {
        gateway.receive(entry.port, &entry.body);
    }
    let mut text = String::new();
    for asked in 0..PORTS {
        match gateway.why(last.port, asked, &last.body) {
            Ok(reason) => text.push_str(&format!("{asked} {}\n", reason.number())),
            Err(refusal) => return format!("{refusal}\n").into_bytes(),
        }
    }
    text.into_bytes()
}

#[cfg(test)]
mod tests {
    use super::*;
    use crate::message::number;
    use crate::trial::file_of;

    /// A message of these bytes, written out, the event's last byte being the caller's.
    fn message(mti: [u8; 2], event: u8) -> Vec<u8> {
        let event = [0x0A, 0, 0, 0, 0, 1, 0, event];
        [&mti[..], &[0x0A, 0, 0, 0, 0, 1], &event].concat()
    }

    const REPORT: [u8; 2] = [0x05, 0xB4];
    const ANNOUNCEMENT: [u8; 2] = [0x04, 0xC4];

    fn text(entries: &[(u8, Vec<u8>)]) -> String {
        String::from_utf8(why_text(&file_of(entries))).unwrap()
    }

    /// 02, W1: arrival, a line, nothing; an announcement that is itself the last entry counts for nothing.
    #[test]
    fn a_line_a_port() {
        let announced = (2, message(ANNOUNCEMENT, 1));
        let reported = (0, message(REPORT, 1));
        assert_eq!(
            text(&[announced.clone(), reported.clone()]),
            "0 1\n1 5\n2 4\n3 5\n"
        );
        assert_eq!(
            text(std::slice::from_ref(&reported)),
            "0 1\n1 5\n2 5\n3 5\n"
        );
        assert_eq!(text(&[reported, announced]), "15\n");
    }

    /// 02, W1: a full table opens port 3; an automatic event goes to the open port as automatic.
    #[test]
    fn open_and_automatic() {
        let mut entries: Vec<(u8, Vec<u8>)> = (0..=255)
            .map(|event| (1, message(ANNOUNCEMENT, event)))
            .collect();
        entries.push((3, message(ANNOUNCEMENT, 9)));
        entries.push((2, message(REPORT, 255)));
        assert_eq!(text(&entries), "0 5\n1 4\n2 1\n3 3\n");
        let mut automatic = message(REPORT, 0);
        automatic[8] = 1;
        automatic[13] = 0;
        assert_eq!(number(&automatic[8..]), 0x0100000000000000);
        *entries.last_mut().unwrap() = (2, automatic);
        assert_eq!(text(&entries), "0 2\n1 2\n2 1\n3 2\n");
    }

    /// 02, W1, "or only the refusal number"; a refused entry before the last changes nothing.
    #[test]
    fn refused() {
        let reported = message(REPORT, 1);
        assert_eq!(text(&[(4, reported.clone())]), "8\n");
        assert_eq!(text(&[(0, reported[..15].to_vec())]), "1\n");
        assert_eq!(text(&[(0, vec![0x0F, 0x15])]), "2\n");
        assert_eq!(
            text(&[(4, message(ANNOUNCEMENT, 1)), (0, reported)]),
            "0 1\n1 5\n2 5\n3 5\n"
        );
    }

    /// No entry, no line; a bad file.
    #[test]
    fn no_entries() {
        assert_eq!(why_text(&[0, 0]), b"");
        assert_eq!(why_text(&[0]), BAD_FILE);
        assert_eq!(why_text(&[0, 1, 0, 0]), BAD_FILE);
    }
}
