//! The text of the program `meters`: what the meters say after a trial file (02, W7).

use crate::gateway::Gateway;
use crate::meters::{self, Meters};
use crate::trial::{self, Entry, BAD_FILE, HOUSE_NUMBER, PORTS};

/// The meters after a trial file, counted up from zero, a line a port (02, W7).
pub fn meters_text(file: &[u8]) -> Vec<u8> {
    match meters_after(Meters::default(), file) {
        Some(meters) => lines_of(&meters),
        None => BAD_FILE.to_vec(),
    }
}

/// The meters after a trial file, from given ones on; nothing where the file is bad (01-scope, Trial program).
pub fn meters_after(mut meters: Meters, file: &[u8]) -> Option<Meters> {
    let (mut gateway, _) = Gateway::start(PORTS, HOUSE_NUMBER);
    for Entry { port, body } in trial::entries_of(file)? {
        meters::receive(&mut gateway, &mut meters, port, &body);
    }
    Some(meters)
}

/// A line for each port of the trial's box: the port, the five counts, and the mark as 0 or 1.
pub fn lines_of(meters: &Meters) -> Vec<u8> {
    let mut text = String::new();
    for (port, meter) in meters.iter().take(PORTS as usize).enumerate() {
        text.push_str(&port.to_string());
        for count in meter.counts {
            text.push_str(&format!(" {count}"));
        }
        text.push_str(&format!(" {}\n", u8::from(meter.marked)));
    }
    text.into_bytes()
}

#[cfg(test)]
mod tests {
    use super::*;
    use crate::trial::file_of;

    /// 01-scope, Trial program, the example: three reports at port 0, the first two sent to port 1; three messages at port 1; the last entry is refused with 8.
    #[test]
    fn the_example() {
        let id = |last: u8| [0x0A, 0, 0, 0, 0, last];
        let event = [0x0A, 0, 0, 0, 0, 1, 0, 1];
        let announcement = [&[0x04, 0xC4][..], &id(1), &event].concat();
        let report = [&[0x05, 0xB4][..], &id(9), &event].concat();
        let restart = |node: u8| [&[0x01, 0x00][..], &id(node), &id(node)].concat();
        let file = file_of(&[
            (1, announcement),
            (0, report.clone()),
            (1, restart(2)),
            (0, report.clone()),
            (1, restart(1)),
            (0, report),
            (4, Vec::new()),
        ]);
        let expected = "0 3 0 3 0 0 0\n1 3 0 0 2 1 0\n2 0 0 0 0 3 0\n3 0 0 0 0 3 0\n";
        assert_eq!(String::from_utf8(meters_text(&file)).unwrap(), expected);
    }

    /// 01-scope, Trial program: a bad file; and a good one without entries, whose meters are all zero.
    #[test]
    fn nothing_to_count() {
        assert_eq!(meters_text(&[]), BAD_FILE);
        assert_eq!(meters_text(&[0, 1, 0, 0]), BAD_FILE);
        assert_eq!(meters_text(&[0, 0, 0]), BAD_FILE);
        let zeros = "0 0 0 0 0 0 0\n1 0 0 0 0 0 0\n2 0 0 0 0 0 0\n3 0 0 0 0 0 0\n";
        assert_eq!(meters_text(&[0, 0]), zeros.as_bytes());
    }

    /// 01-scope, Trial program: as many entries and bytes as may be, and more.
    #[test]
    fn the_limits() {
        let most = file_of(&vec![(2, Vec::new()); 1_000]);
        let expected = "0 0 0 0 0 0 0\n1 0 0 0 0 0 0\n2 0 1000 0 0 0 0\n3 0 0 0 0 0 0\n";
        assert_eq!(meters_text(&most), expected.as_bytes());
        assert_eq!(
            meters_text(&file_of(&vec![(2, Vec::new()); 1_001])),
            BAD_FILE
        );
        let longest = [(0, vec![0; 32_768]), (3, vec![0; 32_760])];
        let expected = "0 0 1 0 0 0 0\n1 0 0 0 0 0 0\n2 0 0 0 0 0 0\n3 0 1 0 0 0 0\n";
        assert_eq!(meters_text(&file_of(&longest)), expected.as_bytes());
        let longer = [(0, vec![0; 32_768]), (3, vec![0; 32_761])];
        assert_eq!(meters_text(&file_of(&longer)), BAD_FILE);
    }
}
