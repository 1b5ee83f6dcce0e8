//! The text of the program `report`: how much of the reports that trial files hold a box holds back (02, W7).

use crate::meters::{share_of, Count, Meters};
use crate::meters_text::meters_after;

/// The most names of a list (02, W7, "up to 1,000 file names").
const MOST_NAMES: usize = 1_000;
/// The most bytes of a name.
const MOST_NAME_BYTES: usize = 4_095;
/// What is printed for a list that cannot be taken.
const BAD_LIST: &[u8] = b"bad list\n";
/// What is printed where no report was sent or held back (02, W7).
const NONE: &[u8] = b"none\n";

/// The share of the trial files that are named, one a line, which the caller looks up (02, W7).
pub fn report_text(list: &[u8], file_named: impl Fn(&[u8]) -> Option<Vec<u8>>) -> Vec<u8> {
    let Some(names) = names_in(list) else {
        return BAD_LIST.to_vec();
    };
    let (mut sent, mut held_back) = (0, 0);
    for name in names {
        let file = file_named(name);
        let meters = file.and_then(|file| meters_after(Meters::default(), &file));
        for meter in meters.iter().flatten() {
            sent += u64::from(meter.counts[Count::Sent as usize]);
            held_back += u64::from(meter.counts[Count::HeldBack as usize]);
        }
    }
    match share_of(sent, held_back) {
        Some(tenths) => format!("{tenths}\n").into_bytes(),
        None => NONE.to_vec(),
    }
}

/// The names of a list, the last line with or without its end; nothing where there are too many, or one is too long or has a zero byte.
fn names_in(list: &[u8]) -> Option<Vec<&[u8]>> {
    let mut names: Vec<&[u8]> = list.split(|byte| *byte == b'\n').collect();
    // Behind the last line end there is no line.
    if names.last().is_some_and(|last| last.is_empty()) {
        names.pop();
    }
    let is_good = |name: &&[u8]| name.len() <= MOST_NAME_BYTES && !name.contains(&0);
    (names.len() <= MOST_NAMES && names.iter().all(is_good)).then_some(names)
}

#[cfg(test)]
mod tests {
    use super::*;
    use crate::trial::file_of;

    const HOUSE: [u8; 8] = [1, 0, 0, 0, 0, 0, 0, 0];
    const OTHER: [u8; 8] = [0x0A, 0, 0, 0, 0, 1, 0, 1];

    fn report(event: [u8; 8]) -> (u8, Vec<u8>) {
        let bytes = [&[0x05, 0xB4, 0x0A, 0, 0, 0, 0, 1][..], &event].concat();
        (0, bytes)
    }

    /// Files of a report or two: each automatic one is sent to three ports, each other one held back from three.
    fn file_named(name: &[u8]) -> Option<Vec<u8>> {
        match name {
            b"sent" => Some(file_of(&[report(HOUSE)])),
            b"held" => Some(file_of(&[report(OTHER)])),
            b"both" => Some(file_of(&[report(HOUSE), report(OTHER)])),
            b"without" => Some(file_of(&[(0, vec![])])),
            b"bad" => Some(vec![0]),
            [0xFF, b'\r'] => Some(file_of(&[report(OTHER)])),
            _ => None,
        }
    }

    fn text(list: &[u8]) -> String {
        String::from_utf8(report_text(list, file_named)).unwrap()
    }

    /// 02, W7: sums over files, in tenths of a per cent; bad files and missing ones add nothing, and a file named twice counts twice.
    #[test]
    fn sums() {
        assert_eq!(text(b"sent\n"), "0\n");
        assert_eq!(text(b"held\n"), "1000\n");
        assert_eq!(text(b"both\n"), "500\n");
        assert_eq!(text(b"sent\nheld\n"), "500\n");
        assert_eq!(text(b"sent\nheld\nsent\n"), "333\n");
        assert_eq!(text(b"held\nbad\nsent\nmissing\nheld\n"), "667\n");
        assert_eq!(text(b"held\nwithout\n"), "1000\n");
    }

    /// 02, W7: none where the sum is 0.
    #[test]
    fn nothing() {
        for list in [
            "",
            "\n",
            "\n\n",
            "without\n",
            "bad\n",
            "missing",
            "bad\n\nmissing\n",
        ] {
            assert_eq!(text(list.as_bytes()), "none\n", "{list:?}");
        }
    }

    /// The last line with or without its end; a name is its bytes, so that a blank or a carriage return is part of it.
    #[test]
    fn lines() {
        assert_eq!(text(b"sent\nheld"), "500\n");
        assert_eq!(text(b"held"), "1000\n");
        assert_eq!(text(b"held\r\n"), "none\n");
        assert_eq!(text(b"held \n"), "none\n");
        assert_eq!(text(b"\nheld\n\nsent\n"), "500\n");
        assert_eq!(text(&[0xFF, b'\r', b'\n']), "1000\n");
    }

    /// 02, W7: 1,000 names and no more; an empty line is a name too, and the last line counts without its end as well.
    #[test]
    fn the_most_names() {
        let most = b"held\n".repeat(1_000);
        assert_eq!(text(&most), "1000\n");
        assert_eq!(text(&most[..4_999]), "1000\n");
        assert_eq!(text(&[&most[..], b"\n"].concat()), "bad list\n");
        assert_eq!(text(&[&most[..], b"x"].concat()), "bad list\n");
        assert_eq!(text(&b"\n".repeat(1_000)), "none\n");
        assert_eq!(text(&b"\n".repeat(1_001)), "bad list\n");
    }

    /// A name of 4,095 bytes and no more, at every line; and as many bytes as 1,000 of them have.
    #[test]
    fn the_longest_names() {
        let longest = [b'a'; 4_095];
        let longer = [b'a'; 4_096];
        assert_eq!(text(&[&longest[..], b"\nheld\n"].concat()), "1000\n");
        assert_eq!(text(&[&longer[..], b"\nheld\n"].concat()), "bad list\n");
        assert_eq!(text(&[b"held\n", &longest[..]].concat()), "1000\n");
        assert_eq!(text(&[b"held\n", &longer[..]].concat()), "bad list\n");
        let mut lines = [&longest[..], b"\n"].concat().repeat(999);
        lines.extend(b"held\n");
        assert_eq!(text(&lines), "1000\n");
    }

    /// A zero byte anywhere in a name.
    #[test]
    fn zero_bytes() {
        for list in ["\0", "\0\n", "held\0\n", "held\nsent\0", "held\n\0\nsent\n"] {
            assert_eq!(text(list.as_bytes()), "bad list\n", "{list:?}");
        }
    }
}
