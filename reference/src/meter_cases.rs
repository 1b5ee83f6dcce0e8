//! The meters after case files that are named: meters to begin with, and a trial file (02, W7).

use crate::meters::{Meters, COUNTS, MOST_PORTS};
use crate::meters_text::{lines_of, meters_after};
use crate::trial::BAD_FILE;

/// What is printed for a name of no file (TRIAL-CASES).
const NO_SUCH_FILE: &[u8] = b"no such file\n";
/// The bytes of the counts that a case file begins with; the set of marked meters follows.
const COUNT_BYTES: usize = 4 * COUNTS * MOST_PORTS;

/// Each name, a line each, and the meters after its file, which the caller looks up; what stands behind the last line end is no name.
pub fn meter_cases_text(names: &[u8], file_named: impl Fn(&[u8]) -> Option<Vec<u8>>) -> Vec<u8> {
    let mut all = Vec::new();
    for line in names.split_inclusive(|byte| *byte == b'\n') {
        let Some(name) = line.strip_suffix(b"\n") else {
            break;
        };
        all.extend(line);
        match file_named(name) {
            Some(file) => all.extend(case_text(&file)),
            None => all.extend(NO_SUCH_FILE),
        }
    }
    all
}

/// The meters after one case file.
fn case_text(file: &[u8]) -> Vec<u8> {
    let after = || {
        let (counts, rest) = file.split_at_checked(COUNT_BYTES)?;
        let (marked, trial) = rest.split_first()?;
        meters_after(meters_of(counts, *marked), trial)
    };
    match after() {
        Some(meters) => lines_of(&meters),
        None => BAD_FILE.to_vec(),
    }
}

/// The meters of these bytes, high byte first, and of a set of marked meters, bit p for port p.
fn meters_of(counts: &[u8], marked: u8) -> Meters {
    let mut meters = Meters::default();
    for (place, bytes) in counts.chunks(4).enumerate() {
        let count = bytes
            .iter()
            .fold(0, |high, byte| high << 8 | u32::from(*byte));
        meters[place / COUNTS].counts[place % COUNTS] = count;
    }
    for (port, meter) in meters.iter_mut().enumerate() {
        meter.marked = marked >> port & 1 == 1;
    }
    meters
}

#[cfg(test)]
mod tests {
    use super::*;
    use crate::trial::file_of;

    /// A case file whose counts are 0, 1, 2 .. 39, with meters 1 and 7 marked.
    fn case(trial: &[u8]) -> Vec<u8> {
        let counts = (0..40u32).flat_map(u32::to_be_bytes);
        counts
            .chain([0b1000_0010])
            .chain(trial.iter().copied())
            .collect()
    }

    fn text(names: &str, file: &[u8]) -> String {
        let file_named = |name: &[u8]| (name == b"case").then(|| file.to_vec());
        String::from_utf8(meter_cases_text(names.as_bytes(), file_named)).unwrap()
    }

    /// The counts stand port by port; a refused message at port 1 and a restart at port 3 are counted on top of them.
    #[test]
    fn from_given_meters_on() {
        let as_given =
            "case\n0 0 1 2 3 4 0\n1 5 6 7 8 9 1\n2 10 11 12 13 14 0\n3 15 16 17 18 19 0\n";
        assert_eq!(text("case\n", &case(&[0, 0])), as_given);
        let id = [0x0A, 0, 0, 0, 0, 7];
        let restart = [&[0x01, 0x00][..], &id, &id].concat();
        let trial = file_of(&[(1, vec![]), (3, restart), (4, vec![])]);
        let after = "case\n0 0 1 2 3 4 0\n1 5 7 7 8 9 1\n2 10 11 12 13 14 0\n3 16 16 17 18 19 0\n";
        assert_eq!(text("case\n", &case(&trial)), after);
    }

    /// High byte first, and up to the greatest count.
    #[test]
    fn greatest_counts() {
        let mut file = case(&file_of(&[(0, vec![])]));
        file[4..8].copy_from_slice(&[0xFF, 0xFF, 0xFF, 0xFE]);
        assert!(text("case\n", &file).starts_with("case\n0 0 4294967295 2 3 4 0\n"));
        file[7] = 0xFF;
        assert!(text("case\n", &file).starts_with("case\n0 0 4294967295 2 3 4 1\n"));
    }

    /// Files too short, of a bad trial file, and none at all.
    #[test]
    fn bad_files() {
        let good = case(&[0, 0]);
        for length in [0, 1, 159, 160, 161, 162] {
            assert_eq!(text("case\n", &good[..length]), "case\nbad file\n");
        }
        assert_eq!(text("case\n", &case(&[0, 0, 0])), "case\nbad file\n");
        assert_eq!(
            text("\nnot_there\n", &good),
            "\nno such file\nnot_there\nno such file\n"
        );
    }

    /// Only lines that have their end are names.
    #[test]
    fn lines() {
        assert_eq!(text("", &[]), "");
        assert_eq!(text("case", &[]), "");
        assert_eq!(text("case\ncase", &[]), "case\nbad file\n");
        assert_eq!(text("case\r\n", &[]), "case\r\nno such file\n");
    }
}
