//! The texts of trial files that are named (TRIAL-CASES).

use crate::trial::trial_text;

/// What is printed for a name of no file (TRIAL-CASES).
const NO_SUCH_FILE: &[u8] = b"no such file\n";

/// Each name, a line each, and the text of its file, which the caller looks up (TRIAL-CASES).
pub fn cases_text(names: &[u8], file_named: impl Fn(&str) -> Option<Vec<u8>>) -> Vec<u8> {
    let mut all = Vec::new();
    for name in String::from_utf8_lossy(names).lines() {
        let text = file_named(name).map(|file| trial_text(&file));
        all.extend(name.bytes());
        all.push(b'\n');
        all.extend(text.unwrap_or_else(|| NO_SUCH_FILE.to_vec()));
    }
    all
}

#[cfg(test)]
mod tests {
    use super::*;

    /// TRIAL-CASES: a name with its text, a bad file, and a name of no file.
    #[test]
    fn names_and_texts() {
        let file_named = |name: &str| match name {
            "one_entry" => Some(vec![0, 1, 0, 0, 0]),
            "one_byte" => Some(vec![0]),
            _ => None,
        };
        let text = cases_text(b"one_entry\none_byte\nnot_there\n", file_named);
        let expected = "one_entry\n0 refused 1 0\none_byte\nbad file\nnot_there\nno such file\n";
        assert_eq!(String::from_utf8(text).unwrap(), expected);
    }
}
