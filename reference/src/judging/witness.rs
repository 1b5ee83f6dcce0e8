//! Compares the two sides' answers on one input, and prints them where one input is rerun alone.

use std::fmt::{self, Debug, Formatter};

use super::counts::Column;
use super::output::say;
use super::rows::Row;

/// Bytes that are shown in hexadecimal.
#[derive(PartialEq)]
pub struct Hex(pub Vec<u8>);

impl Debug for Hex {
    fn fmt(&self, out: &mut Formatter) -> fmt::Result {
        self.0.iter().try_for_each(|byte| write!(out, "{byte:02X}"))
    }
}

/// Bytes that are shown as the text that they are.
#[derive(PartialEq)]
pub struct Text(pub Vec<u8>);

impl Debug for Text {
    fn fmt(&self, out: &mut Formatter) -> fmt::Result {
        write!(out, "\n{}", String::from_utf8_lossy(&self.0).trim_end())
    }
}

/// Watches one input: what was seen of it, and whether the sides differed.
pub struct Witness<'a> {
    pub column: &'a mut Column,
    pub differed: bool,
    compared: bool,
    printing: bool,
}

impl<'a> Witness<'a> {
    /// A witness that only compares, or one that prints what it compares too.
    pub fn new(column: &'a mut Column, printing: bool) -> Witness<'a> {
        Witness {
            column,
            differed: false,
            compared: false,
            printing,
        }
    }

    /// Prints an input, or a part of it, where one input is rerun alone.
    pub fn show(&self, input: impl Fn() -> String) {
        if self.printing {
            say(input());
        }
    }

    /// Whether both sides answer the same to what was asked.
    pub fn compare<T: PartialEq + Debug>(
        &mut self,
        asked: impl Fn() -> String,
        proved: &T,
        reference: &T,
    ) -> bool {
        let same = proved == reference;
        self.column.saw(Row::Comparisons);
        self.compared = true;
        self.differed |= !same;
        if self.printing {
            print_answers(&asked(), proved, reference, same);
        }
        same
    }

    /// Whether something was compared and nothing differed.
    pub fn agreed(&self) -> bool {
        self.compared && !self.differed
    }

    /// The same in words.
    pub fn outcome(&self) -> &'static str {
        match (self.compared, self.differed) {
            (false, _) => "nothing was compared",
            (true, true) => "different",
            (true, false) => "the same",
        }
    }
}

/// Prints what was asked and both answers, in full where they differ.
fn print_answers<T: Debug>(asked: &str, proved: &T, reference: &T, same: bool) {
    say(format!("asked: {asked}"));
    if same {
        say(format!("  proved:    {proved:X?}"));
        say(format!("  reference: {reference:X?}"));
        return;
    }
    let proved = format!("{proved:#X?}");
    let reference = format!("{reference:#X?}");
    say(format!(
        "DIFFERENT\nproved: {proved}\nreference: {reference}"
    ));
    print_first_difference(&proved, &reference);
}

/// Prints the first line in which two answers differ.
fn print_first_difference(proved: &str, reference: &str) {
    let mut pairs = proved.lines().zip(reference.lines());
    if let Some((ours, theirs)) = pairs.find(|(ours, theirs)| ours != theirs) {
        say(format!("first difference, proved:    {}", ours.trim()));
        say(format!("first difference, reference: {}", theirs.trim()));
    }
}

#[cfg(test)]
mod tests {
    use super::*;

    /// An input of which nothing was compared has not agreed.
    #[test]
    fn agreeing() {
        let mut column = Column::default();
        let mut witness = Witness::new(&mut column, false);
        assert_eq!(
            (witness.agreed(), witness.outcome()),
            (false, "nothing was compared")
        );
        assert!(witness.compare(String::new, &1, &1));
        assert_eq!((witness.agreed(), witness.outcome()), (true, "the same"));
        assert!(!witness.compare(String::new, &1, &2));
        assert!(witness.compare(String::new, &1, &1));
        assert_eq!((witness.agreed(), witness.outcome()), (false, "different"));
        assert_eq!(column.seen(Row::Comparisons), 3);
    }
}
