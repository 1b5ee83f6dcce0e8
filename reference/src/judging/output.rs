//! Standard output.

use std::fmt::Display;
use std::io::{self, Write};

/// Prints a line; a reader that has closed its end has seen enough, so that is no error.
pub fn say(line: impl Display) {
    let _ = writeln!(io::stdout(), "{line}");
}
