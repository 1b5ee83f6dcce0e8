//! `programs` compares what the proved programs print with the reference's texts of random files; `programs --help` says how.

use std::process::ExitCode;

use reference::judging::{command, programs};

fn main() -> ExitCode {
    programs::run(&command::words())
}
