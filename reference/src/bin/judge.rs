//! `judge` compares the proved functions with the reference on seeded random inputs; `judge --help` says how.

use std::process::ExitCode;

use reference::judging::{archive, command};

fn main() -> ExitCode {
    archive::run(&command::words())
}
