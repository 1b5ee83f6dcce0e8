//! `texts KIND < file` prints the text of a trial file, a board file, a frame file, or a case file of the box or the board; `texts why` and `texts explain`
//! say why the reports of a trial file go where they go, and `texts meters` what the meters count of it; `texts trial-cases < names` prints the texts of the trial
//! files named, `texts meter-cases < names` the meters after the case files named, and `texts report < names` the share of reports held back in the trial files named.

use std::ffi::OsStr;
use std::io::{self, Read, Write};
use std::os::unix::ffi::OsStrExt;
use std::process::ExitCode;

use reference::board::board_text;
use reference::explain::explain_text;
use reference::frame_file::frame_text;
use reference::gateway_cases::gateway_cases_text;
use reference::meter_cases::meter_cases_text;
use reference::meters_text::meters_text;
use reference::node_cases::node_cases_text;
use reference::report::report_text;
use reference::trial::trial_text;
use reference::trial_cases::cases_text;
use reference::why_text::why_text;

/// The bytes of a file; a name is bytes, and need not be text.
fn file_named(name: &[u8]) -> Option<Vec<u8>> {
    std::fs::read(OsStr::from_bytes(name)).ok()
}

/// Reads standard input and prints the text (01-scope, Trial program; BOARD-FILES; FRAME-FILES; TRIAL-CASES; CASE-FILES; 02, W1 and W7).
fn main() -> ExitCode {
    let mut file = Vec::new();
    if io::stdin().read_to_end(&mut file).is_err() {
        return ExitCode::from(2);
    }
    let text = match std::env::args().nth(1).as_deref() {
        Some("trial") => trial_text(&file),
        Some("board") => board_text(&file),
        Some("frames") => frame_text(&file),
        Some("why") => why_text(&file),
        Some("explain") => explain_text(&file),
        Some("meters") => meters_text(&file),
        Some("report") => report_text(&file, file_named),
        Some("trial-cases") => cases_text(&file, |name| std::fs::read(name).ok()),
        Some("meter-cases") => meter_cases_text(&file, file_named),
        Some("gateway-cases") => gateway_cases_text(&file),
        Some("node-cases") => node_cases_text(&file),
        _ => {
            eprintln!(
                "texts trial|board|frames|why|explain|meters|report|trial-cases|meter-cases|gateway-cases|node-cases < file"
            );
            return ExitCode::from(2);
        }
    };
    match io::stdout().write_all(&text) {
        Ok(()) => ExitCode::SUCCESS,
        Err(_) => ExitCode::from(2),
    }
}
