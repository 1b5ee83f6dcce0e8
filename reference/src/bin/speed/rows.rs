//! What is measured: each row is one piece of work, done by the proved calls and by the quick one on the same input.

use std::hint::black_box;

use reference::message::Message;
use reference::proved;
use reference::trial;

use crate::dice::Dice;
use crate::quick_trial::{trial_text, PlainBox};
use crate::{quick, quick_index};
use crate::{rows_box, rows_can, rows_sizes};

/// A box's proved column is the call in place; checked and unchecked are of the plain box with an index, by line of the one without.
pub const COLUMNS: [&str; 5] = ["proved", "by value", "checked", "unchecked", "by line"];

/// Makes the call so many times.
pub type Call = Box<dyn FnMut(u64)>;

pub struct Row {
    pub name: String,
    /// In the order of `COLUMNS`; where no state is passed, nothing goes by value, and where there is none, nothing can be left unchecked or read by line.
    pub calls: [Option<Call>; COLUMNS.len()],
}

pub const NODE: u64 = 0x0A00_0000_0001;
pub const EVENT: u64 = 0x0A00_0000_0001_0000;
pub const REPORT: u16 = 0x05B4;
pub const CONSUMER_IDENTIFIED: u16 = 0x04C4;
const RESTART: u16 = 0x0100;
const IDENTIFY_ADDRESSED: u16 = 0x0968;
const OTHER: u16 = 0x0490;
const MOST_CONTENT: [u8; 72] = [0x55; 72];

pub fn all() -> Vec<Row> {
    let mut rows = rows_box::all();
    rows.extend(rows_sizes::all());
    rows.push(trial_row());
    rows.extend(reading_rows());
    rows.extend(writing_rows());
    rows.extend(rows_can::all());
    rows
}

/// The answer is shown by reference: by value it would be copied once more.
pub fn repeat<T>(mut call: impl FnMut() -> T + 'static) -> Call {
    Box::new(move |times| {
        for _ in 0..times {
            black_box(&call());
        }
    })
}

pub fn message(mti: u16, source: u64, event: u64) -> Vec<u8> {
    let mut bytes = mti.to_be_bytes().to_vec();
    bytes.extend(&source.to_be_bytes()[2..]);
    bytes.extend(event.to_be_bytes());
    bytes
}

pub fn restart(source: u64) -> Vec<u8> {
    let mut bytes = RESTART.to_be_bytes().to_vec();
    bytes.extend(&source.to_be_bytes()[2..]);
    bytes.extend(&source.to_be_bytes()[2..]);
    bytes
}

fn trial_row() -> Row {
    let file = trial::file_of(&trial_entries());
    let mut text = vec![0; 65_536];
    let took = proved::trial_text(&file, &mut text);
    text.truncate(took);
    let proved = {
        let (file, mut text) = (file.clone(), vec![0; 65_536]);
        repeat(move || proved::trial_text(black_box(&file), black_box(&mut text)))
    };
    Row {
        name: "trial-1000".to_string(),
        calls: [
            Some(proved),
            None,
            Some(plain_trial::<quick_index::Gateway>(&file, &text, true)),
            Some(plain_trial::<quick_index::Gateway>(&file, &text, false)),
            Some(plain_trial::<quick::Gateway>(&file, &text, true)),
        ],
    }
}

/// The trial through a plain box, once its text is the expected one.
fn plain_trial<Plain: PlainBox + 'static>(file: &[u8], expected: &[u8], check: bool) -> Call {
    let (file, mut text) = (file.to_vec(), vec![0; 65_536]);
    let took = trial_text::<Plain>(&file, &mut text, check);
    assert_eq!(&text[..took], expected);
    repeat(move || trial_text::<Plain>(black_box(&file), black_box(&mut text), check))
}

/// 399 entries announce, 23 restart, 534 report, 44 do something else; the table has 92 lines on average and 125 at the end.
fn trial_entries() -> Vec<(u8, Vec<u8>)> {
    let mut dice = Dice(0x9E37_79B9);
    let mut entries = Vec::new();
    for _ in 0..1_000 {
        let node = dice.below(28);
        let port = (node % 4) as u8;
        let event = EVENT + 256 * node + dice.below(6);
        let source = NODE + node;
        entries.push(match dice.below(50) {
            0..20 => (port, message(CONSUMER_IDENTIFIED, source, event)),
            20 => (port, restart(source)),
            21..48 => (dice.below(4) as u8, message(REPORT, source, event)),
            _ => (port, message(OTHER, source, event)),
        });
    }
    entries
}

fn reading_rows() -> Vec<Row> {
    let plain = message(OTHER, NODE, EVENT);
    let mut addressed = message(IDENTIFY_ADDRESSED, NODE, 0);
    addressed.truncate(14);
    addressed[13] = 2;
    let mut long = plain[..8].to_vec();
    long.extend(MOST_CONTENT);
    vec![
        reading_row("read-report", message(REPORT, NODE, EVENT)),
        reading_row("read-addressed", addressed),
        reading_row("read-72", long),
    ]
}

fn reading_row(name: &'static str, bytes: Vec<u8>) -> Row {
    let quick = quick::read(&bytes).expect("a message that can be read");
    let proved = proved::read(&bytes);
    assert_eq!(proved.refusal, 0);
    assert_eq!(proved.message, proved_message(&quick.message));
    assert_eq!(&bytes[proved.content_at..], quick.content);
    let same_bytes = bytes.clone();
    Row {
        name: name.to_string(),
        calls: [
            Some(repeat(move || proved::read(black_box(&bytes)))),
            None,
            Some(repeat(move || {
                black_box(&quick::read(black_box(&same_bytes)));
            })),
            None,
            None,
        ],
    }
}

fn writing_rows() -> Vec<Row> {
    let plain = |mti, event| Message {
        mti,
        source: NODE,
        destination: None,
        event,
    };
    vec![
        writing_row("write-report", plain(REPORT, Some(EVENT)), &[]),
        writing_row("write-72", plain(OTHER, None), &MOST_CONTENT),
    ]
}

/// Into the same 300 bytes every time, which are not cleared between the calls.
fn writing_row(name: &'static str, message: Message, content: &'static [u8]) -> Row {
    let fields = proved_message(&message);
    let (mut out, mut other_out) = ([0; 300], [0; 300]);
    let written = proved::write(fields, content, &mut out);
    assert_eq!(written.refusal, 0);
    assert_eq!(
        quick::write(&message, content, &mut other_out),
        Ok(written.bytes)
    );
    assert_eq!(out, other_out);
    Row {
        name: name.to_string(),
        calls: [
            Some(repeat(move || {
                proved::write(*black_box(&fields), black_box(content), black_box(&mut out))
            })),
            None,
            Some(repeat(move || {
                quick::write(
                    black_box(&message),
                    black_box(content),
                    black_box(&mut other_out),
                )
            })),
            None,
            None,
        ],
    }
}

fn proved_message(message: &Message) -> proved::Message {
    proved::Message {
        mti: message.mti,
        source: message.source,
        has_destination: message.destination.is_some().into(),
        destination: message.destination.unwrap_or(0),
        has_event: message.event.is_some().into(),
        event: message.event.unwrap_or(0),
    }
}
