//! Before anything is measured: both plain boxes answer as the reference does.

use std::collections::BTreeSet;

use reference::index::Index;
use reference::message::{self, Message};
use reference::refusal;
use reference::trial::HOUSE_NUMBER;
use reference::{gateway, trial};

use crate::dice::Dice;
use crate::quick::{self, Line};
use crate::quick_index;
use crate::quick_trial::{trial_text, PlainBox};
use crate::states::{as_proved, reference_line, with_index};

const MTIS: [u16; 24] = [
    0x0100, 0x0110, 0x05B4, 0x0F14, 0x08F4, 0x0914, 0x04C4, 0x04C5, 0x04C6, 0x04C7, 0x0544, 0x0545,
    0x0546, 0x0547, 0x04A4, 0x0524, 0x0970, 0x0968, 0x0594, 0x0F15, 0x0F16, 0x0490, 0x3FFC, 0x4100,
];
const NODE: u64 = 0x0A00_0000_0001;
const EVENT: u64 = 0x0A00_0000_0001_0000;

/// Stops the program where the two differ.
pub fn with_the_reference() {
    let mut dice = Dice(0x9E37_79B9_7F4A_7C15);
    for _ in 0..20_000 {
        compare_reading(&mut dice);
        compare_writing(&mut dice);
        compare_bounds(&mut dice);
        compare_damaged(&mut dice);
    }
    for _ in 0..60 {
        compare_histories(&mut dice);
        compare_trials(&mut dice);
    }
}

fn compare_reading(dice: &mut Dice) {
    let bytes = any_bytes(dice, 600);
    let quick = quick::read(&bytes).map(|reading| (reading.message, reading.content));
    let slow = message::read(&bytes)
        .and_then(|message| message::content_of(&bytes).map(|content| (message, content)));
    assert_eq!(quick, slow);
}

fn compare_writing(dice: &mut Dice) {
    let message = any_message(dice);
    let content = any_content(dice, &message);
    let room = dice.pick(&[15, 16, 21, 80, 300]);
    let mut out = [0xAA; 300];
    let quick = quick::write(&message, &content, &mut out[..room]);
    let slow = message::write(&message, &content, room);
    assert_eq!(quick, slow.as_ref().map(Vec::len).map_err(|number| *number));
    let written = slow.unwrap_or_default();
    assert!(out.starts_with(&written));
    assert!(out[written.len()..].iter().all(|byte| *byte == 0xAA));
}

/// A box with one number spoilt, or with none.
fn compare_bounds(dice: &mut Dice) {
    let mut quick = quick::Gateway::start(2 + dice.below(7) as u8, HOUSE_NUMBER);
    quick.count = dice.below(20) as usize;
    for place in 0..quick.count {
        quick.lines[place] = Line {
            node: NODE,
            start: 0x100,
            k: dice.below(9) as u8,
            port: dice.below(quick.ports.into()) as u8,
        };
    }
    let line = &mut quick.lines[dice.below(20) as usize];
    match dice.below(11) {
        0 => quick.ports = dice.pick(&[0, 1, 9, 255]),
        1 => quick.marks = dice.below(256) as u8,
        2 => quick.automatic = (0, dice.pick(&[0, 1, 64, 65, 255])),
        3 => quick.automatic.0 += 1 << dice.below(20),
        4 => line.port = dice.pick(&[1, 2, 7, 8, 255]),
        5 => line.node = dice.pick(&[0, 1, (1 << 48) - 1, 1 << 48, u64::MAX]),
        6 => line.k = dice.pick(&[0, 8, 9, 63, 64, 65, 255]),
        7 => line.start = 1 << dice.below(64),
        8 => (line.start, line.k) = (0, dice.pick(&[64, 65])),
        _ => {}
    }
    receive_on_both(&mut quick, 0, &[], true);
}

/// Messages one after the other through one box, which starts almost full every other time; then its first node announces at times too, also what holds its lines.
fn compare_histories(dice: &mut Dice) {
    let ports = 2 + dice.below(7) as u8;
    let automatic = dice.pick(&[HOUSE_NUMBER, 0, u64::MAX, 1, EVENT + 0xFF]);
    let mut quick = quick::Gateway::start(ports, automatic);
    if dice.one_in(2) {
        fill(&mut quick, 250);
    }
    let spread = dice.pick(&[12, 600]);
    for _ in 0..700 {
        let port = dice.below(u64::from(ports) + 1) as u8;
        let mut bytes = any_bytes(dice, spread);
        if bytes.starts_with(&[0x04, 0xA4]) && bytes.len() == 16 && dice.one_in(10) {
            let first = quick.lines[0];
            bytes[2..8].copy_from_slice(&first.node.to_be_bytes()[2..]);
            let number = any_range(dice, first.start);
            bytes[8..].copy_from_slice(&number.to_be_bytes());
        }
        receive_on_both(&mut quick, port, &bytes, dice.one_in(2));
    }
}

/// Lines of a node that never restarts.
fn fill(quick: &mut quick::Gateway, count: usize) {
    quick.count = count;
    for (place, line) in quick.lines[..count].iter_mut().enumerate() {
        line.node = NODE + 100;
        line.start = EVENT + 0x1_0000 + place as u64;
        line.port = (place % 2) as u8;
    }
}

/// The box that reads line by line and the one with an index go through the message as the reference does.
fn receive_on_both(quick: &mut quick::Gateway, port: u8, bytes: &[u8], check: bool) {
    let mut slow = as_reference(quick);
    let mut indexed = with_index(quick);
    let outcome = slow.receive(port.into(), bytes);
    let sent = outcome.sent.iter().fold(0, |set, port| set | 1 << port);
    let expected = (outcome.refusal, sent);
    assert_eq!(quick.receive(port, bytes, check), expected);
    assert_eq!(indexed.receive(port, bytes, check), expected);
    assert_eq!(as_reference(quick), slow);
    let after = as_proved(&indexed);
    assert_eq!(
        (after.head.marks, after.head.count),
        (quick.marks, quick.count)
    );
    assert_eq!((after.lines(), after.index()), (slow.lines, slow.index));
}

fn as_reference(quick: &quick::Gateway) -> gateway::Gateway {
    let open = (0..8).filter(|port| quick.marks >> port & 1 == 1);
    let lines: Vec<gateway::Line> = quick.lines().iter().map(reference_line).collect();
    gateway::Gateway {
        ports: quick.ports.into(),
        automatic: (quick.automatic.0, quick.automatic.1.into()),
        index: Index::of(&lines),
        lines,
        open: BTreeSet::from_iter(open),
    }
}

/// An index with one or two numbers spoilt is taken exactly where the reference takes it.
fn compare_damaged(dice: &mut Dice) {
    let mut quick = quick::Gateway::start(2 + dice.below(7) as u8, HOUSE_NUMBER);
    quick.count = dice.below(9) as usize;
    for line in &mut quick.lines[..quick.count] {
        *line = Line {
            node: NODE,
            start: 0x100 * dice.below(3),
            k: dice.pick(&[0, 0, 8]),
            port: dice.below(2) as u8,
        };
    }
    let mut slow = as_reference(&quick);
    let mut indexed = with_index(&quick);
    match dice.below(5) {
        0 => indexed.order[dice.below(9) as usize] = dice.below(10) as u8,
        1 => indexed
            .order
            .swap(dice.below(8) as usize, dice.below(8) as usize),
        2 => indexed.sets[dice.below(9) as usize] ^= 1 << dice.pick(&[0, 1, 8, 63]),
        3 => indexed.order[..8].reverse(),
        _ => {}
    }
    slow.index = as_proved(&indexed).index();
    let refusal = slow.receive(0, &[]).refusal;
    assert_eq!(indexed.receive(0, &[], true), (refusal, 0));
    assert!([refusal::BOUNDS, refusal::TOO_SHORT].contains(&refusal));
}

fn compare_trials(dice: &mut Dice) {
    let mut entries = Vec::new();
    for _ in 0..dice.pick(&[0, 1, 100, 1_000, 1_001]) {
        entries.push((dice.below(5) as u8, any_bytes(dice, 300)));
    }
    let mut file = trial::file_of(&entries);
    if dice.one_in(8) {
        file.pop();
    }
    let slow = trial::trial_text(&file);
    let mut text = [0; 20_000];
    let room = dice.pick(&[0, 8, 1_000, 20_000]);
    for trial_text in [
        trial_text::<quick::Gateway>,
        trial_text::<quick_index::Gateway>,
    ] {
        let took = trial_text(&file, &mut text[..room], true);
        assert_eq!(text[..took], slow[..room.min(slow.len())]);
    }
}

/// A message's bytes, one in eight of them cut or lengthened.
fn any_bytes(dice: &mut Dice, spread: u64) -> Vec<u8> {
    let mti = dice.pick(&MTIS);
    let source = dice.pick(&[NODE, NODE + 1, NODE + 2]);
    let mut bytes = mti.to_be_bytes().to_vec();
    bytes.extend(&source.to_be_bytes()[2..]);
    if message::has_destination(mti) {
        bytes.extend(&dice.pick(&[0, NODE]).to_be_bytes()[2..]);
    }
    if message::has_event(mti) {
        let event = EVENT + dice.below(spread);
        let number = if mti == 0x04A4 {
            any_range(dice, event)
        } else {
            event
        };
        bytes.extend(number.to_be_bytes());
    }
    match mti {
        0x0100 | 0x0110 => bytes.extend(&source.to_be_bytes()[2..]),
        0x0F14 => bytes.extend(vec![7; dice.pick(&[1, 256, 257])]),
        0x0490 => bytes.extend(vec![7; dice.pick(&[0, 72, 73])]),
        _ => {}
    }
    if dice.one_in(8) {
        bytes.resize(dice.below(30) as usize, 0);
    }
    bytes
}

/// A range around an event, mostly of a few, at times of many that are there, seldom of all.
fn any_range(dice: &mut Dice, event: u64) -> u64 {
    let low = dice.pick(&[0, 0, 1, 2, 3, 4, 6, 10]);
    match dice.below(60) {
        0 => dice.pick(&[0, u64::MAX]),
        1 => event | 0xFFFF_FFFF,
        _ => event | ((1 << low) - 1),
    }
}

/// Fields that mostly follow the flags of the MTI.
fn any_message(dice: &mut Dice) -> Message {
    let mti = dice.pick(&MTIS);
    let mut id = || dice.pick(&[NODE, NODE + 1, NODE + 2, (1 << 48) - 1, 1 << 48, 0]);
    let (source, destination) = (id(), id());
    Message {
        mti,
        source,
        destination: (message::has_destination(mti) != dice.one_in(10)).then_some(destination),
        event: (message::has_event(mti) != dice.one_in(10)).then_some(EVENT + dice.below(600)),
    }
}

fn any_content(dice: &mut Dice, message: &Message) -> Vec<u8> {
    match message.mti {
        0x0100 | 0x0110 if !dice.one_in(4) => message.source.to_be_bytes()[2..].to_vec(),
        0x0F14 => vec![7; dice.pick(&[0, 1, 256, 257])],
        0x0490 => vec![7; dice.pick(&[0, 72, 73])],
        _ => vec![7; dice.pick(&[0, 0, 0, 6])],
    }
}
