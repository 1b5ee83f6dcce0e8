//! Makes trial files: mostly histories of the trial's box, and files at the limits or damaged; and such as end in an entry to ask about.

use crate::gateway::{Gateway, MOST_LINES};
use crate::trial::{self, HOUSE_NUMBER, MOST_BYTES, MOST_ENTRIES, PORTS};

use super::histories::{any_history, long_history, Arrival};
use super::parts::{change_a_byte, damage_bytes};
use super::questions::{Blocks, Question};
use super::random::Dice;
use super::world::Area;

/// The file of these entries.
fn file_of(arrivals: &[Arrival]) -> Vec<u8> {
    let entry = |arrival: &Arrival| (arrival.port, arrival.bytes.clone());
    let entries: Vec<_> = arrivals.iter().map(entry).collect();
    trial::file_of(&entries)
}

/// A file: mostly a history, else at a limit, damaged, or next to nothing.
pub fn any_file(dice: &mut Dice) -> Vec<u8> {
    match dice.weighted(&[70, 5, 5, 5, 5, 10]) {
        0 => file_of(&history(dice)),
        1 => {
            let length = dice.between(300, MOST_ENTRIES);
            file_of(&long(dice, length))
        }
        2 => {
            let length = MOST_ENTRIES + dice.pick(&[0, 0, 1, 2]);
            file_of(&long(dice, length))
        }
        3 => file_at_most_bytes(dice),
        4 => nearly_nothing(dice),
        _ => damaged_file(dice),
    }
}

/// A file whose last entry is mostly a report of what the table holds by then, or else any file.
pub fn any_file_to_ask(dice: &mut Dice) -> Vec<u8> {
    let mut arrivals = match dice.weighted(&[20, 2, 38, 40]) {
        0 => return any_file(dice),
        1 => return file_of(&[]),
        2 => history(dice),
        _ => filled(dice),
    };
    let gateway = after(&arrivals);
    let blocks = Blocks {
        lines: &gateway.lines,
        automatic: gateway.automatic,
    };
    let before = dice.between(0, arrivals.len() - 1);
    let question = Question::any(dice, PORTS as u8, &blocks, &arrivals[before]);
    arrivals.push(question.arrival);
    file_of(&arrivals)
}

/// A history that ends where the table is full and no leg is open yet.
fn filled(dice: &mut Dice) -> Vec<Arrival> {
    let mut arrivals = long(dice, 320);
    let (mut gateway, _) = Gateway::start(PORTS, HOUSE_NUMBER);
    let fills = |arrival: &Arrival| {
        gateway.receive(arrival.port.into(), &arrival.bytes);
        gateway.lines.len() == MOST_LINES
    };
    if let Some(place) = arrivals.iter().position(fills) {
        arrivals.truncate(place + 1);
    }
    arrivals
}

/// The trial's box after these messages.
fn after(arrivals: &[Arrival]) -> Gateway {
    let (mut gateway, _) = Gateway::start(PORTS, HOUSE_NUMBER);
    for arrival in arrivals {
        gateway.receive(arrival.port.into(), &arrival.bytes);
    }
    gateway
}

/// Any history of the trial's box.
fn history(dice: &mut Dice) -> Vec<Arrival> {
    any_history(dice, PORTS as u8, Area::house())
}

/// A history of so many messages of the trial's box.
fn long(dice: &mut Dice, length: usize) -> Vec<Arrival> {
    long_history(dice, PORTS as u8, Area::house(), length)
}

/// A file as long as may be, a byte less or a byte more, by one long body.
fn file_at_most_bytes(dice: &mut Dice) -> Vec<u8> {
    let mut arrivals = history(dice);
    let size = MOST_BYTES - 1 + dice.between(0, 2);
    let place = dice.between(0, arrivals.len() - 1);
    let missing = size - file_of(&arrivals).len();
    let body = &mut arrivals[place].bytes;
    body.resize(body.len() + missing, 0x5A);
    file_of(&arrivals)
}

/// A file of a few bytes, or of no entries.
fn nearly_nothing(dice: &mut Dice) -> Vec<u8> {
    if dice.chance(30) {
        return file_of(&[]);
    }
    let length = dice.between(0, 8);
    let mut file = dice.bytes(length);
    if let Some(high_byte_of_count) = file.first_mut() {
        *high_byte_of_count = 0;
    }
    file
}

/// A file with another count, another length, or other bytes.
fn damaged_file(dice: &mut Dice) -> Vec<u8> {
    let arrivals = history(dice);
    let mut file = file_of(&arrivals);
    match dice.below(5) {
        0 => file[1] ^= 1,
        1 => file[0] = dice.pick(&[3, 4, 255]),
        2 => file[2 + 3 * dice.between(0, arrivals.len() - 1) + 2] ^= 1,
        3 => change_a_byte(dice, &mut file),
        _ => damage_bytes(dice, &mut file),
    }
    file
}
