//! Messages: byte strings that are read, fields that are written, and each turned back.

use crate::message::{self, Message};
use crate::proved::{self, Reading};
use crate::refusal;

use super::functions::Function;
use super::parts::{any_mti, bytes_damaged_at_times, Parts};
use super::random::Dice;
use super::rows::Row;
use super::witness::{Hex, Witness};
use super::world::{Area, World};

/// Content lengths whose low 8 or 16 bits would be allowed.
const LONG: [usize; 5] = [262, 512, 65_536, 65_537, 65_542];
/// Bytes past the lent room, which no call may touch.
const GUARD: usize = 8;

/// What reading answers, with both flags as yes or no.
#[derive(PartialEq, Debug)]
struct ReadAnswer {
    refusal: u8,
    mti: u16,
    source: u64,
    has_destination: bool,
    destination: u64,
    has_event: bool,
    event: u64,
    content_at: usize,
}

/// What writing answers, and the whole output afterwards with its guard.
#[derive(PartialEq, Debug)]
struct WriteAnswer {
    refusal: u8,
    bytes: usize,
    output: Hex,
}

/// What is lent to a call that writes: the room, and what stands in the output before.
#[derive(Clone, Copy)]
struct Output {
    room: usize,
    filled_with: u8,
}

impl Output {
    /// The output before the call, with its guard.
    fn before(self) -> Vec<u8> {
        vec![self.filled_with; self.room + GUARD]
    }
}

/// One byte string to read or one message to write, what is accepted being turned back; and two MTIs in turn.
pub fn judge(dice: &mut Dice, index: u64, witness: &mut Witness) {
    let world = World::new(dice, 3, 3, Area::house());
    let even = (index as u16).wrapping_mul(2);
    for mti in [even, even + 1] {
        let parts = Parts::of_mti(dice, &world, mti);
        judge_bytes(dice, witness, &parts.bytes());
    }
    if dice.chance(50) {
        let bytes = any_bytes(dice, &world);
        judge_bytes(dice, witness, &bytes);
    } else {
        judge_writing(dice, witness, &world);
    }
}

/// Reads a byte string, and writes back what was read.
fn judge_bytes(dice: &mut Dice, witness: &mut Witness, bytes: &[u8]) {
    if !compare_read(witness, bytes) {
        return;
    }
    if let Ok(read) = message::read(bytes) {
        witness.column.saw(Row::WrittenBack);
        write_back(dice, witness, &read, bytes);
    }
}

/// Writes a message made from fields, and reads back what was written.
fn judge_writing(dice: &mut Dice, witness: &mut Witness, world: &World) {
    let parts = any_parts(dice, world);
    let output = Output {
        room: any_room(dice, parts.bytes().len()),
        filled_with: dice.number() as u8,
    };
    let given = given_fields(dice, &parts);
    let written = message::write(&reference_message(&parts), &parts.content, output.room);
    if !compare_write(witness, given, &parts.content, output, &written) {
        return;
    }
    if let Ok(bytes) = written {
        compare_read(witness, &bytes);
    }
}

/// The bytes of a message, often damaged, or any bytes.
fn any_bytes(dice: &mut Dice, world: &World) -> Vec<u8> {
    if dice.chance(5) {
        let length = dice.between(0, 100);
        return dice.bytes(length);
    }
    let parts = good_or_long_parts(dice, world);
    bytes_damaged_at_times(dice, parts, 60)
}

/// A message, often with doubtful fields or with a field against its flag.
fn any_parts(dice: &mut Dice, world: &World) -> Parts {
    let mut parts = good_or_long_parts(dice, world);
    for _ in 0..dice.pick(&[0, 0, 1, 1, 2]) {
        parts.damage(dice);
    }
    if dice.chance(15) {
        parts.turn_against_flag(dice);
    }
    parts
}

/// A message that can be read and written, seldom with content that is far too long.
fn good_or_long_parts(dice: &mut Dice, world: &World) -> Parts {
    let mti = any_mti(dice);
    let mut parts = Parts::of_mti(dice, world, mti);
    if dice.chance(1) {
        parts.content.resize(dice.pick(&LONG), 0x5A);
    }
    parts
}

/// Room for so many bytes: one short, exact, one more, or any.
fn any_room(dice: &mut Dice, needed: usize) -> usize {
    match dice.below(8) {
        0 => needed.saturating_sub(1),
        1 => needed + 1,
        2 => 0,
        3 => dice.between(0, needed),
        4 => dice.between(needed, needed + 300),
        _ => needed,
    }
}

/// The fields as the proved side takes them: any number but 0 is yes, and an absent field's number means nothing.
fn given_fields(dice: &mut Dice, parts: &Parts) -> proved::Message {
    let yes = dice.pick(&[1, 1, 2, 128, 255]);
    proved::Message {
        mti: parts.mti,
        source: parts.source,
        has_destination: parts.destination.map_or(0, |_| yes),
        destination: parts.destination.unwrap_or(dice.number()),
        has_event: parts.event.map_or(0, |_| yes),
        event: parts.event.unwrap_or(dice.number()),
    }
}

/// The fields as the reference takes them.
fn reference_message(parts: &Parts) -> Message {
    Message {
        mti: parts.mti,
        source: parts.source,
        destination: parts.destination,
        event: parts.event,
    }
}

/// Reads bytes on both sides; whether they agree.
fn compare_read(witness: &mut Witness, bytes: &[u8]) -> bool {
    let reference = answer_of_reference(bytes);
    witness.column.saw_answer(Function::Read, reference.refusal);
    let asked = || format!("read {:?}", Hex(bytes.to_vec()));
    witness.compare(asked, &answer_of_proved(&proved::read(bytes)), &reference)
}

/// The reference's reading, every number 0 beside a refusal.
fn answer_of_reference(bytes: &[u8]) -> ReadAnswer {
    let (refusal, message, content_at) = match message::read(bytes) {
        Ok(message) => {
            let content_at = message::header_length(message.mti);
            (refusal::NONE, message, content_at)
        }
        Err(refusal) => (refusal, no_message(), 0),
    };
    ReadAnswer {
        refusal,
        mti: message.mti,
        source: message.source,
        has_destination: message.destination.is_some(),
        destination: message.destination.unwrap_or(0),
        has_event: message.event.is_some(),
        event: message.event.unwrap_or(0),
        content_at,
    }
}

/// What stands beside a refusal.
fn no_message() -> Message {
    Message {
        mti: 0,
        source: 0,
        destination: None,
        event: None,
    }
}

/// The proved reading.
fn answer_of_proved(reading: &Reading) -> ReadAnswer {
    let message = reading.message;
    ReadAnswer {
        refusal: reading.refusal,
        mti: message.mti,
        source: message.source,
        has_destination: message.has_destination != 0,
        destination: message.destination,
        has_event: message.has_event != 0,
        event: message.event,
        content_at: reading.content_at,
    }
}

/// Writes what each side read; both have to give the bytes that came.
fn write_back(dice: &mut Dice, witness: &mut Witness, read: &Message, bytes: &[u8]) {
    let output = Output {
        room: any_room(dice, bytes.len()),
        filled_with: dice.number() as u8,
    };
    let reading = proved::read(bytes);
    let content = &bytes[reading.content_at..];
    let written = message::write(read, content, output.room);
    compare_write(witness, reading.message, content, output, &written);
    if let Ok(written) = written {
        let asked = || "what was read, written back".to_string();
        witness.compare(asked, &Hex(written), &Hex(bytes.to_vec()));
    }
}

/// Writes a message on the proved side and compares it with what the reference wrote; whether they agree.
fn compare_write(
    witness: &mut Witness,
    given: proved::Message,
    content: &[u8],
    output: Output,
    written: &Result<Vec<u8>, u8>,
) -> bool {
    let reference = write_answer_of_reference(output, written);
    witness
        .column
        .saw_answer(Function::Write, reference.refusal);
    let mut bytes = output.before();
    let writing = proved::write(given, content, &mut bytes[..output.room]);
    let proved = WriteAnswer {
        refusal: writing.refusal,
        bytes: writing.bytes,
        output: Hex(bytes),
    };
    let asked = || {
        let content = Hex(content.to_vec());
        let before = Hex(output.before());
        format!("write {given:X?} with content {content:?} into {before:?}, {GUARD} bytes of it past the room")
    };
    witness.compare(asked, &proved, &reference)
}

/// What the reference wrote, over the output as it stood.
fn write_answer_of_reference(output: Output, written: &Result<Vec<u8>, u8>) -> WriteAnswer {
    let mut after = output.before();
    let (refusal, bytes) = match written {
        Ok(written) => {
            after[..written.len()].copy_from_slice(written);
            (refusal::NONE, written.len())
        }
        Err(refusal) => (*refusal, 0),
    };
    WriteAnswer {
        refusal,
        bytes,
        output: Hex(after),
    }
}
