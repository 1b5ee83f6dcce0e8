//! Messages, valid and damaged: as fields, and as bytes laid out from them.

use super::random::Dice;
use super::world::{doubtful_node, World};

/// Every MTI of the table, with its least and most content bytes.
const KNOWN: [(u16, usize, usize); 17] = [
    (0x0100, 6, 6),
    (0x0110, 6, 6),
    (0x05B4, 0, 0),
    (0x0F14, 1, 256),
    (0x08F4, 0, 0),
    (0x0914, 0, 0),
    (0x04C4, 0, 0),
    (0x04C5, 0, 0),
    (0x04C7, 0, 0),
    (0x0544, 0, 0),
    (0x0545, 0, 0),
    (0x0547, 0, 0),
    (0x04A4, 0, 0),
    (0x0524, 0, 0),
    (0x0970, 0, 0),
    (0x0968, 0, 0),
    (0x0594, 0, 0),
];
/// MTIs that are in no row of the table, most of them a bit away from one that is.
const NEAR: [u16; 20] = [
    0x04C6, 0x0546, 0x04C0, 0x04CC, 0x04A5, 0x04AC, 0x05B5, 0x05BC, 0x0F1C, 0x0F17, 0x0101, 0x0108,
    0x15B4, 0x2F14, 0x14C4, 0x34A4, 0x1100, 0x1F15, 0x2F16, 0x0498,
];
/// The MTIs that belong to CAN.
const CAN: [u16; 2] = [0x0F15, 0x0F16];
/// Content lengths at both sides of each limit.
const LENGTHS: [usize; 13] = [0, 1, 2, 5, 6, 7, 71, 72, 73, 255, 256, 257, 262];

/// The fields of a message and its content.
#[derive(Clone)]
pub struct Parts {
    pub mti: u16,
    pub source: u64,
    pub destination: Option<u64>,
    pub event: Option<u64>,
    pub content: Vec<u8>,
}

/// The six low bytes of a Node ID.
fn node_bytes(node: u64) -> [u8; 6] {
    let [_, _, six @ ..] = node.to_be_bytes();
    six
}

/// How many content bytes an MTI may have.
fn content_limits(mti: u16) -> (usize, usize) {
    KNOWN
        .iter()
        .find(|known| known.0 == mti)
        .map_or((0, 72), |known| (known.1, known.2))
}

/// An MTI that is not refused: from the table, near it, or any other.
pub fn any_mti(dice: &mut Dice) -> u16 {
    match dice.below(10) {
        0 => dice.pick(&NEAR),
        1 => dice.number() as u16 & 0x3FFF,
        _ => dice.pick(&KNOWN).0,
    }
}

impl Parts {
    /// A message of that MTI that can be read and written.
    pub fn of_mti(dice: &mut Dice, world: &World, mti: u16) -> Parts {
        let source = world.node(dice);
        let destination = (mti & 8 != 0).then(|| world.node(dice));
        let event = (mti & 4 != 0).then(|| world.event(dice));
        Parts {
            mti,
            source,
            destination,
            event,
            content: good_content(dice, mti, source),
        }
    }

    /// A message of that MTI with an event of the caller's.
    pub fn with_event(dice: &mut Dice, world: &World, mti: u16, event: u64) -> Parts {
        let mut parts = Parts::of_mti(dice, world, mti);
        parts.event = Some(event);
        parts
    }

    /// An Initialization Complete from a node, naming that one or another.
    pub fn restart(dice: &mut Dice, source: u64, named: u64) -> Parts {
        Parts {
            mti: dice.pick(&[0x0100, 0x0110]),
            source,
            destination: None,
            event: None,
            content: node_bytes(named).to_vec(),
        }
    }

    /// The bytes of the fields that are there, whether or not the MTI flags them.
    pub fn bytes(&self) -> Vec<u8> {
        let mut bytes = self.mti.to_be_bytes().to_vec();
        bytes.extend(node_bytes(self.source));
        bytes.extend(self.destination.map(node_bytes).into_iter().flatten());
        bytes.extend(self.event.map(u64::to_be_bytes).into_iter().flatten());
        bytes.extend(&self.content);
        bytes
    }

    /// One field made doubtful; what comes of it can still be a good message.
    pub fn damage(&mut self, dice: &mut Dice) {
        match dice.below(8) {
            0 => self.source = doubtful_node(dice),
            1 => self.destination = self.destination.map(|_| doubtful_node(dice)),
            2 => self.mti ^= 1 << dice.between(12, 15),
            3 => self.mti = dice.pick(&CAN),
            4 => self.mti = dice.number() as u16,
            5 => self.mti ^= 1 << dice.below(12),
            6 => self.content.resize(dice.pick(&LENGTHS), 0x5A),
            _ => change_a_byte(dice, &mut self.content),
        }
    }

    /// A field present or absent against its flag.
    pub fn turn_against_flag(&mut self, dice: &mut Dice) {
        let field = if dice.chance(50) {
            &mut self.destination
        } else {
            &mut self.event
        };
        *field = match field {
            Some(_) => None,
            None => Some(1 + dice.below(1 << 40)),
        };
    }
}

/// Content that the MTI may have, short and at its limits more often than between.
fn good_content(dice: &mut Dice, mti: u16, source: u64) -> Vec<u8> {
    if mti == 0x0100 || mti == 0x0110 {
        return node_bytes(source).to_vec();
    }
    let (least, most) = content_limits(mti);
    let length = match dice.below(8) {
        0 => most,
        1 => dice.between(least, most),
        _ => dice.between(least, most.min(least + 4)),
    };
    dice.bytes(length)
}

/// Another byte in one place, if there is one.
pub fn change_a_byte(dice: &mut Dice, bytes: &mut [u8]) {
    if !bytes.is_empty() {
        let place = dice.between(0, bytes.len() - 1);
        bytes[place] ^= dice.between(1, 255) as u8;
    }
}

/// Bytes cut short, made longer or changed.
pub fn damage_bytes(dice: &mut Dice, bytes: &mut Vec<u8>) {
    match dice.below(6) {
        0 => bytes.truncate(dice.between(0, bytes.len())),
        1 => bytes.truncate(bytes.len().saturating_sub(1)),
        2 => bytes.truncate(dice.between(0, 2)),
        3 => bytes.push(dice.number() as u8),
        4 => bytes.extend(vec![0x5A; dice.between(1, 80)]),
        _ => change_a_byte(dice, bytes),
    }
}

/// The bytes of a message, damaged so many times in a hundred, in its fields or in its bytes or in both.
pub fn bytes_damaged_at_times(dice: &mut Dice, mut parts: Parts, percent: u64) -> Vec<u8> {
    if !dice.chance(percent) {
        return parts.bytes();
    }
    let (fields, layout) = dice.pick(&[(true, false), (true, false), (false, true), (true, true)]);
    if fields {
        parts.damage(dice);
    }
    let mut bytes = parts.bytes();
    if layout {
        damage_bytes(dice, &mut bytes);
    }
    bytes
}

#[cfg(test)]
mod tests {
    use super::super::world::Area;
    use super::*;
    use crate::message::read;

    /// What is made as a good message can be read.
    #[test]
    fn good_messages() {
        let mut dice = Dice::of_input(1, 1, 1);
        let world = World::new(&mut dice, 3, 3, Area::house());
        for _ in 0..2_000 {
            let mti = any_mti(&mut dice);
            let parts = Parts::of_mti(&mut dice, &world, mti);
            assert!(CAN.contains(&mti) || read(&parts.bytes()).is_ok());
        }
    }
}
