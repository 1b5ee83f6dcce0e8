//! Makes messages to split, mostly event reports from a node of the list, and the room that is lent.

use crate::aliases::Aliases;
use crate::can::{frames_of, FRAME_BYTES};
use crate::message::is_node_id;

use super::can_talk::any_payload;
use super::parts::{any_mti, Parts};
use super::random::Dice;
use super::world::{near_node, Area, World};

/// The most room, as a file can lend it.
const MOST_ROOM: usize = 512;
/// Payload lengths at both sides of each limit.
const LIMITS: [usize; 11] = [0, 1, 7, 8, 9, 16, 17, 255, 256, 256, 257];

/// A message to split; its content has at most 300 bytes.
pub fn any_parts(dice: &mut Dice, list: &Aliases) -> Parts {
    let mut world = World::new(dice, 3, 3, Area::house());
    if !list.nodes.is_empty() {
        world.nodes = list.nodes.clone();
    }
    let mut parts = match dice.weighted(&[73, 10, 7, 10]) {
        0 => return report(dice, &world),
        1 => {
            let mti = any_mti(dice);
            Parts::of_mti(dice, &world, mti)
        }
        2 => {
            let named = world.node(dice);
            let source = if is_node_id(named) {
                near_node(dice, named)
            } else {
                named
            };
            Parts::restart(dice, source, named)
        }
        _ => report(dice, &world),
    };
    for _ in 0..dice.pick(&[0, 1, 1, 2]) {
        parts.damage(dice);
    }
    if dice.chance(20) {
        parts.turn_against_flag(dice);
    }
    if dice.chance(15) && is_node_id(parts.source) {
        parts.source = near_node(dice, parts.source);
    }
    parts
}

/// An event report, seldom from a node that is near one of the list.
fn report(dice: &mut Dice, world: &World) -> Parts {
    let mti = dice.pick(&[0x05B4, 0x0F14, 0x0F14, 0x0F14]);
    let mut parts = Parts::of_mti(dice, world, mti);
    if mti == 0x0F14 {
        let length = match dice.below(3) {
            0 => dice.between(1, 256),
            _ => dice.pick(&LIMITS),
        };
        parts.content = any_payload(dice, length);
    }
    if dice.chance(4) && is_node_id(parts.source) {
        parts.source = near_node(dice, parts.source);
    }
    parts
}

/// Room for the frames of a message: mostly as much as they need, a byte less or more, or as much as can be.
pub fn any_room(dice: &mut Dice, parts: &Parts) -> usize {
    let needed = FRAME_BYTES * frames_of(0, 0, &parts.content).len();
    let room = match dice.weighted(&[40, 15, 5, 15, 5, 20]) {
        0 => needed,
        1 => needed - 1,
        2 => needed + 1,
        3 => dice.between(0, needed + FRAME_BYTES),
        4 => dice.pick(&[0, 1, FRAME_BYTES - 1, FRAME_BYTES]),
        _ => MOST_ROOM,
    };
    room.min(MOST_ROOM)
}
