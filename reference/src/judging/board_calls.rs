//! Makes calls of a board.

use crate::board::MOST_ROOM;
use crate::call::Call;

use super::parts::{any_mti, bytes_damaged_at_times, Parts};
use super::random::Dice;
use super::world::{doubtful_node, good_node, Area, World};

/// The bytes of a reply, and of an Initialization Complete.
const REPLY: usize = 16;
const COMPLETE: usize = 14;

/// Whoever calls a board: what it knows of the board, and the nodes and events that it draws from.
pub struct Caller {
    pub world: World,
    pub id: u64,
    /// The events of the board's slots.
    pub events: Vec<u64>,
}

impl Caller {
    /// Of a board whose slots are still to be laid out; its own Node ID is one of the world's.
    pub fn new(dice: &mut Dice, automatic: Area) -> Caller {
        let events = dice.pick(&[1, 3, 6, 40, 300]);
        let mut world = World::new(dice, 2, events, automatic);
        let id = if dice.chance(8) {
            doubtful_node(dice)
        } else {
            good_node(dice)
        };
        world.nodes.push(id);
        Caller {
            world,
            id,
            events: Vec::new(),
        }
    }

    /// The event of the next slot; where all are to be different, they count up.
    pub fn add_event(&mut self, dice: &mut Dice, all_different: bool) -> u64 {
        let event = if all_different {
            self.world.events[0].wrapping_add(self.events.len() as u64)
        } else {
            self.world.event(dice)
        };
        self.events.push(event);
        event
    }

    /// So many calls, mostly with an initialisation first.
    pub fn calls(&self, dice: &mut Dice, count: usize) -> Vec<Call> {
        let call = |place| {
            if place == 0 && dice.chance(80) {
                return self.initialise(dice);
            }
            self.any_call(dice)
        };
        (0..count).map(call).collect()
    }

    /// Any call.
    pub fn any_call(&self, dice: &mut Dice) -> Call {
        match dice.weighted(&[4, 20, 25, 15, 36]) {
            0 => self.initialise(dice),
            1 => Call::Announce {
                room: any_room(dice, REPLY),
                slot: self.slot(dice),
            },
            2 => Call::Produce {
                room: any_room(dice, REPLY),
                slot: self.slot(dice),
            },
            3 => Call::SetStatus {
                slot: self.slot(dice),
                status: dice.pick(&[0, 0, 0, 1, 1, 1, 2, 2, 2, 3, 255]),
            },
            _ => self.receive(dice),
        }
    }

    /// An initialisation.
    fn initialise(&self, dice: &mut Dice) -> Call {
        Call::Initialise {
            room: any_room(dice, COMPLETE),
        }
    }

    /// A message received.
    fn receive(&self, dice: &mut Dice) -> Call {
        let parts = self.message(dice);
        let replies = match parts.mti {
            0x0970 | 0x0968 => dice.pick(&[self.events.len().min(64), 1, 2, 3]),
            _ => 1,
        };
        let message = bytes_damaged_at_times(dice, parts, 12);
        let room = any_room(dice, REPLY * replies);
        Call::Receive { room, message }
    }

    /// A message, mostly one that a board answers.
    fn message(&self, dice: &mut Dice) -> Parts {
        let mti = match dice.weighted(&[25, 35, 8, 12, 5, 15]) {
            0 => dice.pick(&[0x05B4, 0x05B4, 0x0F14]),
            1 => dice.pick(&[0x08F4, 0x0914]),
            2 => 0x0970,
            3 => 0x0968,
            4 => 0x0100,
            _ => any_mti(dice),
        };
        let mut parts = Parts::of_mti(dice, &self.world, mti);
        if parts.event.is_some() && !self.events.is_empty() && dice.chance(60) {
            parts.event = Some(dice.pick(&self.events));
        }
        if parts.destination.is_some() && dice.chance(50) {
            parts.destination = Some(self.id);
        }
        parts
    }

    /// A slot that is there, or at times one that is not.
    fn slot(&self, dice: &mut Dice) -> usize {
        let slots = self.events.len();
        if slots > 0 && dice.chance(92) {
            return dice.between(0, slots - 1);
        }
        dice.pick(&[slots, slots + 1, 64, 255])
    }
}

/// Room for so many bytes: mostly enough, at times one short or exact.
fn any_room(dice: &mut Dice, needed: usize) -> usize {
    let most = MOST_ROOM as usize;
    match dice.below(12) {
        0 => needed.saturating_sub(1),
        1 => needed,
        2 => needed + 1,
        3 => dice.between(0, most),
        4 => dice.pick(&[0, 1, REPLY]),
        _ => most,
    }
}
