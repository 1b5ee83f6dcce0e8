//! A call of a board as a value (01-scope, Node).

use crate::node::{Answer, Node};

/// A call; room is the length of the output that is lent to it (01-scope, Node, the list of calls).
#[derive(Clone, Debug)]
pub enum Call {
    Initialise { room: usize },
    Announce { room: usize, slot: usize },
    Produce { room: usize, slot: usize },
    SetStatus { slot: usize, status: u8 },
    Receive { room: usize, message: Vec<u8> },
}

impl Call {
    /// Puts a node through the call (01-scope, Node).
    pub fn make(&self, node: &mut Node) -> Answer {
        match self {
            Call::Initialise { room } => node.initialise(*room),
            Call::Announce { room, slot } => node.announce(*slot, *room),
            Call::Produce { room, slot } => node.produce(*slot, *room),
            Call::SetStatus { slot, status } => node.set_status(*slot, *status),
            Call::Receive { room, message } => node.receive(message, *room),
        }
    }

    /// The room that is lent; a status is set without any (01-scope, Node).
    pub fn room(&self) -> usize {
        match self {
            Call::Initialise { room }
            | Call::Announce { room, .. }
            | Call::Produce { room, .. }
            | Call::Receive { room, .. } => *room,
            Call::SetStatus { .. } => 0,
        }
    }
}
