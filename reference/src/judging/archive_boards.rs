//! The calls of a board in the archive, on both faces.

use crate::call::Call;
use crate::lent_board::LentBoard;
use crate::node;
use crate::proved::boards::{self, Node, NodeAnswer, Slot, SlotLists};
use crate::proved::Block;

use super::calls::{split_output, Faces, Left, Slots};

/// The archive that is linked.
pub struct Archive;

impl Faces for Archive {
    fn on_records(&self, board: &LentBoard, call: &Call, output: &[u8]) -> Left {
        let mut all: Vec<Slot> = board.slots.iter().map(given).collect();
        let mut output = output.to_vec();
        let node = record_of(board);
        let slots = &mut all[..board.lengths[0]];
        let out = &mut output[..call.room()];
        let answer = match call {
            Call::Initialise { .. } => boards::initialise(node, slots, out),
            Call::Announce { slot, .. } => boards::announce(node, *slot, slots, out),
            Call::Produce { slot, .. } => boards::produce(node, *slot, slots, out),
            Call::SetStatus { slot, status } => boards::set_status(node, *slot, *status, slots),
            Call::Receive { message, .. } => boards::hear(node, message, slots, out),
        };
        left(answer, all.iter().map(taken).collect(), output)
    }

    fn on_lists(&self, board: &LentBoard, call: &Call, output: &[u8]) -> Left {
        let mut all = Lists::of(&board.slots);
        let mut output = output.to_vec();
        let node = record_of(board);
        let lists = all.lent(board.lengths);
        let out = &mut output[..call.room()];
        let answer = match call {
            Call::Initialise { .. } => boards::initialise_lists(node, lists, out),
            Call::Announce { slot, .. } => boards::announce_lists(node, *slot, lists, out),
            Call::Produce { slot, .. } => boards::produce_lists(node, *slot, lists, out),
            Call::SetStatus { slot, status } => {
                boards::set_status_lists(node, *slot, *status, lists)
            }
            Call::Receive { message, .. } => boards::hear_lists(node, message, lists, out),
        };
        left(answer, all.slots(), output)
    }
}

/// Four lists, an entry of each for a slot.
struct Lists {
    roles: Vec<u8>,
    events: Vec<u64>,
    statuses: Vec<u8>,
    marks: Vec<u8>,
}

impl Lists {
    fn of(slots: &[node::Slot]) -> Lists {
        Lists {
            roles: slots.iter().map(|slot| slot.role).collect(),
            events: slots.iter().map(|slot| slot.event).collect(),
            statuses: slots.iter().map(|slot| slot.status).collect(),
            marks: slots.iter().map(|slot| slot.mark).collect(),
        }
    }

    /// So much of each.
    fn lent(&mut self, [roles, events, statuses, marks]: [usize; 4]) -> SlotLists<'_> {
        SlotLists {
            roles: &self.roles[..roles],
            events: &self.events[..events],
            statuses: &mut self.statuses[..statuses],
            marks: &mut self.marks[..marks],
        }
    }

    /// The slots that the entries are of.
    fn slots(&self) -> Vec<node::Slot> {
        let slot = |place| node::Slot {
            role: self.roles[place],
            event: self.events[place],
            status: self.statuses[place],
            mark: self.marks[place],
        };
        (0..self.roles.len()).map(slot).collect()
    }
}

/// A board's record as the archive takes it.
fn record_of(board: &LentBoard) -> Node {
    let (start, k) = board.automatic;
    Node {
        id: board.id,
        state: board.state,
        automatic: Block { start, k: k as u8 },
    }
}

/// A slot as the archive takes it.
fn given(slot: &node::Slot) -> Slot {
    Slot {
        role: slot.role,
        event: slot.event,
        status: slot.status,
        mark: slot.mark,
    }
}

/// A slot as the archive gives it back.
fn taken(slot: &Slot) -> node::Slot {
    node::Slot {
        role: slot.role,
        event: slot.event,
        status: slot.status,
        mark: slot.mark,
    }
}

/// What a call left.
fn left(answer: NodeAnswer, slots: Vec<node::Slot>, output: Vec<u8>) -> Left {
    let Block { start, k } = answer.node.automatic;
    let (written, rest) = split_output(output, answer.bytes);
    Left {
        refusal: answer.refusal,
        messages: answer.messages,
        bytes: answer.bytes,
        matches: answer.matches,
        id: answer.node.id,
        state: answer.node.state,
        automatic: (start, k.into()),
        slots: Slots(slots),
        written,
        rest,
    }
}
