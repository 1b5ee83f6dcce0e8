//! A node with up to 64 slots (01-scope, Node; 001 sections 5 and 6).

use crate::gateway::{holds, is_automatic_block};
use crate::message::{self, Kind, Message};
use crate::refusal;

/// The role numbers (BOARD-FILES).
pub const PRODUCER: u8 = 0;
pub const CONSUMER: u8 = 1;
/// The status numbers (BOARD-FILES).
pub const VALID: u8 = 0;
pub const INVALID: u8 = 1;
pub const UNKNOWN: u8 = 2;
/// The mark numbers (BOARD-FILES).
pub const UNADVERTISED: u8 = 0;
pub const ADVERTISED: u8 = 1;
/// The state numbers (BOARD-FILES).
pub const NOT_INITIALIZED: u8 = 0;
pub const INITIALIZED: u8 = 1;
/// The most slots (01-scope, The box and the boards).
pub const MOST_SLOTS: usize = 64;
/// The most bytes of replies (01-scope, Refusal numbers, 13).
pub const MOST_REPLY_BYTES: usize = 1_024;

/// A slot: role, Event ID, status and Advertised mark, as numbers (01-scope, Node).
#[derive(Clone, Copy, Debug, PartialEq, Eq)]
pub struct Slot {
    pub role: u8,
    pub event: u64,
    pub status: u8,
    pub mark: u8,
}

/// A node: Node ID, state, automatic block and slots (01-scope, Node).
#[derive(Clone, Debug, PartialEq, Eq)]
pub struct Node {
    pub id: u64,
    pub state: u8,
    pub automatic: (u64, u32),
    pub slots: Vec<Slot>,
}

/// What a call answers: refusal or 0, the bytes written, the slots matched (01-scope, Node).
#[derive(Clone, Debug, PartialEq, Eq)]
pub struct Answer {
    pub refusal: u8,
    pub written: Vec<u8>,
    pub matches: u64,
}

impl Answer {
    /// A refusal, beside which every number is 0 (01-scope, Refusal numbers).
    pub fn refused(refusal: u8) -> Answer {
        Answer {
            refusal,
            written: Vec::new(),
            matches: 0,
        }
    }

    /// The messages written: one Initialization Complete, or others of 16 bytes each (01-scope, Messages; Node).
    pub fn messages(&self) -> impl Iterator<Item = &[u8]> {
        self.written.chunks(16)
    }
}

/// The bytes written and the slots matched by an accepted call.
type Accepted = (Vec<u8>, u64);

/// An answer from what a call did (01-scope, Node).
fn answer(done: Result<Accepted, u8>) -> Answer {
    match done {
        Ok((written, matches)) => Answer {
            refusal: refusal::NONE,
            written,
            matches,
        },
        Err(refusal) => Answer::refused(refusal),
    }
}

impl Node {
    /// Whether the node is in bounds with at most 64 slots (01-scope, Node, "Out of bounds"; Refusal numbers, 7).
    pub fn in_bounds(&self) -> bool {
        if self.slots.len() > MOST_SLOTS {
            return false;
        }
        if self.state != NOT_INITIALIZED && self.state != INITIALIZED {
            return false;
        }
        if !is_automatic_block(self.automatic) {
            return false;
        }
        for slot in &self.slots {
            if slot.role != PRODUCER && slot.role != CONSUMER {
                return false;
            }
            if !is_status(slot.status) {
                return false;
            }
            if slot.mark != UNADVERTISED && slot.mark != ADVERTISED {
                return false;
            }
            if slot.mark == ADVERTISED && self.state == NOT_INITIALIZED {
                return false;
            }
        }
        true
    }

    /// Initialises, also when already Initialized: refusals 7, 3, 6 (01-scope, Node, "Initialise").
    pub fn initialise(&mut self, room: usize) -> Answer {
        answer(self.try_initialise(room))
    }

    /// Announces a slot: refusals 7, 3, 9, 10, 13, 6 (01-scope, Node, "Announce a slot").
    pub fn announce(&mut self, slot: usize, room: usize) -> Answer {
        answer(self.try_announce(slot, room))
    }

    /// Produces from a slot: refusals 7, 3, 9, 10, 11, 12, 13, 6 (01-scope, Node, "Produce from a slot").
    pub fn produce(&mut self, slot: usize, room: usize) -> Answer {
        answer(self.try_produce(slot, room))
    }

    /// Sets a slot's status, in any state: refusals 7, 3, 10 (01-scope, Node, "Set a slot's status").
    pub fn set_status(&mut self, slot: usize, status: u8) -> Answer {
        answer(self.try_set_status(slot, status))
    }

    /// Receives a message: refusals 7, 3, reading, 13, 6 (01-scope, Node, "Receive").
    pub fn receive(&mut self, bytes: &[u8], room: usize) -> Answer {
        answer(self.try_receive(bytes, room))
    }

    /// Refusals 7 and 3, which every node call has first (01-scope, Refusal numbers, order).
    fn check_node(&self) -> Result<(), u8> {
        if !self.in_bounds() {
            return Err(refusal::BOUNDS);
        }
        if !message::is_node_id(self.id) {
            return Err(refusal::NODE_ID);
        }
        Ok(())
    }

    /// Refusals 9 and 10, then the slot (01-scope, Refusal numbers, order).
    fn ready_slot(&self, slot: usize) -> Result<Slot, u8> {
        if self.state != INITIALIZED {
            return Err(refusal::NOT_INITIALIZED);
        }
        if slot >= self.slots.len() {
            return Err(refusal::NO_SLOT);
        }
        Ok(self.slots[slot])
    }

    /// Writes 0100; slots in the automatic block become Advertised, others Unadvertised (01-scope, Node).
    fn try_initialise(&mut self, room: usize) -> Result<Accepted, u8> {
        self.check_node()?;
        let written = self.initialization_complete()?;
        check_output(written.len(), room)?;
        self.state = INITIALIZED;
        for slot in &mut self.slots {
            slot.mark = if holds(self.automatic, slot.event) {
                ADVERTISED
            } else {
                UNADVERTISED
            };
        }
        Ok((written, 0))
    }

    /// Writes the slot's Identified message and advertises its role and event (01-scope, Node).
    fn try_announce(&mut self, slot: usize, room: usize) -> Result<Accepted, u8> {
        self.check_node()?;
        let slot = self.ready_slot(slot)?;
        let written = self.identified(slot)?;
        check_output(written.len(), room)?;
        self.advertise(slot.role, slot.event);
        Ok((written, 0))
    }

    /// Writes 05B4 with the slot's event (01-scope, Node).
    fn try_produce(&mut self, slot: usize, room: usize) -> Result<Accepted, u8> {
        self.check_node()?;
        let slot = self.ready_slot(slot)?;
        if slot.role != PRODUCER {
            return Err(refusal::NOT_PRODUCER);
        }
        if slot.mark != ADVERTISED {
            return Err(refusal::NOT_ADVERTISED);
        }
        let written = self.with_event(0x05B4, slot.event)?;
        check_output(written.len(), room)?;
        Ok((written, 0))
    }

    /// Sets the status of one slot (01-scope, Node).
    fn try_set_status(&mut self, slot: usize, status: u8) -> Result<Accepted, u8> {
        self.check_node()?;
        if slot >= self.slots.len() || !is_status(status) {
            return Err(refusal::NO_SLOT);
        }
        self.slots[slot].status = status;
        Ok((Vec::new(), 0))
    }

    /// Matches a report or answers an inquiry (01-scope, Node, "Receive"; 001 sections 6.1 to 6.4).
    fn try_receive(&mut self, bytes: &[u8], room: usize) -> Result<Accepted, u8> {
        self.check_node()?;
        let message = message::read(bytes)?;
        if self.state != INITIALIZED {
            return Ok((Vec::new(), 0));
        }
        if let Some(event) = message::reported_event(&message) {
            return Ok((Vec::new(), self.matching_consumers(event)));
        }
        let answering = self.answering_slots(&message);
        let mut written = Vec::new();
        for slot in &answering {
            written.extend(self.identified(*slot)?);
        }
        check_output(written.len(), room)?;
        for slot in answering {
            self.advertise(slot.role, slot.event);
        }
        Ok((written, 0))
    }

    /// Bit i for consumer slot i with that event (01-scope, Node, "Receive").
    fn matching_consumers(&self, event: u64) -> u64 {
        let mut matches = 0;
        for (place, slot) in self.slots.iter().enumerate() {
            if slot.role == CONSUMER && slot.event == event {
                matches |= 1u64 << place;
            }
        }
        matches
    }

    /// The slots, in slot order, that a message other than a report has answered (01-scope, Node, "Receive").
    fn answering_slots(&self, message: &Message) -> Vec<Slot> {
        match message::kind_of(message.mti) {
            Ok(Kind::IdentifyProducer) => self.lowest_matching(PRODUCER, message.event),
            Ok(Kind::IdentifyConsumer) => self.lowest_matching(CONSUMER, message.event),
            Ok(Kind::IdentifyEventsGlobal) => self.each_to_identify(),
            Ok(Kind::IdentifyEventsAddressed) if message.destination == Some(self.id) => {
                self.each_to_identify()
            }
            _ => Vec::new(),
        }
    }

    /// The lowest slot with that role and event, automatic or not, or none (01-scope, Node, "Receive").
    fn lowest_matching(&self, role: u8, event: Option<u64>) -> Vec<Slot> {
        for slot in &self.slots {
            if slot.role == role && Some(slot.event) == event {
                return vec![*slot];
            }
        }
        Vec::new()
    }

    /// One slot, the lowest, for each different role and event outside the automatic block (01-scope, Node).
    fn each_to_identify(&self) -> Vec<Slot> {
        let mut chosen: Vec<Slot> = Vec::new();
        for slot in &self.slots {
            if holds(self.automatic, slot.event) {
                continue;
            }
            let already = chosen
                .iter()
                .any(|earlier| earlier.role == slot.role && earlier.event == slot.event);
            if !already {
                chosen.push(*slot);
            }
        }
        chosen
    }

    /// Marks every slot of that role and Event ID Advertised (01-scope, Node, "Announce a slot").
    fn advertise(&mut self, role: u8, event: u64) {
        for slot in &mut self.slots {
            if slot.role == role && slot.event == event {
                slot.mark = ADVERTISED;
            }
        }
    }

    /// The bytes of the node's Initialization Complete, 0100 (01-scope, Node, "Initialise").
    fn initialization_complete(&self) -> Result<Vec<u8>, u8> {
        let message = Message {
            mti: 0x0100,
            source: self.id,
            destination: None,
            event: None,
        };
        message::write(&message, &message::node_id_bytes(self.id), usize::MAX)
    }

    /// The bytes of a slot's Identified message with its status (01-scope, Node; 001 sections 4.3 and 4.6).
    fn identified(&self, slot: Slot) -> Result<Vec<u8>, u8> {
        let mti = match (slot.role, slot.status) {
            (PRODUCER, VALID) => 0x0544,
            (PRODUCER, INVALID) => 0x0545,
            (PRODUCER, UNKNOWN) => 0x0547,
            (CONSUMER, VALID) => 0x04C4,
            (CONSUMER, INVALID) => 0x04C5,
            (CONSUMER, UNKNOWN) => 0x04C7,
            _ => return Err(refusal::BOUNDS),
        };
        self.with_event(mti, slot.event)
    }

    /// The bytes of a message from this node with an Event ID and no content (01-scope, Messages).
    fn with_event(&self, mti: u16, event: u64) -> Result<Vec<u8>, u8> {
        let message = Message {
            mti,
            source: self.id,
            destination: None,
            event: Some(event),
        };
        message::write(&message, &[], usize::MAX)
    }
}

/// Whether the number is one of the three statuses (01-scope, Refusal numbers, 10; BOARD-FILES).
fn is_status(status: u8) -> bool {
    status == VALID || status == INVALID || status == UNKNOWN
}

/// Refusals 13 and 6 for what is to be written (01-scope, Refusal numbers, order).
fn check_output(length: usize, room: usize) -> Result<(), u8> {
    if length > MOST_REPLY_BYTES {
        return Err(refusal::REPLIES);
    }
    if length > room {
        return Err(refusal::ROOM);
    }
    Ok(())
}

#[cfg(test)]
mod tests {
    use super::*;
    use crate::range::block_of;

    const ID: u64 = 0x0A0000000007;
    const EVENT: u64 = 0x0A00000000070001;
    const AUTOMATIC: u64 = 0x0100000000000005;

    fn slot(role: u8, event: u64, status: u8) -> Slot {
        Slot {
            role,
            event,
            status,
            mark: UNADVERTISED,
        }
    }

    fn node(slots: &[Slot]) -> Node {
        Node {
            id: ID,
            state: NOT_INITIALIZED,
            automatic: block_of(0x010000000000FFFF),
            slots: slots.to_vec(),
        }
    }

    fn ready(slots: &[Slot]) -> Node {
        let mut node = node(slots);
        assert_eq!(node.initialise(14).refusal, 0);
        node
    }

    fn bytes(mti: u16, event: u64) -> Vec<u8> {
        let mut bytes = mti.to_be_bytes().to_vec();
        bytes.extend([0x0A, 0, 0, 0, 0, 9]);
        bytes.extend(event.to_be_bytes());
        bytes
    }

    fn marks(node: &Node) -> Vec<u8> {
        node.slots.iter().map(|slot| slot.mark).collect()
    }

    fn refused(before: &Node, call: impl Fn(&mut Node) -> Answer, number: u8) {
        let mut after = before.clone();
        let answer = call(&mut after);
        assert_eq!(answer.refusal, number);
        assert_eq!((answer.written, answer.matches), (Vec::new(), 0));
        assert_eq!(&after, before);
    }

    /// 01-scope, Node, "Initialise, also when already Initialized"; 003 section 3.3.1.
    #[test]
    fn initialising() {
        let slots = [slot(0, EVENT, 0), slot(0, AUTOMATIC, 1)];
        let mut node = node(&slots);
        refused(&node, |node| node.initialise(13), 6);
        let written = node.initialise(14).written;
        assert_eq!(written, [1, 0, 0x0A, 0, 0, 0, 0, 7, 0x0A, 0, 0, 0, 0, 7]);
        assert_eq!((node.state, marks(&node)), (1, vec![0, 1]));
        node.announce(0, 16);
        assert_eq!(marks(&node), [1, 1]);
        assert_eq!(node.initialise(100).written, written);
        assert_eq!(marks(&node), [0, 1]);
    }

    /// 01-scope, Node, "Announce a slot", and Traps: every slot of the role and event is marked.
    #[test]
    fn announcing() {
        let slots = [
            slot(0, EVENT, 2),
            slot(0, EVENT, 0),
            slot(1, EVENT, 1),
            slot(0, EVENT + 1, 0),
        ];
        let mut node = ready(&slots);
        refused(&node, |node| node.announce(1, 15), 6);
        let mut expected = vec![0x05, 0x44, 0x0A, 0, 0, 0, 0, 7];
        expected.extend(EVENT.to_be_bytes());
        assert_eq!(node.announce(1, 16).written, expected);
        assert_eq!(marks(&node), [1, 1, 0, 0]);
        assert_eq!(node.announce(0, 16).written[..2], [0x05, 0x47]);
        assert_eq!(node.announce(2, 16).written[..2], [0x04, 0xC5]);
        assert_eq!(marks(&node), [1, 1, 1, 0]);
    }

    /// 001 sections 4.3 and 4.6: the MTI of each role and status.
    #[test]
    fn identified_mtis() {
        for (role, status, mti) in [
            (0, 0, 0x0544u16),
            (0, 1, 0x0545),
            (0, 2, 0x0547),
            (1, 0, 0x04C4),
            (1, 1, 0x04C5),
            (1, 2, 0x04C7),
        ] {
            let mut node = ready(&[slot(role, EVENT, status)]);
            assert_eq!(node.announce(0, 16).written[..2], mti.to_be_bytes());
        }
    }

    /// 01-scope, Node, "Produce from a slot", and Refusal numbers, order 9, 10, 11, 12, 6; 00-order, demand 2.
    #[test]
    fn producing() {
        let slots = [slot(1, EVENT, 0), slot(0, EVENT, 0), slot(0, AUTOMATIC, 0)];
        refused(&node(&slots), |node| node.produce(9, 0), 9);
        let mut node = ready(&slots);
        refused(&node, |node| node.produce(3, 0), 10);
        refused(&node, |node| node.produce(0, 0), 11);
        refused(&node, |node| node.produce(1, 0), 12);
        refused(&node, |node| node.produce(2, 15), 6);
        assert_eq!(node.produce(2, 16).written[..2], [0x05, 0xB4]);
        node.announce(1, 16);
        let mut expected = vec![0x05, 0xB4, 0x0A, 0, 0, 0, 0, 7];
        expected.extend(EVENT.to_be_bytes());
        assert_eq!(node.produce(1, 16).written, expected);
        node.initialise(14);
        refused(&node, |node| node.produce(1, 16), 12);
    }

    /// 01-scope, Node, "Set a slot's status, in any state: refusals 7, 3, 10".
    #[test]
    fn setting_a_status() {
        let mut node = node(&[slot(0, EVENT, 0)]);
        assert_eq!(node.set_status(0, 2).refusal, 0);
        assert_eq!(node.slots[0].status, 2);
        refused(&node, |node| node.set_status(1, 0), 10);
        refused(&node, |node| node.set_status(0, 3), 10);
        node.initialise(14);
        assert_eq!(node.set_status(0, 1).refusal, 0);
        assert_eq!(node.announce(0, 16).written[..2], [0x05, 0x45]);
    }

    /// 01-scope, Refusal numbers, 7 and 3 first, in every call; Node, "Out of bounds".
    #[test]
    fn bounds() {
        let good = node(&[slot(0, EVENT, 0)]);
        let mut bad = vec![good.clone(); 8];
        bad[0].slots = vec![slot(0, EVENT, 0); 65];
        bad[1].state = 2;
        bad[2].slots[0].role = 2;
        bad[3].slots[0].status = 3;
        bad[4].slots[0].mark = 2;
        bad[5].slots[0].mark = 1;
        bad[6].automatic = (5, 0);
        bad[7].automatic = (0, 65);
        for mut node in bad {
            node.id = 0;
            for_each_call(&node, 7);
        }
        for id in [0, 1 << 48] {
            let mut node = good.clone();
            node.id = id;
            for_each_call(&node, 3);
        }
        let mut most = node(&[slot(0, EVENT, 0); 64]);
        assert_eq!(most.initialise(14).refusal, 0);
    }

    fn for_each_call(node: &Node, number: u8) {
        refused(node, |node| node.initialise(0), number);
        refused(node, |node| node.announce(70, 0), number);
        refused(node, |node| node.produce(70, 0), number);
        refused(node, |node| node.set_status(70, 9), number);
        refused(node, |node| node.receive(&[], 0), number);
    }

    /// 01-scope, Node, "Receive": not Initialized; reports; reading's refusals.
    #[test]
    fn receiving_reports() {
        let mut slots = vec![slot(0, EVENT, 0); 64];
        slots[0] = slot(1, EVENT, 0);
        slots[63] = slot(1, EVENT, 1);
        slots[5] = slot(1, EVENT + 1, 1);
        let mut node = node(&slots);
        refused(&node, |node| node.receive(&[0x0F, 0x15], 0), 2);
        assert_eq!(node.receive(&bytes(0x05B4, EVENT), 0).matches, 0);
        assert!(node.receive(&bytes(0x0914, EVENT), 99).written.is_empty());
        node.initialise(14);
        let before = node.clone();
        assert_eq!(
            node.receive(&bytes(0x05B4, EVENT), 0).matches,
            1 | (1 << 63)
        );
        let mut payload = bytes(0x0F14, EVENT + 1);
        refused(&node, |node| node.receive(&payload, 0), 4);
        payload.push(1);
        assert_eq!(node.receive(&payload, 0).matches, 1 << 5);
        for mti in [0x0594, 0x04C4, 0x04A4, 0x0524, 0x15B4] {
            let answer = node.receive(&bytes(mti, EVENT), 0);
            assert_eq!((answer.refusal, answer.matches), (0, 0));
            assert!(answer.written.is_empty());
        }
        assert_eq!(node, before);
    }

    /// 01-scope, Node, "Receive": Identify Producer and Consumer, automatic or not, by the lowest slot.
    #[test]
    fn inquiries() {
        let slots = [
            slot(1, EVENT, 0),
            slot(0, EVENT, 1),
            slot(0, EVENT, 2),
            slot(1, AUTOMATIC, 2),
        ];
        let mut node = ready(&slots);
        refused(&node, |node| node.receive(&bytes(0x0914, EVENT), 15), 6);
        let answer = node.receive(&bytes(0x0914, EVENT), 16);
        assert_eq!(answer.written[..2], [0x05, 0x45]);
        assert_eq!((answer.written.len(), answer.matches), (16, 0));
        assert_eq!(marks(&node), [0, 1, 1, 1]);
        let answer = node.receive(&bytes(0x08F4, AUTOMATIC), 16);
        assert_eq!(answer.written[..2], [0x04, 0xC7]);
        assert!(node
            .receive(&bytes(0x0914, AUTOMATIC), 0)
            .written
            .is_empty());
        assert_eq!(node.receive(&bytes(0x0914, AUTOMATIC), 0).refusal, 0);
    }

    /// 01-scope, Node, "Receive": Identify Events, global or to this node; 001 section 6.2.
    #[test]
    fn identify_events() {
        let slots = [
            slot(0, EVENT + 1, 0),
            slot(0, AUTOMATIC, 0),
            slot(1, EVENT, 1),
            slot(0, EVENT + 1, 2),
            slot(0, EVENT, 2),
        ];
        let mut expected = Vec::new();
        for (mti, event) in [(0x0544, EVENT + 1), (0x04C5, EVENT), (0x0547, EVENT)] {
            let mut one = bytes(mti, event);
            one[7] = 7;
            expected.extend(one);
        }
        let global = [0x09, 0x70, 0x0A, 0, 0, 0, 0, 9];
        let to_this = [0x09, 0x68, 0x0A, 0, 0, 0, 0, 9, 0x0A, 0, 0, 0, 0, 7];
        let to_other = [0x09, 0x68, 0x0A, 0, 0, 0, 0, 9, 0x0A, 0, 0, 0, 0, 8];
        for asked in [&global[..], &to_this[..]] {
            let mut node = ready(&slots);
            refused(&node, |node| node.receive(asked, 47), 6);
            assert_eq!(node.receive(asked, 48).written, expected);
            assert_eq!(marks(&node), [1; 5]);
        }
        let mut node = ready(&slots);
        assert_eq!(node.receive(&to_other, 0).refusal, 0);
        assert_eq!(marks(&node), [0, 1, 0, 0, 0]);
    }

    /// 01-scope, Refusal numbers, 13: 64 different slots give 1,024 bytes, which pass.
    #[test]
    fn most_replies() {
        let slots: Vec<Slot> = (0..64).map(|place| slot(0, EVENT + place, 0)).collect();
        let mut node = ready(&slots);
        let global = [0x09, 0x70, 0x0A, 0, 0, 0, 0, 9];
        assert_eq!(node.receive(&global, 1023).refusal, 6);
        assert_eq!(node.receive(&global, 2048).written.len(), 1024);
        assert_eq!(check_output(1025, 0), Err(13));
    }
}
