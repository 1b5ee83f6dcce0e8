//! The calls of a board, on slot records and on four lists.

use super::Block;

#[repr(C)]
#[derive(Clone, Copy, Debug, PartialEq, Eq)]
pub struct Node {
    pub id: u64,
    pub state: u8,
    pub automatic: Block,
}

#[repr(C)]
#[derive(Clone, Copy, Debug, PartialEq, Eq)]
pub struct Slot {
    pub role: u8,
    pub event: u64,
    pub status: u8,
    pub mark: u8,
}

#[repr(C)]
#[derive(Clone, Copy, Debug, PartialEq, Eq)]
pub struct NodeAnswer {
    pub refusal: u8,
    pub messages: usize,
    pub bytes: usize,
    pub matches: u64,
    pub node: Node,
}

/// A board's lists, lent for one call.
pub struct SlotLists<'a> {
    pub roles: &'a [u8],
    pub events: &'a [u64],
    pub statuses: &'a mut [u8],
    pub marks: &'a mut [u8],
}

mod linked {
    use super::{Node, NodeAnswer, Slot};

    #[link(name = "c_face", kind = "static")]
    extern "C" {
        pub fn hrislanoth_initialise(
            node: Node,
            slots: *mut Slot,
            count: usize,
            out: *mut u8,
            room: usize,
        ) -> NodeAnswer;
        pub fn hrislanoth_announce(
            node: Node,
            slot: usize,
            slots: *mut Slot,
            count: usize,
            out: *mut u8,
            room: usize,
        ) -> NodeAnswer;
        pub fn hrislanoth_produce(
            node: Node,
            slot: usize,
            slots: *mut Slot,
            count: usize,
            out: *mut u8,
            room: usize,
        ) -> NodeAnswer;
        pub fn hrislanoth_set_status(
            node: Node,
            slot: usize,
            status: u8,
            slots: *mut Slot,
            count: usize,
        ) -> NodeAnswer;
        pub fn hrislanoth_hear(
            node: Node,
            bytes: *const u8,
            length: usize,
            slots: *mut Slot,
            count: usize,
            out: *mut u8,
            room: usize,
        ) -> NodeAnswer;
        pub fn hrislanoth_initialise_lists(
            node: Node,
            roles: *const u8,
            roles_length: usize,
            events: *const u64,
            events_length: usize,
            statuses: *mut u8,
            statuses_length: usize,
            marks: *mut u8,
            marks_length: usize,
            out: *mut u8,
            room: usize,
        ) -> NodeAnswer;
        pub fn hrislanoth_announce_lists(
            node: Node,
            slot: usize,
            roles: *const u8,
            roles_length: usize,
            events: *const u64,
            events_length: usize,
            statuses: *mut u8,
            statuses_length: usize,
            marks: *mut u8,
            marks_length: usize,
            out: *mut u8,
            room: usize,
        ) -> NodeAnswer;
        pub fn hrislanoth_produce_lists(
            node: Node,
            slot: usize,
            roles: *const u8,
            roles_length: usize,
            events: *const u64,
            events_length: usize,
            statuses: *mut u8,
            statuses_length: usize,
            marks: *mut u8,
            marks_length: usize,
            out: *mut u8,
            room: usize,
        ) -> NodeAnswer;
        pub fn hrislanoth_set_status_lists(
            node: Node,
            slot: usize,
            status: u8,
            roles: *const u8,
            roles_length: usize,
            events: *const u64,
            events_length: usize,
            statuses: *mut u8,
            statuses_length: usize,
            marks: *mut u8,
            marks_length: usize,
        ) -> NodeAnswer;
        pub fn hrislanoth_hear_lists(
            node: Node,
            bytes: *const u8,
            length: usize,
            roles: *const u8,
            roles_length: usize,
            events: *const u64,
            events_length: usize,
            statuses: *mut u8,
            statuses_length: usize,
            marks: *mut u8,
            marks_length: usize,
            out: *mut u8,
            room: usize,
        ) -> NodeAnswer;
    }
}

/// Makes a linked call: the arguments before the slots, the slots as a pointer and a count, and the output if there is one.
macro_rules! on_records {
    ($call:ident($($first:expr),*), $slots:ident $(, $out:ident)?) => {
        unsafe {
            linked::$call($($first,)* $slots.as_mut_ptr(), $slots.len() $(, $out.as_mut_ptr(), $out.len())?)
        }
    };
}

/// The same with four lists, each a pointer and a length.
macro_rules! on_lists {
    ($call:ident($($first:expr),*), $lists:ident $(, $out:ident)?) => {
        unsafe {
            linked::$call(
                $($first,)*
                $lists.roles.as_ptr(),
                $lists.roles.len(),
                $lists.events.as_ptr(),
                $lists.events.len(),
                $lists.statuses.as_mut_ptr(),
                $lists.statuses.len(),
                $lists.marks.as_mut_ptr(),
                $lists.marks.len()
                $(, $out.as_mut_ptr(), $out.len())?
            )
        }
    };
}

pub fn initialise(node: Node, slots: &mut [Slot], out: &mut [u8]) -> NodeAnswer {
    on_records!(hrislanoth_initialise(node), slots, out)
}

pub fn announce(node: Node, slot: usize, slots: &mut [Slot], out: &mut [u8]) -> NodeAnswer {
    on_records!(hrislanoth_announce(node, slot), slots, out)
}

pub fn produce(node: Node, slot: usize, slots: &mut [Slot], out: &mut [u8]) -> NodeAnswer {
    on_records!(hrislanoth_produce(node, slot), slots, out)
}

pub fn set_status(node: Node, slot: usize, status: u8, slots: &mut [Slot]) -> NodeAnswer {
    on_records!(hrislanoth_set_status(node, slot, status), slots)
}

pub fn hear(node: Node, bytes: &[u8], slots: &mut [Slot], out: &mut [u8]) -> NodeAnswer {
    let (start, length) = (bytes.as_ptr(), bytes.len());
    on_records!(hrislanoth_hear(node, start, length), slots, out)
}

pub fn initialise_lists(node: Node, lists: SlotLists, out: &mut [u8]) -> NodeAnswer {
    on_lists!(hrislanoth_initialise_lists(node), lists, out)
}

pub fn announce_lists(node: Node, slot: usize, lists: SlotLists, out: &mut [u8]) -> NodeAnswer {
    on_lists!(hrislanoth_announce_lists(node, slot), lists, out)
}

pub fn produce_lists(node: Node, slot: usize, lists: SlotLists, out: &mut [u8]) -> NodeAnswer {
    on_lists!(hrislanoth_produce_lists(node, slot), lists, out)
}

pub fn set_status_lists(node: Node, slot: usize, status: u8, lists: SlotLists) -> NodeAnswer {
    on_lists!(hrislanoth_set_status_lists(node, slot, status), lists)
}

pub fn hear_lists(node: Node, bytes: &[u8], lists: SlotLists, out: &mut [u8]) -> NodeAnswer {
    let (start, length) = (bytes.as_ptr(), bytes.len());
    on_lists!(hrislanoth_hear_lists(node, start, length), lists, out)
}
