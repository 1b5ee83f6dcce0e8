//! The proved functions, linked from libc_face.a. `include/hrislanoth.h` says what they answer; the layouts here are that header's.
#![allow(unsafe_code)]

pub mod boards;
pub mod can;

pub use crate::lent_box::{Answer, Block, Gateway, Head, LentAnswer, Lists, Reason, PLACES};
pub use crate::lent_message::{Message, Writing};
pub use crate::lent_range::Number;

#[repr(C)]
#[derive(Clone, Copy, Debug, PartialEq, Eq)]
pub struct Reading {
    pub refusal: u8,
    pub message: Message,
    pub content_at: usize,
}

mod linked {
    use super::{
        Answer, Block, Gateway, Head, LentAnswer, Message, Number, Reading, Reason, Writing,
    };

    #[link(name = "c_face", kind = "static")]
    extern "C" {
        pub fn hrislanoth_block_of(number: u64) -> Block;
        pub fn hrislanoth_number_of(block: Block) -> Number;
        pub fn hrislanoth_compare(first: Block, second: Block) -> Number;
        pub fn hrislanoth_read(bytes: *const u8, length: usize) -> Reading;
        pub fn hrislanoth_write(
            message: Message,
            content: *const u8,
            content_length: usize,
            out: *mut u8,
            room: usize,
        ) -> Writing;
        pub fn hrislanoth_start(ports: u8, automatic: u64) -> Answer;
        pub fn hrislanoth_receive(
            gateway: Gateway,
            port: u8,
            bytes: *const u8,
            length: usize,
        ) -> Answer;
        pub fn hrislanoth_receive_lent(
            head: Head,
            nodes: *mut u64,
            nodes_length: usize,
            starts: *mut u64,
            starts_length: usize,
            ports: *mut u8,
            ports_length: usize,
            sizes: *mut u8,
            sizes_length: usize,
            order: *mut u8,
            order_length: usize,
            sets: *mut u64,
            sets_length: usize,
            port: u8,
            bytes: *const u8,
            length: usize,
        ) -> LentAnswer;
        pub fn hrislanoth_why(
            head: Head,
            nodes: *const u64,
            nodes_length: usize,
            starts: *const u64,
            starts_length: usize,
            ports: *const u8,
            ports_length: usize,
            sizes: *const u8,
            sizes_length: usize,
            order: *const u8,
            order_length: usize,
            sets: *const u64,
            sets_length: usize,
            port: u8,
            asked: u8,
            bytes: *const u8,
            length: usize,
        ) -> Reason;
        pub fn hrislanoth_trial_text(
            file: *const u8,
            length: usize,
            text: *mut u8,
            room: usize,
        ) -> usize;
        pub fn hrislanoth_board_text(
            file: *const u8,
            length: usize,
            skip: usize,
            text: *mut u8,
            room: usize,
        ) -> usize;
    }
}

pub fn block_of(number: u64) -> Block {
    unsafe { linked::hrislanoth_block_of(number) }
}

pub fn number_of(block: Block) -> Number {
    unsafe { linked::hrislanoth_number_of(block) }
}

pub fn compare(first: Block, second: Block) -> Number {
    unsafe { linked::hrislanoth_compare(first, second) }
}

pub fn read(bytes: &[u8]) -> Reading {
    unsafe { linked::hrislanoth_read(bytes.as_ptr(), bytes.len()) }
}

pub fn write(message: Message, content: &[u8], out: &mut [u8]) -> Writing {
    unsafe {
        linked::hrislanoth_write(
            message,
            content.as_ptr(),
            content.len(),
            out.as_mut_ptr(),
            out.len(),
        )
    }
}

pub fn start(ports: u8, automatic: u64) -> Answer {
    unsafe { linked::hrislanoth_start(ports, automatic) }
}

/// By value: the state goes in and comes out.
#[inline]
pub fn receive(gateway: &Gateway, port: u8, bytes: &[u8]) -> Answer {
    unsafe { linked::hrislanoth_receive(*gateway, port, bytes.as_ptr(), bytes.len()) }
}

/// In place: the refusal or 0, and the ports it is sent to.
#[inline]
pub fn receive_lent(gateway: &mut Gateway, port: u8, bytes: &[u8]) -> (u8, u8) {
    let answer = receive_lists(gateway.head, gateway.lists(), port, bytes);
    gateway.head.marks = answer.marks;
    gateway.head.count = answer.count;
    (answer.refusal, answer.sent)
}

/// In place, on lists of any length.
#[inline]
pub fn receive_lists(head: Head, lists: Lists, port: u8, bytes: &[u8]) -> LentAnswer {
    unsafe {
        linked::hrislanoth_receive_lent(
            head,
            lists.nodes.as_mut_ptr(),
            lists.nodes.len(),
            lists.starts.as_mut_ptr(),
            lists.starts.len(),
            lists.ports.as_mut_ptr(),
            lists.ports.len(),
            lists.sizes.as_mut_ptr(),
            lists.sizes.len(),
            lists.order.as_mut_ptr(),
            lists.order.len(),
            lists.sets.as_mut_ptr(),
            lists.sets.len(),
            port,
            bytes.as_ptr(),
            bytes.len(),
        )
    }
}

/// Why a report goes to the asked port or not. The call only reads the lists; they are lent for writing so that a write would show.
pub fn why(head: Head, lists: Lists, port: u8, asked: u8, bytes: &[u8]) -> Reason {
    unsafe {
        linked::hrislanoth_why(
            head,
            lists.nodes.as_mut_ptr(),
            lists.nodes.len(),
            lists.starts.as_mut_ptr(),
            lists.starts.len(),
            lists.ports.as_mut_ptr(),
            lists.ports.len(),
            lists.sizes.as_mut_ptr(),
            lists.sizes.len(),
            lists.order.as_mut_ptr(),
            lists.order.len(),
            lists.sets.as_mut_ptr(),
            lists.sets.len(),
            port,
            asked,
            bytes.as_ptr(),
            bytes.len(),
        )
    }
}

pub fn trial_text(file: &[u8], text: &mut [u8]) -> usize {
    unsafe {
        linked::hrislanoth_trial_text(file.as_ptr(), file.len(), text.as_mut_ptr(), text.len())
    }
}

pub fn board_text(file: &[u8], skip: usize, text: &mut [u8]) -> usize {
    unsafe {
        linked::hrislanoth_board_text(
            file.as_ptr(),
            file.len(),
            skip,
            text.as_mut_ptr(),
            text.len(),
        )
    }
}
