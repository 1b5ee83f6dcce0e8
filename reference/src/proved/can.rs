//! The calls of the CAN side.

use super::{Message, Writing};
use crate::lent_can::{Frame, Joined, Joining, Lists};

mod linked {
    use super::{Frame, Joined, Joining, Message, Writing};

    #[link(name = "c_face", kind = "static")]
    extern "C" {
        pub fn hrislanoth_join(
            aliases: *const u64,
            alias_count: usize,
            nodes: *const u64,
            node_count: usize,
            state: Joining,
            frame: Frame,
        ) -> Joined;
        pub fn hrislanoth_split(
            aliases: *const u64,
            alias_count: usize,
            nodes: *const u64,
            node_count: usize,
            message: Message,
            content: *const u8,
            content_length: usize,
            out: *mut u8,
            room: usize,
        ) -> Writing;
        pub fn hrislanoth_frame_text(
            file: *const u8,
            length: usize,
            skip: usize,
            text: *mut u8,
            room: usize,
        ) -> usize;
    }
}

/// Joins a frame; the state goes in and comes out.
#[inline]
pub fn join(lists: Lists, state: &Joining, frame: Frame) -> Joined {
    unsafe {
        linked::hrislanoth_join(
            lists.aliases.as_mut_ptr(),
            lists.aliases.len(),
            lists.nodes.as_mut_ptr(),
            lists.nodes.len(),
            *state,
            frame,
        )
    }
}

/// Splits a message into frames.
#[inline]
pub fn split(lists: Lists, message: Message, content: &[u8], out: &mut [u8]) -> Writing {
    unsafe {
        linked::hrislanoth_split(
            lists.aliases.as_mut_ptr(),
            lists.aliases.len(),
            lists.nodes.as_mut_ptr(),
            lists.nodes.len(),
            message,
            content.as_ptr(),
            content.len(),
            out.as_mut_ptr(),
            out.len(),
        )
    }
}

pub fn frame_text(file: &[u8], skip: usize, text: &mut [u8]) -> usize {
    unsafe {
        linked::hrislanoth_frame_text(
            file.as_ptr(),
            file.len(),
            skip,
            text.as_mut_ptr(),
            text.len(),
        )
    }
}
