//! The calls of the CAN side in the archive.

use crate::lent_can::{Frame, Joined, Joining, Lists};
use crate::lent_message::{Message, Writing};
use crate::proved::can;

use super::archive_boards::Archive;
use super::can_calls::CanSide;

impl CanSide for Archive {
    fn join(&self, lists: Lists, state: &Joining, frame: Frame) -> Joined {
        can::join(lists, state, frame)
    }

    fn split(&self, lists: Lists, message: Message, content: &[u8], out: &mut [u8]) -> Writing {
        can::split(lists, message, content, out)
    }

    fn frame_text(&self, file: &[u8], skip: usize, text: &mut [u8]) -> usize {
        can::frame_text(file, skip, text)
    }
}
