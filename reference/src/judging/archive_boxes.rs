//! The calls of a box in the archive, and its comparing of blocks.

use crate::proved::{self, Answer, Block, Gateway, Head, LentAnswer, Lists, Number, Reason};

use super::archive_boards::Archive;
use super::boxes::Calls;
use super::pairs::Compares;

impl Calls for Archive {
    fn start(&self, ports: u8, automatic: u64) -> Answer {
        proved::start(ports, automatic)
    }

    fn receive(&self, gateway: &Gateway, port: u8, bytes: &[u8]) -> Answer {
        proved::receive(gateway, port, bytes)
    }

    fn receive_lists(&self, head: Head, lists: Lists, port: u8, bytes: &[u8]) -> LentAnswer {
        proved::receive_lists(head, lists, port, bytes)
    }

    fn why(&self, head: Head, lists: Lists, port: u8, asked: u8, bytes: &[u8]) -> Reason {
        proved::why(head, lists, port, asked, bytes)
    }
}

impl Compares for Archive {
    fn compare(&self, first: Block, second: Block) -> Number {
        proved::compare(first, second)
    }
}
