//! A message and the answer of a call that writes: the layouts of `include/hrislanoth.h`.

use crate::message;

/// The fields; any mark but 0 says that its field is there, and the number of one that is not means nothing.
#[repr(C)]
#[derive(Clone, Copy, Debug, PartialEq, Eq)]
pub struct Message {
    pub mti: u16,
    pub source: u64,
    pub has_destination: u8,
    pub destination: u64,
    pub has_event: u8,
    pub event: u64,
}

impl Message {
    /// The fields as the reference has them.
    pub fn fields(&self) -> message::Message {
        message::Message {
            mti: self.mti,
            source: self.source,
            destination: (self.has_destination != 0).then_some(self.destination),
            event: (self.has_event != 0).then_some(self.event),
        }
    }
}

#[repr(C)]
#[derive(Clone, Copy, Debug, PartialEq, Eq)]
pub struct Writing {
    pub refusal: u8,
    pub bytes: usize,
}
