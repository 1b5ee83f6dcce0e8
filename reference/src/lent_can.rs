//! The CAN side as its caller lends it: the layouts of `include/hrislanoth.h`.

use std::fmt::{self, Debug, Formatter};

use crate::can;
use crate::joining;
use crate::rest::hexadecimal;

/// The bytes that a payload has room for.
pub const PAYLOAD: usize = 256;

#[repr(C)]
#[derive(Clone, Copy, Debug, PartialEq, Eq)]
pub struct Frame {
    pub header: u32,
    pub length: u8,
    pub bytes: [u8; 8],
}

impl Frame {
    /// A frame of the reference.
    pub fn of(frame: &can::Frame) -> Frame {
        let can::Frame {
            header,
            length,
            bytes,
        } = *frame;
        Frame {
            header,
            length,
            bytes,
        }
    }

    /// The frame as the reference has it.
    pub fn frame(&self) -> can::Frame {
        can::Frame {
            header: self.header,
            length: self.length,
            bytes: self.bytes,
        }
    }
}

/// The bytes of the payload past the length are no part of it; in an answer without payload they are 0.
#[repr(C)]
#[derive(Clone, Copy, PartialEq, Eq)]
pub struct Gathered {
    pub sender: u64,
    pub event: u64,
    pub length: usize,
    pub payload: [u8; PAYLOAD],
}

impl Gathered {
    /// All zero.
    pub const NONE: Gathered = Gathered {
        sender: 0,
        event: 0,
        length: 0,
        payload: [0; PAYLOAD],
    };

    /// As the reference has it; a length above 256 is a byte too many.
    pub fn gathered(&self) -> joining::Gathered {
        let mut payload = self.payload[..self.length.min(PAYLOAD)].to_vec();
        if self.length > PAYLOAD {
            payload.push(0);
        }
        joining::Gathered {
            sender: self.sender,
            event: self.event,
            payload,
        }
    }

    /// Puts what the reference has here; the bytes past its payload, which fits, stay.
    pub fn set(&mut self, gathered: &joining::Gathered) {
        self.sender = gathered.sender;
        self.event = gathered.event;
        self.length = gathered.payload.len();
        self.payload[..self.length].copy_from_slice(&gathered.payload);
    }
}

/// Every byte is shown, those past the length too.
impl Debug for Gathered {
    fn fmt(&self, out: &mut Formatter) -> fmt::Result {
        let Gathered {
            sender,
            event,
            length,
            payload,
        } = self;
        let payload = hexadecimal(payload);
        write!(out, "{sender:X} {event:016X} {length} {payload}")
    }
}

/// The places past the count are no part of it.
#[repr(C)]
#[derive(Clone, Copy, Debug, PartialEq, Eq)]
pub struct Joining {
    pub count: usize,
    pub first: Gathered,
    pub second: Gathered,
}

impl Joining {
    /// Nobody has begun anything.
    pub const EMPTY: Joining = Joining {
        count: 0,
        first: Gathered::NONE,
        second: Gathered::NONE,
    };

    /// The places up to the count, which may say more than there are.
    pub fn places(&self) -> Vec<&Gathered> {
        [&self.first, &self.second]
            .into_iter()
            .take(self.count)
            .collect()
    }

    /// As the reference has it; a count above 2 is a sender too many.
    pub fn joining(&self) -> joining::Joining {
        let mut unfinished: Vec<_> = self.places().iter().map(|one| one.gathered()).collect();
        if self.count > joining::MOST_SENDERS {
            unfinished.push(self.first.gathered());
        }
        joining::Joining { unfinished }
    }

    /// Puts what the reference has, which fits, into the first places; the rest stays.
    pub fn set(&mut self, state: &joining::Joining) {
        self.count = state.unfinished.len();
        let places = [&mut self.first, &mut self.second];
        for (place, gathered) in places.into_iter().zip(&state.unfinished) {
            place.set(gathered);
        }
    }
}

#[repr(C)]
#[derive(Clone, Copy, Debug, PartialEq, Eq)]
pub struct Joined {
    pub refusal: u8,
    pub mti: u16,
    pub message: Gathered,
    pub state: Joining,
}

/// The lists of aliases and nodes, lent for one call. The calls only read them; they are lent for writing so that a write would show.
pub struct Lists<'a> {
    pub aliases: &'a mut [u64],
    pub nodes: &'a mut [u64],
}

#[cfg(test)]
mod tests {
    use super::*;

    /// The layouts have the sizes that C gives them.
    #[test]
    fn sizes() {
        assert_eq!(size_of::<Frame>(), 16);
        assert_eq!(size_of::<Gathered>(), 280);
        assert_eq!(size_of::<Joining>(), 568);
        assert_eq!(size_of::<Joined>(), 856);
    }

    /// There and back; what stands past the count and the lengths stays, and means nothing.
    #[test]
    fn there_and_back() {
        let mut lent = Joining::EMPTY;
        lent.second.payload = [9; PAYLOAD];
        let gathered = |sender, length| joining::Gathered {
            sender,
            event: 5,
            payload: vec![7; length],
        };
        for lengths in [vec![], vec![0], vec![256], vec![3, 0], vec![256, 255]] {
            let unfinished = lengths.iter().map(|length| gathered(1, *length)).collect();
            let state = joining::Joining { unfinished };
            lent.set(&state);
            assert_eq!((lent.joining(), lent.count), (state, lengths.len()));
        }
        assert_eq!((lent.second.payload[254], lent.second.payload[255]), (7, 9));
        lent.count = usize::MAX;
        assert!(!lent.joining().in_bounds());
        (lent.count, lent.first.length) = (1, usize::MAX);
        assert!(!lent.joining().in_bounds());
    }
}
