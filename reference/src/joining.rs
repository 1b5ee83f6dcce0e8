//! Frames of a CAN leg, joined to event reports (02, W3; 001 section 7).

use crate::aliases::Aliases;
use crate::can::{part_of, Frame, Part};
use crate::refusal;

/// The most senders that can be unfinished at once (02, W3, "two senders at once"; 001 section 7).
pub const MOST_SENDERS: usize = 2;
/// The most bytes of a payload (02, W3, 18; 01-scope, Messages).
pub const MOST_PAYLOAD: usize = 256;

/// A report as far as its frames have come: its sender, its event and the payload so far.
#[derive(Clone, Debug, PartialEq, Eq)]
pub struct Gathered {
    pub sender: u64,
    pub event: u64,
    pub payload: Vec<u8>,
}

/// What comes of a frame: the refusal or 0, and the report that is handed out, if one is, with its MTI.
#[derive(Clone, Debug, PartialEq, Eq)]
pub struct Joined {
    pub refusal: u8,
    pub report: Option<(u16, Gathered)>,
}

/// The joining state: what senders have begun and not finished, the one that began last standing last.
#[derive(Clone, Debug, Default, PartialEq, Eq)]
pub struct Joining {
    pub unfinished: Vec<Gathered>,
}

impl Joining {
    /// Whether it may stand; refusal 7 is for one that may not (02, W3, "a joining state with a sender twice or over 256 bytes is 7").
    pub fn in_bounds(&self) -> bool {
        let all = &self.unfinished;
        let twice = |place: usize| {
            let sender = all[place].sender;
            all[..place].iter().any(|before| before.sender == sender)
        };
        all.len() <= MOST_SENDERS
            && all.iter().all(|one| one.payload.len() <= MOST_PAYLOAD)
            && !(0..all.len()).any(twice)
    }

    /// Where what a sender has begun stands.
    pub fn place_of(&self, sender: u64) -> Option<usize> {
        self.unfinished.iter().position(|one| one.sender == sender)
    }

    /// Joins a frame: 7, 29, 16, 19, 17, 20, 18. Only 18 changes the state (02, W3).
    pub fn join(&mut self, aliases: &Aliases, frame: &Frame) -> Joined {
        match self.joined(aliases, frame) {
            Ok(report) => Joined {
                refusal: refusal::NONE,
                report,
            },
            Err(refusal) => Joined {
                refusal,
                report: None,
            },
        }
    }

    fn joined(&mut self, aliases: &Aliases, frame: &Frame) -> Result<Option<(u16, Gathered)>, u8> {
        if !aliases.in_bounds() || !self.in_bounds() {
            return Err(refusal::BOUNDS);
        }
        let (part, alias) = part_of(frame.header).ok_or(refusal::NOT_FOR_CAN)?;
        let sender = aliases.node_of(alias).ok_or(refusal::NOT_LISTED)?;
        if !part.allows(frame.length) {
            return Err(refusal::FRAME_LENGTH);
        }
        let data = &frame.bytes[..usize::from(frame.length)];
        match part {
            Part::Whole => Ok(Some((0x05B4, begun(sender, frame)))),
            Part::First => {
                self.begin(begun(sender, frame))?;
                Ok(None)
            }
            Part::Middle => {
                self.go_on(sender, data)?;
                Ok(None)
            }
            Part::Last => {
                let place = self.go_on(sender, data)?;
                Ok(Some((0x0F14, self.unfinished.remove(place))))
            }
        }
    }

    /// A start: it drops that sender's unfinished message, and stands last (02, W3, "A new 0F16 from a sender drops that sender's unfinished message"; 20).
    fn begin(&mut self, new: Gathered) -> Result<(), u8> {
        match self.place_of(new.sender) {
            Some(place) => {
                self.unfinished.remove(place);
            }
            None if self.unfinished.len() == MOST_SENDERS => return Err(refusal::THIRD_SENDER),
            None => {}
        }
        self.unfinished.push(new);
        Ok(())
    }

    /// Adds to what a sender has begun, and says where it stands; what would pass 256 bytes is dropped (02, W3, 17 and 18).
    fn go_on(&mut self, sender: u64, data: &[u8]) -> Result<usize, u8> {
        let place = self.place_of(sender).ok_or(refusal::NOT_BEGUN)?;
        let payload = &mut self.unfinished[place].payload;
        if payload.len() + data.len() > MOST_PAYLOAD {
            self.unfinished.remove(place);
            return Err(refusal::PAYLOAD);
        }
        payload.extend(data);
        Ok(place)
    }
}

/// What a frame with an Event ID begins, or all there is of a report without payload.
fn begun(sender: u64, frame: &Frame) -> Gathered {
    Gathered {
        sender,
        event: u64::from_be_bytes(frame.bytes),
        payload: Vec::new(),
    }
}

#[cfg(test)]
mod tests;
