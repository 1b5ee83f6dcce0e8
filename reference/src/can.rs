//! Frames of a CAN leg, and event reports split into them (02, W3; 001 section 7).

use crate::aliases::Aliases;
use crate::message::{self, Kind, Message};
use crate::refusal;

/// The bytes of a frame that is written out: header 4, length 1, data 8 (02, W3, "written out, 4, 1 and 8 bytes").
pub const FRAME_BYTES: usize = 13;
/// The data bytes of a frame (02, W3).
pub const DATA_BYTES: usize = 8;
/// What a header is made from: the CAN prefix and frame type 1 (02, W3, "19000000 hex plus"; 003 section 7.3.1.3).
const FIRST_HEADER: u32 = 0x1900_0000;

/// A frame as it comes in or goes out; the data bytes past the length mean nothing (02, W3).
#[derive(Clone, Copy, Debug, PartialEq, Eq)]
pub struct Frame {
    pub header: u32,
    pub length: u8,
    pub bytes: [u8; DATA_BYTES],
}

/// What a frame is of an event report (001 section 7).
#[derive(Clone, Copy, Debug, PartialEq, Eq)]
pub enum Part {
    /// 05B4: the whole of a report without payload.
    Whole,
    /// 0F16: the Event ID of one with payload.
    First,
    /// 0F15: eight bytes of the payload.
    Middle,
    /// 0F14: the last one to eight.
    Last,
}

impl Part {
    /// All of them.
    pub const ALL: [Part; 4] = [Part::Whole, Part::First, Part::Middle, Part::Last];

    /// Its 12-bit MTI (001 section 7).
    pub fn mti(self) -> u32 {
        match self {
            Part::Whole => 0x5B4,
            Part::First => 0xF16,
            Part::Middle => 0xF15,
            Part::Last => 0xF14,
        }
    }

    /// Whether a frame of it may have that length (02, W3, "exactly eight bytes", "one to eight").
    pub fn allows(self, length: u8) -> bool {
        match self {
            Part::Whole | Part::First | Part::Middle => length == 8,
            Part::Last => (1..=8).contains(&length),
        }
    }
}

/// The header of a part from a sender with that alias, which has 12 bits (02, W3, "19000000 hex plus the 12-bit MTI times 1000 hex plus the 12-bit alias").
pub fn header_of(part: Part, alias: u64) -> u32 {
    FIRST_HEADER + part.mti() * 0x1000 + alias as u32
}

/// The part and the alias of a header; nothing for any other header, as with one of the bits above the 29th (02, W3, refusal 29).
pub fn part_of(header: u32) -> Option<(Part, u64)> {
    for part in Part::ALL {
        let first = header_of(part, 0);
        if (first..=first + 0xFFF).contains(&header) {
            return Some((part, u64::from(header - first)));
        }
    }
    None
}

impl Frame {
    /// A frame with these data bytes, the unused ones zero (02, W3, "unused ones zero").
    pub fn of(part: Part, alias: u64, data: &[u8]) -> Frame {
        let mut bytes = [0; DATA_BYTES];
        bytes[..data.len()].copy_from_slice(data);
        Frame {
            header: header_of(part, alias),
            length: data.len() as u8,
            bytes,
        }
    }

    /// The frame written out, high byte first (02, W3).
    pub fn written(&self) -> Vec<u8> {
        let mut written = self.header.to_be_bytes().to_vec();
        written.push(self.length);
        written.extend(self.bytes);
        written
    }

    /// The frame that was written out to these bytes.
    pub fn read(written: &[u8; FRAME_BYTES]) -> Frame {
        let [a, b, c, d, length, bytes @ ..] = *written;
        Frame {
            header: u32::from_be_bytes([a, b, c, d]),
            length,
            bytes,
        }
    }
}

/// The frames of a report from a sender with that alias: one without payload, else the Event ID, eight bytes each while more than eight are left, and the
/// last one to eight (02, W3; 001 section 7).
pub fn frames_of(alias: u64, event: u64, payload: &[u8]) -> Vec<Frame> {
    if payload.is_empty() {
        return vec![Frame::of(Part::Whole, alias, &event.to_be_bytes())];
    }
    let mut frames = vec![Frame::of(Part::First, alias, &event.to_be_bytes())];
    let mut left = payload;
    while left.len() > DATA_BYTES {
        let (eight, rest) = left.split_at(DATA_BYTES);
        frames.push(Frame::of(Part::Middle, alias, eight));
        left = rest;
    }
    frames.push(Frame::of(Part::Last, alias, left));
    frames
}

/// Splits a message into frames for an output of `room` bytes: 7, the writing refusals 2 to 5, 29, 16, 6 (02, W3).
pub fn split(
    aliases: &Aliases,
    message: &Message,
    content: &[u8],
    room: usize,
) -> Result<Vec<Frame>, u8> {
    if !aliases.in_bounds() {
        return Err(refusal::BOUNDS);
    }
    message::write(message, content, usize::MAX)?;
    let (Kind::EventReport | Kind::EventReportWithPayload) = message::kind_of(message.mti)? else {
        return Err(refusal::NOT_FOR_CAN);
    };
    let event = message.event.expect("a report that can be written has one");
    let alias = aliases
        .alias_of(message.source)
        .ok_or(refusal::NOT_LISTED)?;
    let frames = frames_of(alias, event, content);
    if FRAME_BYTES * frames.len() > room {
        return Err(refusal::ROOM);
    }
    Ok(frames)
}

#[cfg(test)]
mod tests {
    use super::*;

    const NODE: u64 = 0x0A0000000001;
    const EVENT: u64 = 0x0A00000000010001;

    fn list() -> Aliases {
        Aliases::of(&[(0xABC, NODE + 1), (0x123, NODE)])
    }

    fn report(payload: usize) -> Message {
        Message {
            mti: if payload == 0 { 0x05B4 } else { 0x0F14 },
            source: NODE,
            destination: None,
            event: Some(EVENT),
        }
    }

    fn payload(length: usize) -> Vec<u8> {
        (0..length).map(|place| place as u8).collect()
    }

    fn hex(frames: &[Frame]) -> String {
        let bytes = frames.iter().flat_map(Frame::written);
        bytes.map(|byte| format!("{byte:02X}")).collect()
    }

    /// 02, W3: the header is a sum; 001 section 7: the four MTIs.
    #[test]
    fn headers() {
        assert_eq!(header_of(Part::Whole, 0x123), 0x195B4123);
        assert_eq!(header_of(Part::First, 0), 0x19F16000);
        assert_eq!(header_of(Part::Middle, 0xFFF), 0x19F15FFF);
        assert_eq!(header_of(Part::Last, 1), 0x19F14001);
        for part in Part::ALL {
            for alias in [0, 1, 0x7FF, 0x800, 0xFFF] {
                assert_eq!(part_of(header_of(part, alias)), Some((part, alias)));
            }
        }
    }

    /// 02, W3, 29: any other header, also with one bit of a good one changed but for those of the alias.
    #[test]
    fn other_headers() {
        for header in [
            0,
            0x19000000,
            0x195B3FFF,
            0x195B5000,
            0x19F13FFF,
            0x19F17000,
            0x195B4,
            0x05B40000,
            0x19100123,
            0x195F4123,
            u32::MAX,
        ] {
            assert_eq!(part_of(header), None, "{header:08X}");
        }
        for part in Part::ALL {
            for bit in 12..32 {
                let changed = header_of(part, 0x123) ^ 1 << bit;
                let expected = match (part, bit) {
                    (Part::Last, 12) => Some((Part::Middle, 0x123)),
                    (Part::Middle, 12) => Some((Part::Last, 0x123)),
                    (Part::Last, 13) => Some((Part::First, 0x123)),
                    (Part::First, 13) => Some((Part::Last, 0x123)),
                    _ => None,
                };
                assert_eq!(part_of(changed), expected, "{changed:08X}");
            }
        }
    }

    /// 02, W3: a report without payload is one frame; with payload first, middle while more than eight are left, and last, unused bytes zero.
    #[test]
    fn frames_written_out() {
        let split = |length| split(&list(), &report(length), &payload(length), 429).unwrap();
        let event = "080A00000000010001";
        assert_eq!(hex(&split(0)), format!("195B4123{event}"));
        let begun = format!("19F16123{event}");
        let one = format!("{begun}19F14123010000000000000000");
        assert_eq!(hex(&split(1)), one);
        let eight = format!("{begun}19F14123080001020304050607");
        assert_eq!(hex(&split(8)), eight);
        let full = format!("{begun}19F15123080001020304050607");
        let nine = format!("{full}19F14123010800000000000000");
        assert_eq!(hex(&split(9)), nine);
        let sixteen = format!("{full}19F141230808090A0B0C0D0E0F");
        assert_eq!(hex(&split(16)), sixteen);
        let seventeen = format!("{full}19F151230808090A0B0C0D0E0F19F14123011000000000000000");
        assert_eq!(hex(&split(17)), seventeen);
    }

    /// 02, W3: how many frames, and the length of the last one.
    #[test]
    fn how_many_frames() {
        for (length, count, last) in [
            (0, 1, 8),
            (1, 2, 1),
            (7, 2, 7),
            (8, 2, 8),
            (9, 3, 1),
            (16, 3, 8),
            (17, 4, 1),
            (255, 33, 7),
            (256, 33, 8),
        ] {
            let frames = split(&list(), &report(length), &payload(length), 429).unwrap();
            assert_eq!(frames.len(), count);
            assert_eq!(frames[count - 1].length, last);
            assert!(frames[..count - 1].iter().all(|frame| frame.length == 8));
        }
        let refused = |length| split(&list(), &report(length), &payload(length), 1_000);
        assert_eq!(refused(257), Err(4));
        assert_eq!(split(&list(), &report(1), &[], 1_000), Err(4));
        assert_eq!(split(&list(), &report(0), &[1], 1_000), Err(4));
    }

    /// 02, W3: room for 13 bytes a frame, both sides.
    #[test]
    fn room() {
        for (length, needed) in [(0, 13), (1, 26), (8, 26), (9, 39), (255, 429), (256, 429)] {
            let split = |room| split(&list(), &report(length), &payload(length), room);
            assert!(split(needed).is_ok());
            assert_eq!(split(needed - 1), Err(6));
            assert_eq!(split(0), Err(6));
        }
    }

    /// 02, W3: each refusal of splitting where only its own reason is there.
    #[test]
    fn each_refusal() {
        let good = report(1);
        assert_eq!(split(&Aliases::of(&[(1, 0)]), &good, &[7], 99), Err(7));
        let with_mti = |mti| Message { mti, ..report(1) };
        for mti in [0x0F15, 0x0F16, 0x4F14, 0x8F14] {
            assert_eq!(split(&list(), &with_mti(mti), &[7], 99), Err(2));
        }
        for source in [0, 1 << 48] {
            let from = Message {
                source,
                ..report(1)
            };
            assert_eq!(split(&list(), &from, &[7], 99), Err(3));
        }
        let addressed = Message {
            destination: Some(NODE),
            ..report(1)
        };
        assert_eq!(split(&list(), &addressed, &[7], 99), Err(4));
        let restart = Message {
            mti: 0x0100,
            event: None,
            ..report(1)
        };
        assert_eq!(split(&list(), &restart, &[7; 6], 99), Err(5));
        for mti in [0x04C4, 0x15B4, 0x2F14, 0x0594] {
            assert_eq!(split(&list(), &with_mti(mti), &[], 99), Err(29));
        }
        let other = Message {
            source: NODE + 2,
            ..report(1)
        };
        assert_eq!(split(&list(), &other, &[7], 99), Err(16));
        assert_eq!(split(&list(), &good, &[7], 25), Err(6));
    }

    /// 02, W3: "splitting takes 7, the writing refusals 2 to 5, 29, 16, 6": of two reasons the earlier counts.
    #[test]
    fn order() {
        let bad_list = Aliases::of(&[(1, NODE), (1, NODE + 1)]);
        let fields = |mti, source, event| Message {
            mti,
            source,
            destination: None,
            event,
        };
        let split = |list, message, content, room| split(list, &message, content, room);
        let unknown = NODE + 9;
        for (list, message, content, room, refusal) in [
            (&bad_list, fields(0x0F15, NODE, Some(1)), &[][..], 0, 7),
            (&bad_list, report(1), &[7], 0, 7),
            (&list(), fields(0x0F16, 0, None), &[], 0, 2),
            (&list(), fields(0x0F14, 0, None), &[], 0, 3),
            (&list(), fields(0x0F14, unknown, None), &[], 0, 4),
            (&list(), fields(0x0100, unknown, Some(1)), &[7; 6], 0, 4),
            (&list(), fields(0x0100, unknown, None), &[7; 6], 0, 5),
            (&list(), fields(0x0970, unknown, None), &[], 0, 29),
            (&list(), fields(0x05B4, unknown, Some(1)), &[], 0, 16),
            (&list(), report(0), &[], 12, 6),
        ] {
            assert_eq!(split(list, message, content, room), Err(refusal));
        }
    }

    /// What is written out is read back.
    #[test]
    fn read_back() {
        for frame in frames_of(0xFFF, u64::MAX - 1, &payload(20)) {
            let written: [u8; FRAME_BYTES] = frame.written().try_into().unwrap();
            assert_eq!(Frame::read(&written), frame);
        }
    }
}
