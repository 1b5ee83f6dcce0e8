//! Frame files (FRAME-FILES; the steps are joins and splits of 02, W3).

use crate::aliases::Aliases;
use crate::can::{self, Frame, FRAME_BYTES};
use crate::joining::{Gathered, Joining};
use crate::message::{self, Message};
use crate::refusal;
use crate::rest::{hexadecimal, or_dash, Rest};

/// The most bytes of a file (FRAME-FILES).
pub const MOST_BYTES: usize = 65_536;
/// The most steps of a file (FRAME-FILES).
pub const MOST_STEPS: u64 = 1_000;
/// The most content of a message to split (FRAME-FILES).
pub const MOST_CONTENT: u64 = 300;
/// The most room that a split is lent (FRAME-FILES).
pub const MOST_ROOM: u64 = 512;
/// What a file prints that cannot be taken (FRAME-FILES).
pub const BAD_FILE: &[u8] = b"bad file\n";

/// A step of a file (FRAME-FILES, the second table).
#[derive(Clone, Debug, PartialEq, Eq)]
pub enum Step {
    Join(Frame),
    Split {
        message: Message,
        content: Vec<u8>,
        room: usize,
    },
}

/// The text of a frame file (FRAME-FILES).
pub fn frame_text(file: &[u8]) -> Vec<u8> {
    let Some((aliases, steps)) = parts_of(file) else {
        return BAD_FILE.to_vec();
    };
    let mut joining = Joining::default();
    let mut text = String::new();
    for (place, step) in steps.iter().enumerate() {
        let (refusal, bytes) = take(&aliases, &mut joining, step);
        text.push_str(&line_of(place, refusal, &bytes, joining.unfinished.len()));
    }
    text.into_bytes()
}

/// The list of aliases and the steps of a file, or nothing for a bad file (FRAME-FILES).
pub fn parts_of(file: &[u8]) -> Option<(Aliases, Vec<Step>)> {
    if file.len() > MOST_BYTES {
        return None;
    }
    let mut rest = Rest(file);
    let mut aliases = Aliases::default();
    for _ in 0..rest.number(1)? {
        aliases.aliases.push(rest.number(2)?);
        aliases.nodes.push(rest.number(8)?);
    }
    let mut steps = Vec::new();
    for _ in 0..rest.at_most(2, MOST_STEPS)? {
        steps.push(step_of(&mut rest)?);
    }
    rest.0.is_empty().then_some((aliases, steps))
}

/// One step, nothing where it is another step or cut short (FRAME-FILES, the second table).
fn step_of(rest: &mut Rest) -> Option<Step> {
    match rest.number(1)? {
        1 => {
            let written = rest.bytes(FRAME_BYTES)?.try_into().ok()?;
            Some(Step::Join(Frame::read(written)))
        }
        2 => {
            let message = Message {
                mti: rest.number(2)? as u16,
                source: rest.number(8)?,
                destination: marked(rest)?,
                event: marked(rest)?,
            };
            let length = rest.at_most(2, MOST_CONTENT)? as usize;
            let content = rest.bytes(length)?.to_vec();
            let room = rest.at_most(2, MOST_ROOM)? as usize;
            Some(Step::Split {
                message,
                content,
                room,
            })
        }
        _ => None,
    }
}

/// A mark and a field, whose eight bytes stand there either way (FRAME-FILES, "A mark is 1 where its field is present").
fn marked(rest: &mut Rest) -> Option<Option<u64>> {
    let present = rest.at_most(1, 1)? == 1;
    let field = rest.number(8)?;
    Some(present.then_some(field))
}

/// Takes a step: the refusal or 0, and the bytes that come of it (FRAME-FILES, "What is printed", 3).
fn take(aliases: &Aliases, joining: &mut Joining, step: &Step) -> (u8, Vec<u8>) {
    match step {
        Step::Join(frame) => {
            let joined = joining.join(aliases, frame);
            let bytes = joined.report.map(|(mti, report)| message_of(mti, &report));
            (joined.refusal, bytes.unwrap_or_default())
        }
        Step::Split {
            message,
            content,
            room,
        } => match can::split(aliases, message, content, *room) {
            Ok(frames) => (refusal::NONE, written_out(&frames)),
            Err(refusal) => (refusal, Vec::new()),
        },
    }
}

/// The bytes of frames, one after the other (02, W3).
pub fn written_out(frames: &[Frame]) -> Vec<u8> {
    frames.iter().flat_map(Frame::written).collect()
}

/// A report that is handed out, as it is written on any other leg (FRAME-FILES; 01-scope, Messages).
fn message_of(mti: u16, report: &Gathered) -> Vec<u8> {
    let message = Message {
        mti,
        source: report.sender,
        destination: None,
        event: Some(report.event),
    };
    message::write(&message, &report.payload, usize::MAX)
        .expect("what is handed out can be written")
}

/// The line of one step, four fields (FRAME-FILES, "What is printed").
pub fn line_of(place: usize, refusal: u8, bytes: &[u8], unfinished: usize) -> String {
    let bytes = or_dash(hexadecimal(bytes));
    format!("{place} {refusal} {bytes} {unfinished}\n")
}

#[cfg(test)]
mod tests {
    use super::*;

    const A: u64 = 0x0A0000000001;
    const B: u64 = 0x0A0000000002;
    const EVENT: u64 = 0x0A00000000010001;

    fn file(pairs: &[(u16, u64)], steps: &[Vec<u8>]) -> Vec<u8> {
        let mut file = vec![pairs.len() as u8];
        for (alias, node) in pairs {
            file.extend(alias.to_be_bytes());
            file.extend(node.to_be_bytes());
        }
        file.extend((steps.len() as u16).to_be_bytes());
        file.extend(steps.concat());
        file
    }

    fn join(header: u32, length: u8, bytes: [u8; 8]) -> Vec<u8> {
        [&[1][..], &header.to_be_bytes(), &[length], &bytes].concat()
    }

    fn split(mti: u16, source: u64, content: &[u8], room: u16) -> Vec<u8> {
        let mut step = vec![2];
        step.extend(mti.to_be_bytes());
        step.extend(source.to_be_bytes());
        step.push(0);
        step.extend([0x77; 8]);
        step.push(1);
        step.extend(EVENT.to_be_bytes());
        step.extend((content.len() as u16).to_be_bytes());
        step.extend(content);
        step.extend(room.to_be_bytes());
        step
    }

    fn text(file: &[u8]) -> String {
        String::from_utf8(frame_text(file)).unwrap()
    }

    const LIST: [(u16, u64); 2] = [(0x7AB, B), (2, A)];

    /// FRAME-FILES, all parts: both steps, and each field of a line.
    #[test]
    fn every_step() {
        let event = EVENT.to_be_bytes();
        let steps = [
            split(0x05B4, A, &[], 13),
            split(0x0F14, B, &[1, 2, 3], 26),
            split(0x0F14, B, &[1, 2, 3], 25),
            join(0x19F16002, 8, event),
            join(0x195B47AB, 8, event),
            join(0x19F167AB, 8, event),
            join(0x19F15002, 8, [1, 2, 3, 4, 5, 6, 7, 8]),
            join(0x19F14002, 1, [9; 8]),
            join(0x19F14002, 1, [9; 8]),
            split(0x0970, A, &[], 512),
        ];
        let expected = "\
0 0 195B4002080A00000000010001 0
1 0 19F167AB080A0000000001000119F147AB030102030000000000 0
2 6 - 0
3 0 - 1
4 0 05B40A00000000020A00000000010001 1
5 0 - 2
6 0 - 2
7 0 0F140A00000000010A00000000010001010203040506070809 1
8 17 - 1
9 4 - 1
";
        assert_eq!(text(&file(&LIST, &steps)), expected);
    }

    /// FRAME-FILES: no steps print nothing; a list that is out of bounds refuses every step with 7, up to 255 pairs.
    #[test]
    fn lists() {
        let steps = [join(0, 0, [0; 8]), split(0xFFFF, 0, &[], 0)];
        assert_eq!(text(&file(&[], &[])), "");
        assert_eq!(text(&file(&[], &steps)), "0 29 - 0\n1 2 - 0\n");
        let pairs: Vec<(u16, u64)> = (0..255)
            .map(|place| (place, 1 + u64::from(place)))
            .collect();
        assert_eq!(text(&file(&pairs[..128], &steps)), "0 29 - 0\n1 2 - 0\n");
        for bad in [
            &pairs[..129],
            &pairs,
            &[(0x1000, A)],
            &[(1, 0)],
            &[(1, A), (1, B)],
            &[(1, A), (2, A)],
        ] {
            assert_eq!(text(&file(bad, &steps)), "0 7 - 0\n1 7 - 0\n");
        }
    }

    /// FRAME-FILES: a destination that is present, and an Event ID that is not.
    #[test]
    fn marks() {
        let mut addressed = split(0x05B4, A, &[], 13);
        addressed[11] = 1;
        assert_eq!(text(&file(&LIST, &[addressed])), "0 3 - 0\n");
        let mut without = split(0x05B4, A, &[], 13);
        without[20] = 0;
        assert_eq!(text(&file(&LIST, &[without])), "0 4 - 0\n");
        for mark in [11, 20] {
            let mut step = split(0x05B4, A, &[], 13);
            step[mark] = 2;
            assert_eq!(text(&file(&LIST, &[step])), "bad file\n");
        }
    }

    /// FRAME-FILES, "Any other file prints `bad file` only": cut short, bytes left over, another step.
    #[test]
    fn bad_files() {
        let steps = [split(0x0F14, A, &[1, 2], 26), join(0x195B4002, 8, [0; 8])];
        let whole = file(&LIST, &steps);
        assert_eq!(text(&whole).lines().count(), 2);
        for length in 0..whole.len() {
            assert_eq!(text(&whole[..length]), "bad file\n", "{length}");
        }
        let longer = [&whole[..], &[0]].concat();
        assert_eq!(text(&longer), "bad file\n");
        for other in [0, 3, b'1', 255] {
            let mut step = join(0x195B4002, 8, [0; 8]);
            step[0] = other;
            assert_eq!(text(&file(&LIST, &[step])), "bad file\n");
        }
    }

    /// FRAME-FILES: 1,000 steps, 300 bytes of content and a room of 512, both sides.
    #[test]
    fn limits() {
        let plain = join(0x195B4002, 8, [0; 8]);
        assert_eq!(
            text(&file(&LIST, &vec![plain.clone(); 1_000]))
                .lines()
                .count(),
            1_000
        );
        assert_eq!(text(&file(&LIST, &vec![plain; 1_001])), "bad file\n");
        let with = |content: usize, room| {
            let step = split(0x0F14, A, &vec![7; content], room);
            text(&file(&LIST, &[step]))
        };
        assert_eq!(with(300, 512), "0 4 - 0\n");
        assert_eq!(with(301, 512), "bad file\n");
        assert!(with(256, 512).starts_with("0 0 19F16002"));
        assert_eq!(with(256, 428), "0 6 - 0\n");
        assert_eq!(with(256, 513), "bad file\n");
    }

    /// FRAME-FILES: 65,536 bytes, both sides; the longest line has 867 bytes.
    #[test]
    fn longest_file() {
        let mut steps = vec![split(0x0F14, A, &[7; 256], 429); 226];
        let left = 65_536 - file(&LIST, &steps).len() - 33;
        steps.push(split(0x0F14, A, &vec![7; left], 0));
        let longest = file(&LIST, &steps);
        assert_eq!(longest.len(), 65_536);
        assert_eq!(text(&longest).lines().map(str::len).max(), Some(866));
        steps[226] = split(0x0F14, A, &vec![7; left + 1], 0);
        assert_eq!(text(&file(&LIST, &steps)), "bad file\n");
    }
}
