//! Slips in splitting, of a stand-in for the archive's CAN side.

use crate::aliases::Aliases;
use crate::can::{self, frames_of, Frame, Part, FRAME_BYTES};
use crate::frame_file::written_out;
use crate::lent_message::Writing;
use crate::message::{self, Message};
use crate::refusal;

use super::can_lists;
use super::sort::Sort;
use super::stand_in_can::{is_found, StandIn};

/// What a call is asked, and what stood in the output before.
pub struct AskedToSplit<'a> {
    pub list: &'a Aliases,
    pub message: Message,
    pub content: &'a [u8],
    pub before: Vec<u8>,
}

/// A slip: what it makes of the right answer and of the output.
pub type Slip = fn(&AskedToSplit, &mut Writing, &mut [u8]);

impl AskedToSplit<'_> {
    /// The right answer.
    pub fn rightly(&self, out: &mut [u8]) -> Writing {
        let frames = can::split(self.list, &self.message, self.content, out.len());
        write(frames, out)
    }

    /// The answer where the message is another.
    fn with_message(&self, out: &mut [u8], change: impl FnOnce(&mut Message)) -> Writing {
        let mut message = self.message.clone();
        change(&mut message);
        write(
            can::split(self.list, &message, self.content, out.len()),
            out,
        )
    }

    /// The answer where the list is another.
    fn with_list(&self, out: &mut [u8], change: impl FnOnce(&mut Aliases)) -> Writing {
        let mut list = self.list.clone();
        change(&mut list);
        write(
            can::split(&list, &self.message, self.content, out.len()),
            out,
        )
    }

    fn alias(&self) -> u64 {
        self.list.alias_of(self.message.source).unwrap_or(0)
    }

    fn event(&self) -> u64 {
        self.message.event.unwrap_or(0)
    }
}

/// Writes frames, or answers the refusal.
fn write(frames: Result<Vec<Frame>, u8>, out: &mut [u8]) -> Writing {
    match frames {
        Ok(frames) => {
            let written = written_out(&frames);
            out[..written.len()].copy_from_slice(&written);
            Writing {
                refusal: refusal::NONE,
                bytes: written.len(),
            }
        }
        Err(refusal) => Writing { refusal, bytes: 0 },
    }
}

/// Writes these frames in place of the right ones, where there is room.
fn write_others(frames: Vec<Frame>, writing: &mut Writing, out: &mut [u8]) {
    if writing.refusal == refusal::NONE {
        let fits = FRAME_BYTES * frames.len() <= out.len();
        *writing = write(if fits { Ok(frames) } else { Err(refusal::ROOM) }, out);
    }
}

pub fn none(_: &AskedToSplit, _: &mut Writing, _: &mut [u8]) {}

fn unused_bytes_stay_as_they_were(asked: &AskedToSplit, writing: &mut Writing, out: &mut [u8]) {
    let used = match asked.content.len() % 8 {
        _ if asked.content.is_empty() => return,
        0 => 8,
        used => used,
    };
    let unused = writing.bytes.saturating_sub(8 - used)..writing.bytes;
    out[unused.clone()].copy_from_slice(&asked.before[unused]);
}

/// Frames that carry so many bytes each.
fn frames_with(asked: &AskedToSplit, each: usize) -> Vec<Frame> {
    let mut frames = frames_of(asked.alias(), asked.event(), &[1]);
    let chunks: Vec<&[u8]> = asked.content.chunks(each).collect();
    frames.pop();
    for (place, chunk) in chunks.iter().enumerate() {
        let part = if place + 1 == chunks.len() {
            Part::Last
        } else {
            Part::Middle
        };
        frames.push(Frame::of(part, asked.alias(), chunk));
    }
    frames
}

fn middle_frames_have_seven_bytes(asked: &AskedToSplit, writing: &mut Writing, out: &mut [u8]) {
    if asked.content.len() > 8 {
        write_others(frames_with(asked, 7), writing, out);
    }
}

fn eight_left_are_a_middle_frame(asked: &AskedToSplit, writing: &mut Writing, out: &mut [u8]) {
    if !asked.content.is_empty() && asked.content.len().is_multiple_of(8) {
        let mut frames = frames_with(asked, 8);
        let last = frames.len() - 1;
        frames[last].header = can::header_of(Part::Middle, asked.alias());
        frames.push(Frame::of(Part::Last, asked.alias(), &[]));
        write_others(frames, writing, out);
    }
}

fn a_single_payload_frame_is_a_middle_one(
    asked: &AskedToSplit,
    writing: &mut Writing,
    out: &mut [u8],
) {
    if (1..=8).contains(&asked.content.len()) {
        let mut frames = frames_with(asked, 8);
        frames[1].header = can::header_of(Part::Middle, asked.alias());
        write_others(frames, writing, out);
    }
}

fn a_whole_report_is_a_start(asked: &AskedToSplit, writing: &mut Writing, out: &mut [u8]) {
    if asked.content.is_empty() {
        let start = Frame::of(Part::First, asked.alias(), &asked.event().to_be_bytes());
        write_others(vec![start], writing, out);
    }
}

fn two_hundred_and_fifty_seven_are_taken(
    asked: &AskedToSplit,
    writing: &mut Writing,
    out: &mut [u8],
) {
    if asked.content.len() == 257 && writing.refusal == refusal::CONTENT {
        let shorter = can::split(
            asked.list,
            &asked.message,
            &asked.content[..256],
            usize::MAX,
        );
        if shorter.is_ok() {
            writing.refusal = refusal::NONE;
            write_others(
                frames_of(asked.alias(), asked.event(), asked.content),
                writing,
                out,
            );
        }
    }
}

fn two_hundred_and_fifty_six_are_too_many(
    asked: &AskedToSplit,
    writing: &mut Writing,
    out: &mut [u8],
) {
    if asked.content.len() == 256 && writing.refusal == refusal::NONE {
        refuse(asked, refusal::CONTENT, writing, out);
    }
}

fn an_empty_payload_is_taken(asked: &AskedToSplit, writing: &mut Writing, out: &mut [u8]) {
    if asked.content.is_empty() && asked.message.mti == 0x0F14 {
        *writing = asked.with_message(out, |message| message.mti = 0x05B4);
    }
}

fn bits_12_and_13_do_not_count(asked: &AskedToSplit, writing: &mut Writing, out: &mut [u8]) {
    if writing.refusal == refusal::NOT_FOR_CAN {
        *writing = asked.with_message(out, |message| message.mti &= 0x0FFF);
    }
}

fn every_message_with_an_event_is_a_report(
    asked: &AskedToSplit,
    writing: &mut Writing,
    out: &mut [u8],
) {
    if writing.refusal == refusal::NOT_FOR_CAN && asked.message.event.is_some() {
        *writing = asked.with_message(out, |message| message.mti = 0x05B4);
    }
}

/// Refuses in place of what was answered.
fn refuse(asked: &AskedToSplit, refusal: u8, writing: &mut Writing, out: &mut [u8]) {
    out.copy_from_slice(&asked.before);
    *writing = Writing { refusal, bytes: 0 };
}

fn is_report(asked: &AskedToSplit) -> bool {
    matches!(asked.message.mti, 0x05B4 | 0x0F14)
}

fn twenty_nine_before_writing(asked: &AskedToSplit, writing: &mut Writing, out: &mut [u8]) {
    if (2..=5).contains(&writing.refusal) && !is_report(asked) {
        refuse(asked, refusal::NOT_FOR_CAN, writing, out);
    }
}

fn sixteen_before_twenty_nine(asked: &AskedToSplit, writing: &mut Writing, out: &mut [u8]) {
    if writing.refusal == refusal::NOT_FOR_CAN
        && asked.list.alias_of(asked.message.source).is_none()
    {
        refuse(asked, refusal::NOT_LISTED, writing, out);
    }
}

fn sixteen_before_writing(asked: &AskedToSplit, writing: &mut Writing, out: &mut [u8]) {
    if (2..=5).contains(&writing.refusal) && asked.list.alias_of(asked.message.source).is_none() {
        refuse(asked, refusal::NOT_LISTED, writing, out);
    }
}

fn six_before_sixteen(asked: &AskedToSplit, writing: &mut Writing, out: &mut [u8]) {
    let needed = FRAME_BYTES * frames_of(0, 0, asked.content).len();
    if writing.refusal == refusal::NOT_LISTED && needed > out.len() {
        refuse(asked, refusal::ROOM, writing, out);
    }
}

fn writing_before_seven(asked: &AskedToSplit, writing: &mut Writing, out: &mut [u8]) {
    let written = message::write(&asked.message, asked.content, usize::MAX);
    if let (refusal::BOUNDS, Err(refusal)) = (writing.refusal, written) {
        refuse(asked, refusal, writing, out);
    }
}

fn room_for_the_message_is_tested(asked: &AskedToSplit, writing: &mut Writing, out: &mut [u8]) {
    let written = message::write(&asked.message, asked.content, out.len());
    if let (0 | 16 | 29, Err(refusal)) = (writing.refusal, written) {
        refuse(asked, refusal, writing, out);
    }
}

fn exact_room_is_too_little(asked: &AskedToSplit, writing: &mut Writing, out: &mut [u8]) {
    if writing.bytes == out.len() && writing.bytes > 0 {
        refuse(asked, refusal::ROOM, writing, out);
    }
}

fn what_fits_is_written(asked: &AskedToSplit, writing: &mut Writing, out: &mut [u8]) {
    if writing.refusal == refusal::ROOM {
        let written = written_out(&frames_of(asked.alias(), asked.event(), asked.content));
        let fits = out.len() / FRAME_BYTES * FRAME_BYTES;
        out[..fits].copy_from_slice(&written[..fits]);
    }
}

fn aliases_are_places(asked: &AskedToSplit, writing: &mut Writing, out: &mut [u8]) {
    if writing.refusal == refusal::NONE {
        *writing = asked.with_list(out, |list| {
            list.aliases = (0..list.nodes.len() as u64).collect();
        });
    }
}

fn frames_are_counted_and_not_bytes(_: &AskedToSplit, writing: &mut Writing, _: &mut [u8]) {
    writing.bytes /= FRAME_BYTES;
}

fn bytes_beside_a_refusal(_: &AskedToSplit, writing: &mut Writing, out: &mut [u8]) {
    if writing.refusal == refusal::ROOM {
        writing.bytes = out.len();
    }
}

fn the_rest_is_cleared(_: &AskedToSplit, writing: &mut Writing, out: &mut [u8]) {
    if writing.refusal == refusal::NONE {
        out[writing.bytes..].fill(0);
    }
}

fn headers_are_low_byte_first(_: &AskedToSplit, writing: &mut Writing, out: &mut [u8]) {
    for frame in out[..writing.bytes].chunks_mut(FRAME_BYTES) {
        frame[..4].reverse();
    }
}

/// A list that is out of bounds in one way is taken as one without the source.
fn list_is_taken<const WAY: usize>(asked: &AskedToSplit, writing: &mut Writing, out: &mut [u8]) {
    if writing.refusal == refusal::BOUNDS && can_lists::ways_of(asked.list) == [WAY] {
        *writing = asked.with_list(out, |list| *list = Aliases::default());
    }
}

/// Slips that show in the text of a file too.
const SLIPS: [Slip; 25] = [
    unused_bytes_stay_as_they_were,
    middle_frames_have_seven_bytes,
    eight_left_are_a_middle_frame,
    a_single_payload_frame_is_a_middle_one,
    a_whole_report_is_a_start,
    two_hundred_and_fifty_seven_are_taken,
    two_hundred_and_fifty_six_are_too_many,
    an_empty_payload_is_taken,
    bits_12_and_13_do_not_count,
    every_message_with_an_event_is_a_report,
    twenty_nine_before_writing,
    sixteen_before_twenty_nine,
    sixteen_before_writing,
    six_before_sixteen,
    writing_before_seven,
    exact_room_is_too_little,
    aliases_are_places,
    frames_are_counted_and_not_bytes,
    bytes_beside_a_refusal,
    headers_are_low_byte_first,
    list_is_taken::<0>,
    list_is_taken::<1>,
    list_is_taken::<2>,
    list_is_taken::<3>,
    list_is_taken::<4>,
];
/// Slips that show in calls only.
const SLIPS_OF_CALLS: [Slip; 4] = [
    what_fits_is_written,
    room_for_the_message_is_tested,
    the_rest_is_cleared,
    list_is_taken::<5>,
];

/// Every slip is found by calls.
#[test]
fn slips_in_calls() {
    for (place, slip) in SLIPS.into_iter().chain(SLIPS_OF_CALLS).enumerate() {
        let stand_in = StandIn::with_split(slip);
        assert!(is_found(Sort::Can, 400, &stand_in), "slip {place}");
    }
}

/// Every slip that shows in files is found by files alone.
#[test]
fn slips_in_files() {
    for (place, slip) in SLIPS.into_iter().enumerate() {
        let stand_in = StandIn::with_split(slip);
        assert!(is_found(Sort::Frame, 1_000, &stand_in), "slip {place}");
    }
}
