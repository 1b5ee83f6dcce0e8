//! The CAN side as one writes it without proofs: structs by value as C passes them, nothing allocated. The test of the list is linear, and can be left out.

use reference::lent_can::{Frame, Gathered, Joined, Joining, PAYLOAD};
use reference::lent_message::{Message, Writing};
use reference::message::is_node_id;
use reference::refusal;

use crate::quick;

const MOST_PAIRS: usize = 128;
const MOST_ALIASES: usize = 4_096;
const FRAME_BYTES: usize = 13;

/// The four headers, the alias 0.
const WHOLE: u32 = 0x195B_4000;
const FIRST: u32 = 0x19F1_6000;
const MIDDLE: u32 = 0x19F1_5000;
const LAST: u32 = 0x19F1_4000;

/// Two lists, node i behind alias i, as a pointer and a length each.
#[derive(Clone, Copy)]
pub struct List<'a> {
    pub aliases: &'a [u64],
    pub nodes: &'a [u64],
}

impl List<'_> {
    /// One pass with two marks for each number of 12 bits: an alias is no more than that, of a node the marks say where to look back.
    fn in_bounds(self) -> bool {
        const ALIAS: u8 = 1;
        const NODE: u8 = 2;
        let List { aliases, nodes } = self;
        if aliases.len() != nodes.len() || aliases.len() > MOST_PAIRS {
            return false;
        }
        let mut marks = [0u8; MOST_ALIASES];
        for (place, (alias, node)) in aliases.iter().zip(nodes).enumerate() {
            let Some(of_alias) = marks.get_mut(*alias as usize) else {
                return false;
            };
            if *of_alias & ALIAS != 0 || !is_node_id(*node) {
                return false;
            }
            *of_alias |= ALIAS;
            let of_node = &mut marks[*node as usize % MOST_ALIASES];
            if *of_node & NODE != 0 && nodes[..place].contains(node) {
                return false;
            }
            *of_node |= NODE;
        }
        true
    }

    fn node_of(self, alias: u64) -> Option<u64> {
        let place = self.aliases.iter().position(|listed| *listed == alias)?;
        self.nodes.get(place).copied()
    }

    fn alias_of(self, node: u64) -> Option<u64> {
        let place = self.nodes.iter().position(|listed| *listed == node)?;
        self.aliases.get(place).copied()
    }
}

/// Joins a frame; never inlined, as the proved call cannot be.
#[inline(never)]
pub fn join(list: List, state: Joining, frame: Frame, check: bool) -> Joined {
    let mut joined = Joined {
        refusal: refusal::NONE,
        mti: 0,
        message: Gathered::NONE,
        state,
    };
    if let Err(refusal) = take(&mut joined, list, &frame, check) {
        joined.refusal = refusal;
    }
    joined
}

fn take(joined: &mut Joined, list: List, frame: &Frame, check: bool) -> Result<(), u8> {
    if check && !list.in_bounds() || !state_in_bounds(&joined.state) {
        return Err(refusal::BOUNDS);
    }
    let part = frame.header & !0xFFF;
    let (WHOLE | FIRST | MIDDLE | LAST) = part else {
        return Err(refusal::NOT_FOR_CAN);
    };
    let alias = u64::from(frame.header & 0xFFF);
    let sender = list.node_of(alias).ok_or(refusal::NOT_LISTED)?;
    let length = usize::from(frame.length);
    if length > 8 || length < if part == LAST { 1 } else { 8 } {
        return Err(refusal::FRAME_LENGTH);
    }
    match part {
        WHOLE => {
            joined.mti = 0x05B4;
            (joined.message.sender, joined.message.event) = (sender, event_of(frame));
        }
        FIRST => begin(&mut joined.state, sender, event_of(frame))?,
        _ => {
            let place = go_on(&mut joined.state, sender, &frame.bytes[..length])?;
            if part == LAST {
                joined.mti = 0x0F14;
                joined.message = *gathered(&mut joined.state, place);
                remove(&mut joined.state, place);
            }
        }
    }
    Ok(())
}

fn event_of(frame: &Frame) -> u64 {
    u64::from_be_bytes(frame.bytes)
}

fn state_in_bounds(state: &Joining) -> bool {
    match state.count {
        0 => true,
        1 => state.first.length <= PAYLOAD,
        2 => {
            state.first.length <= PAYLOAD
                && state.second.length <= PAYLOAD
                && state.first.sender != state.second.sender
        }
        _ => false,
    }
}

fn place_of(state: &Joining, sender: u64) -> Option<usize> {
    match state.count {
        1 | 2 if state.first.sender == sender => Some(0),
        2 if state.second.sender == sender => Some(1),
        _ => None,
    }
}

fn gathered(state: &mut Joining, place: usize) -> &mut Gathered {
    match place {
        0 => &mut state.first,
        _ => &mut state.second,
    }
}

fn remove(state: &mut Joining, place: usize) {
    if (place, state.count) == (0, 2) {
        state.first = state.second;
    }
    state.count -= 1;
}

fn begin(state: &mut Joining, sender: u64, event: u64) -> Result<(), u8> {
    match place_of(state, sender) {
        Some(place) => remove(state, place),
        None if state.count == 2 => return Err(refusal::THIRD_SENDER),
        None => {}
    }
    let new = gathered(state, state.count);
    (new.sender, new.event, new.length) = (sender, event, 0);
    state.count += 1;
    Ok(())
}

fn go_on(state: &mut Joining, sender: u64, data: &[u8]) -> Result<usize, u8> {
    let place = place_of(state, sender).ok_or(refusal::NOT_BEGUN)?;
    let one = gathered(state, place);
    let end = one.length + data.len();
    match one.payload.get_mut(one.length..end) {
        Some(room) => {
            room.copy_from_slice(data);
            one.length = end;
            Ok(place)
        }
        None => {
            remove(state, place);
            Err(refusal::PAYLOAD)
        }
    }
}

/// Splits a message and answers how many bytes that took; never inlined, as the proved call cannot be.
#[inline(never)]
pub fn split(list: List, message: Message, content: &[u8], out: &mut [u8], check: bool) -> Writing {
    match put_frames(list, &message, content, out, check) {
        Ok(bytes) => Writing {
            refusal: refusal::NONE,
            bytes,
        },
        Err(refusal) => Writing { refusal, bytes: 0 },
    }
}

fn put_frames(
    list: List,
    message: &Message,
    content: &[u8],
    out: &mut [u8],
    check: bool,
) -> Result<usize, u8> {
    if check && !list.in_bounds() {
        return Err(refusal::BOUNDS);
    }
    quick::check_writing(&message.fields(), content)?;
    let (0x05B4 | 0x0F14) = message.mti else {
        return Err(refusal::NOT_FOR_CAN);
    };
    let alias = list.alias_of(message.source).ok_or(refusal::NOT_LISTED)? as u32;
    let bytes = FRAME_BYTES * (1 + content.len().div_ceil(8));
    let out = out.get_mut(..bytes).ok_or(refusal::ROOM)?;
    let (frames, _) = out.as_chunks_mut::<FRAME_BYTES>();
    let Some((first, rest)) = frames.split_first_mut() else {
        return Ok(0);
    };
    let header = if content.is_empty() { WHOLE } else { FIRST };
    put_frame(first, header | alias, &message.event.to_be_bytes());
    let (eights, last) = match content.len() {
        0 => return Ok(bytes),
        length => content.split_at((length - 1) / 8 * 8),
    };
    for (frame, eight) in rest.iter_mut().zip(eights.as_chunks::<8>().0) {
        put_frame(frame, MIDDLE | alias, eight);
    }
    if let Some(frame) = rest.last_mut() {
        put_frame(frame, LAST | alias, last);
    }
    Ok(bytes)
}

/// Eight bytes or fewer, and zeros behind them.
fn put_frame(frame: &mut [u8; FRAME_BYTES], header: u32, data: &[u8]) {
    frame[..4].copy_from_slice(&header.to_be_bytes());
    frame[4] = data.len() as u8;
    let (used, unused) = frame[5..].split_at_mut(data.len());
    used.copy_from_slice(data);
    unused.fill(0);
}
