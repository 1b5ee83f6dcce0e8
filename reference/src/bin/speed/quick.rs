//! Messages and the box as one writes them without proofs: content borrowed, a fixed table changed in place and read line by line, nothing allocated.

use reference::message::Message;
use reference::refusal;

use crate::quick_trial::PlainBox;

pub const MOST_LINES: usize = 256;
const NODE_ID_BITS: u64 = 0xFFFF_FFFF_FFFF;

/// The low k bits, k up to 64.
pub fn low_bits(k: u8) -> u64 {
    !u64::MAX.unbounded_shl(k.into())
}

/// The block of a range number, as its start and k.
pub fn block_of(number: u64) -> (u64, u8) {
    let zeros_or_ones = number.trailing_zeros() | number.trailing_ones();
    let k = zeros_or_ones as u8;
    (number & !low_bits(k), k)
}

/// The low k bits of the start are 0; a start of 0 has 64 of them, so no k above 64 passes.
pub fn is_block(start: u64, k: u8) -> bool {
    u32::from(k) <= start.trailing_zeros()
}

/// Start and event agree on all bits above the low k.
pub fn holds(start: u64, k: u8, event: u64) -> bool {
    u32::from(k) + (start ^ event).leading_zeros() >= 64
}

fn is_node_id(id: u64) -> bool {
    id != 0 && id <= NODE_ID_BITS
}

/// What the reader and the box tell apart.
#[derive(Clone, Copy, PartialEq, Eq)]
pub enum Kind {
    InitializationComplete,
    Report,
    ReportWithPayload,
    ConsumerIdentified,
    ConsumerRangeIdentified,
    OtherWithoutContent,
    Other,
}

fn kind_of(mti: u16) -> Option<Kind> {
    Some(match mti {
        0x4000.. | 0x0F15 | 0x0F16 => return None,
        0x0100 | 0x0110 => Kind::InitializationComplete,
        0x05B4 => Kind::Report,
        0x0F14 => Kind::ReportWithPayload,
        0x04C4 | 0x04C5 | 0x04C7 => Kind::ConsumerIdentified,
        0x04A4 => Kind::ConsumerRangeIdentified,
        0x08F4 | 0x0914 | 0x0544 | 0x0545 | 0x0547 | 0x0524 | 0x0970 | 0x0968 | 0x0594 => {
            Kind::OtherWithoutContent
        }
        _ => Kind::Other,
    })
}

fn content_allowed(kind: Kind, length: usize) -> bool {
    match kind {
        Kind::InitializationComplete => length == 6,
        Kind::ReportWithPayload => (1..=256).contains(&length),
        Kind::Other => length <= 72,
        _ => length == 0,
    }
}

fn has_destination(mti: u16) -> bool {
    mti & 8 != 0
}

fn has_event(mti: u16) -> bool {
    mti & 4 != 0
}

/// A message that was read; its content stays where it came.
pub struct Reading<'a> {
    pub kind: Kind,
    pub message: Message,
    pub content: &'a [u8],
}

/// Reads a message, or answers refusal 1 to 5; never inlined, as the proved call cannot be.
#[inline(never)]
pub fn read(bytes: &[u8]) -> Result<Reading<'_>, u8> {
    take_apart(bytes)
}

pub fn take_apart(bytes: &[u8]) -> Result<Reading<'_>, u8> {
    let [high, low, ..] = *bytes else {
        return Err(refusal::TOO_SHORT);
    };
    let mti = u16::from_be_bytes([high, low]);
    let kind = kind_of(mti).ok_or(refusal::MTI)?;
    let (source, rest) = split_number(bytes).ok_or(refusal::TOO_SHORT)?;
    let (destination, rest) = if has_destination(mti) {
        let (id, rest) = split_node_id(rest).ok_or(refusal::TOO_SHORT)?;
        (Some(id), rest)
    } else {
        (None, rest)
    };
    let (event, content) = if has_event(mti) {
        let (event, rest) = split_number(rest).ok_or(refusal::TOO_SHORT)?;
        (Some(event), rest)
    } else {
        (None, rest)
    };
    let message = Message {
        mti,
        // The MTI stands in the two bytes above the source.
        source: source & NODE_ID_BITS,
        destination,
        event,
    };
    check_fields(kind, &message, content)?;
    Ok(Reading {
        kind,
        message,
        content,
    })
}

fn split_number(bytes: &[u8]) -> Option<(u64, &[u8])> {
    let (number, rest) = bytes.split_first_chunk()?;
    Some((u64::from_be_bytes(*number), rest))
}

fn split_node_id(bytes: &[u8]) -> Option<(u64, &[u8])> {
    let (id, rest) = bytes.split_first_chunk()?;
    Some((node_id(id), rest))
}

fn node_id(bytes: &[u8; 6]) -> u64 {
    let [a, b, c, d, e, f] = *bytes;
    u64::from_be_bytes([0, 0, a, b, c, d, e, f])
}

/// Refusals 3, 4 and 5, which reading and writing share.
fn check_fields(kind: Kind, message: &Message, content: &[u8]) -> Result<(), u8> {
    if !is_node_id(message.source) || message.destination.is_some_and(|id| !is_node_id(id)) {
        return Err(refusal::NODE_ID);
    }
    let fields_fit = message.destination.is_some() == has_destination(message.mti)
        && message.event.is_some() == has_event(message.mti);
    if !fields_fit || !content_allowed(kind, content.len()) {
        return Err(refusal::CONTENT);
    }
    if kind == Kind::InitializationComplete && content != &message.source.to_be_bytes()[2..] {
        return Err(refusal::NOT_SOURCE);
    }
    Ok(())
}

/// Refusals 2 to 5 of writing.
#[inline(always)]
pub fn check_writing(message: &Message, content: &[u8]) -> Result<(), u8> {
    let kind = kind_of(message.mti).ok_or(refusal::MTI)?;
    check_fields(kind, message, content)
}

/// Writes a message and answers its length, or refusal 2 to 6; never inlined, as the proved call cannot be.
#[inline(never)]
pub fn write(message: &Message, content: &[u8], out: &mut [u8]) -> Result<usize, u8> {
    check_writing(message, content)?;
    let header = 8
        + if message.destination.is_some() { 6 } else { 0 }
        + if message.event.is_some() { 8 } else { 0 };
    let length = header + content.len();
    let bytes = out.get_mut(..length).ok_or(refusal::ROOM)?;
    let first = u64::from(message.mti) << 48 | message.source;
    bytes[..8].copy_from_slice(&first.to_be_bytes());
    if let Some(id) = message.destination {
        bytes[8..14].copy_from_slice(&id.to_be_bytes()[2..]);
    }
    if let Some(event) = message.event {
        bytes[header - 8..header].copy_from_slice(&event.to_be_bytes());
    }
    bytes[header..].copy_from_slice(content);
    Ok(length)
}

#[derive(Clone, Copy, Debug, Default, PartialEq, Eq)]
pub struct Line {
    pub node: u64,
    pub start: u64,
    pub k: u8,
    pub port: u8,
}

#[derive(Clone, Copy)]
pub struct Gateway {
    pub ports: u8,
    pub marks: u8,
    pub automatic: (u64, u8),
    pub count: usize,
    pub lines: [Line; MOST_LINES],
}

impl PlainBox for Gateway {
    fn start(ports: u8, automatic: u64) -> Gateway {
        Gateway {
            ports,
            marks: 0,
            automatic: block_of(automatic),
            count: 0,
            lines: [Line::default(); MOST_LINES],
        }
    }

    #[inline(never)]
    fn receive(&mut self, port: u8, bytes: &[u8], check: bool) -> (u8, u8) {
        match self.accept(port, bytes, check) {
            Ok(sent) => (refusal::NONE, sent),
            Err(refusal) => (refusal, 0),
        }
    }

    fn count(&self) -> usize {
        self.count
    }
}

impl Gateway {
    pub fn lines(&self) -> &[Line] {
        &self.lines[..self.count]
    }

    fn accept(&mut self, port: u8, bytes: &[u8], check: bool) -> Result<u8, u8> {
        if check && !self.in_bounds() {
            return Err(refusal::BOUNDS);
        }
        if port >= self.ports {
            return Err(refusal::PORT);
        }
        let Reading { kind, message, .. } = take_apart(bytes)?;
        let others = low_bits(self.ports) as u8 & !(1 << port);
        match (kind, message.event) {
            (Kind::Report | Kind::ReportWithPayload, Some(event)) => {
                return Ok(self.wanting(event) & others);
            }
            (Kind::ConsumerIdentified, Some(event)) => {
                self.announce(port, message.source, (event, 0));
            }
            (Kind::ConsumerRangeIdentified, Some(number)) => {
                self.announce(port, message.source, block_of(number));
            }
            (Kind::InitializationComplete, _) => self.restart(message.source),
            _ => {}
        }
        Ok(others)
    }

    fn in_bounds(&self) -> bool {
        let (start, k) = self.automatic;
        (2..=8).contains(&self.ports)
            && self.count <= MOST_LINES
            && u64::from(self.marks) & !low_bits(self.ports) == 0
            && k != 0
            && is_block(start, k)
            && self.lines_in_bounds()
    }

    /// Eight lines to a step: the compiler unrolls no loop that can end at any line.
    fn lines_in_bounds(&self) -> bool {
        let in_bounds = |line: &Line| self.line_in_bounds(line);
        let (eights, rest) = self.lines().as_chunks::<8>();
        eights.iter().all(|eight| eight.iter().all(in_bounds)) && rest.iter().all(in_bounds)
    }

    fn line_in_bounds(&self, line: &Line) -> bool {
        line.port < self.ports && is_node_id(line.node) && is_block(line.start, line.k)
    }

    /// The ports that want a report of the event, the arrival port among them.
    fn wanting(&self, event: u64) -> u8 {
        let (start, k) = self.automatic;
        if holds(start, k, event) {
            return u8::MAX;
        }
        let mut wanting = self.marks;
        for line in self.lines() {
            if holds(line.start, line.k, event) {
                wanting |= 1 << line.port;
            }
        }
        wanting
    }

    fn announce(&mut self, port: u8, node: u64, (start, k): (u64, u8)) {
        let line = Line {
            node,
            start,
            k,
            port,
        };
        // The lines are changed only once none covers it.
        let mut first_held = self.count;
        let above = !low_bits(k);
        for (place, other) in self.lines().iter().enumerate() {
            if other.node == node && other.port == port {
                if other.k < k {
                    if other.start & above == start {
                        first_held = first_held.min(place);
                    }
                } else if holds(other.start, other.k, start) {
                    return;
                }
            }
        }
        if first_held < self.count {
            self.replace(line, first_held);
        } else if let Some(place) = self.lines.get_mut(self.count) {
            *place = line;
            self.count += 1;
        } else {
            self.marks |= 1 << port;
        }
    }

    /// Every line that it holds goes, the first of them at a place, and it stands at the end. None covers it, so every line of its port and node that begins
    /// inside it is held.
    fn replace(&mut self, line: Line, first_held: usize) {
        let above = !low_bits(line.k);
        let lines = &mut self.lines[..self.count];
        let mut kept = first_held;
        for place in first_held + 1..lines.len() {
            let other = &lines[place];
            let own = other.node == line.node && other.port == line.port;
            if !own || other.start & above != line.start {
                lines[kept] = lines[place];
                kept += 1;
            }
        }
        lines[kept] = line;
        self.count = kept + 1;
    }

    /// The node's lines go at every port: the survivors before the first of them stay where they are, and every other one moves once.
    fn restart(&mut self, node: u64) {
        let Some(first_gone) = first_line_of(node, self.lines()) else {
            return;
        };
        let lines = &mut self.lines[..self.count];
        let mut kept = first_gone;
        for place in first_gone + 1..lines.len() {
            if lines[place].node != node {
                lines[kept] = lines[place];
                kept += 1;
            }
        }
        self.count = kept;
    }
}

/// The place of a node's first line, eight lines to a step here too.
fn first_line_of(node: u64, lines: &[Line]) -> Option<usize> {
    let goes = |line: &Line| line.node == node;
    let (eights, rest) = lines.as_chunks::<8>();
    for (step, eight) in eights.iter().enumerate() {
        if let Some(within) = eight.iter().position(goes) {
            return Some(8 * step + within);
        }
    }
    let within = rest.iter().position(goes)?;
    Some(8 * eights.len() + within)
}
