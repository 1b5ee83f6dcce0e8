//! A trial as one writes it without proofs, through either plain box: its text goes into a lent buffer, and nothing is allocated.

use reference::refusal;
use reference::trial::{BAD_FILE, HOUSE_NUMBER, MOST_BYTES, MOST_ENTRIES};

/// A box without proofs.
pub trait PlainBox {
    fn start(ports: u8, automatic: u64) -> Self;
    /// A message at a port, the state tested first or not: the refusal or 0, and the ports it is sent to; never inlined, as the proved call cannot be.
    fn receive(&mut self, port: u8, bytes: &[u8], check: bool) -> (u8, u8);
    /// The lines in its table.
    fn count(&self) -> usize;
}

/// The text of a trial file, as much as fits; answers how many bytes that took.
#[inline(never)]
pub fn trial_text<Plain: PlainBox>(file: &[u8], text: &mut [u8], check: bool) -> usize {
    let room = text.len();
    let mut left = text;
    let Some((table, mut bodies)) = parts_of(file) else {
        put(&mut left, BAD_FILE);
        return room - left.len();
    };
    let mut gateway = Plain::start(4, HOUSE_NUMBER);
    for (number, entry) in table.iter().enumerate() {
        let (body, rest) = bodies.split_at(length_in(entry));
        bodies = rest;
        let (refusal, sent) = gateway.receive(entry[0], body, check);
        let mut line = LineOfText::default();
        line.number(number);
        line.answer(refusal, sent);
        line.number(gateway.count());
        line.end(&mut left);
    }
    room - left.len()
}

/// The contents table and the bodies, or nothing for a bad file.
fn parts_of(file: &[u8]) -> Option<(&[[u8; 3]], &[u8])> {
    if file.len() > MOST_BYTES {
        return None;
    }
    let (count, rest) = file.split_first_chunk()?;
    let count = usize::from(u16::from_be_bytes(*count));
    if count > MOST_ENTRIES {
        return None;
    }
    let (table, bodies) = rest.split_at_checked(3 * count)?;
    let (entries, _) = table.as_chunks();
    let total: usize = entries.iter().map(length_in).sum();
    (bodies.len() == total).then_some((entries, bodies))
}

fn length_in(entry: &[u8; 3]) -> usize {
    usize::from(u16::from_be_bytes([entry[1], entry[2]]))
}

/// A line before it goes out; the longest is "999 refused 8 256".
#[derive(Default)]
struct LineOfText {
    bytes: [u8; 24],
    used: usize,
}

impl LineOfText {
    fn push(&mut self, byte: u8) {
        self.bytes[self.used] = byte;
        self.used += 1;
    }

    /// A number below 1,000 and a space.
    fn number(&mut self, number: usize) {
        if number >= 100 {
            self.push(b'0' + (number / 100) as u8);
        }
        if number >= 10 {
            self.push(b'0' + (number / 10 % 10) as u8);
        }
        self.push(b'0' + (number % 10) as u8);
        self.push(b' ');
    }

    fn answer(&mut self, refusal: u8, sent: u8) {
        if refusal == refusal::NONE {
            for port in 0..4 {
                self.push(b'0' + (sent >> port & 1));
            }
            self.push(b' ');
        } else {
            for byte in *b"refused " {
                self.push(byte);
            }
            self.number(refusal.into());
        }
    }

    /// The line ends in place of its last space, and goes out.
    fn end(mut self, out: &mut &mut [u8]) {
        self.bytes[self.used - 1] = b'\n';
        put(out, &self.bytes[..self.used]);
    }
}

/// Writes to the front of `out` as much as fits, and leaves `out` as what is left.
fn put(out: &mut &mut [u8], bytes: &[u8]) {
    let fits = bytes.len().min(out.len());
    let (front, rest) = std::mem::take(out).split_at_mut(fits);
    front.copy_from_slice(&bytes[..fits]);
    *out = rest;
}
