//! Questions why a report goes to a port or does not, put to the state of a box. The state has to stay as it is, every place of its lists.

use crate::gateway::{self, Line};
use crate::lent_box::{Block, Gateway, Reason};
use crate::why;

use super::boxes::Calls;
use super::histories::{event_in, Arrival};
use super::observed;
use super::parts::{bytes_damaged_at_times, Parts};
use super::random::Dice;
use super::tables::Table;
use super::witness::{Hex, Witness};
use super::world::{good_node, low_bits};

/// Messages with an event that are no report, two of them a bit away from one.
const NO_REPORTS: [u16; 8] = [
    0x04C4, 0x04A4, 0x04C6, 0x0544, 0x0594, 0x08F4, 0x15B4, 0x2F14,
];

/// A message at a port, and the port that is asked about.
pub struct Question {
    pub arrival: Arrival,
    pub asked: u8,
}

/// What is answered, and the lists after it.
#[derive(PartialEq, Debug)]
struct Answer {
    reason: Reason,
    lists: Table,
}

impl Question {
    /// A question to a state, beside a message that arrives there: mostly a report of what the lines hold, to a port of one of them.
    pub fn any(dice: &mut Dice, ports: u8, blocks: &Blocks, beside: &Arrival) -> Question {
        let (event, port) = blocks.event(dice, beside);
        let asked = match port {
            Some(port) if dice.chance(60) => port,
            _ => any_port(dice, ports),
        };
        let port = match dice.weighted(&[85, 10, 5]) {
            0 => beside.port,
            1 => any_port(dice, ports),
            _ => asked,
        };
        let bytes = match dice.weighted(&[66, 12, 7, 15]) {
            0 => message(dice, &[0x05B4, 0x05B4, 0x0F14], event),
            1 => message(dice, &NO_REPORTS, event),
            2 => restart(dice),
            _ => beside.bytes.clone(),
        };
        Question {
            arrival: Arrival { port, bytes },
            asked,
        }
    }

    /// What is asked.
    pub fn put(&self, way: &str) -> String {
        let bytes = Hex(self.arrival.bytes.clone());
        let (port, asked) = (self.arrival.port, self.asked);
        format!("why {way} from port {port:02X} to port {asked:02X}: {bytes:?}")
    }
}

/// A port, at times one that is not there.
fn any_port(dice: &mut Dice, ports: u8) -> u8 {
    if dice.chance(8) {
        return dice.pick(&[ports, ports.wrapping_add(1), 8, 255]);
    }
    dice.below(u64::from(ports.max(1))) as u8
}

/// The blocks that a state has: the lines that may be asked about, and the automatic one.
pub struct Blocks<'a> {
    pub lines: &'a [Line],
    pub automatic: (u64, u32),
}

impl Blocks<'_> {
    /// An event, and the port of the line that it is of; lines at the end as often as all others.
    fn event(&self, dice: &mut Dice, beside: &Arrival) -> (u64, Option<u8>) {
        match (dice.weighted(&[55, 15, 20, 10]), self.lines.last()) {
            (0, Some(last)) => {
                let any = dice.pick(self.lines);
                let line = dice.pick(&[*last, any]);
                let event = event_of(dice, (line.start, line.k));
                (event, Some(line.port as u8))
            }
            (1, _) => (event_of(dice, self.automatic), None),
            (2, _) => (event_in(beside).unwrap_or_else(|| dice.number()), None),
            _ => (dice.number(), None),
        }
    }
}

/// An event of a block, mostly at an edge, at times beside it.
pub fn event_of(dice: &mut Dice, (start, k): (u64, u32)) -> u64 {
    let mask = low_bits(k);
    let inside = start | dice.number() & mask;
    match dice.below(8) {
        0 => start.wrapping_sub(1),
        1 => (start | mask).wrapping_add(1),
        2 | 3 => start | mask,
        4 | 5 => inside,
        _ => start,
    }
}

/// A message of one of these MTIs, which flag an event and no destination, damaged at times.
fn message(dice: &mut Dice, mtis: &[u16], event: u64) -> Vec<u8> {
    let mti = dice.pick(mtis);
    let good = good_node(dice);
    let source = if dice.chance(3) { 0 } else { good };
    let most = if mti == 0x0F14 {
        dice.pick(&[4, 256])
    } else {
        0
    };
    let length = dice.between(usize::from(most > 0), most);
    let parts = Parts {
        mti,
        source,
        destination: None,
        event: Some(event),
        content: dice.bytes(length),
    };
    bytes_damaged_at_times(dice, parts, 15)
}

/// An Initialization Complete, of another node as often as not.
fn restart(dice: &mut Dice) -> Vec<u8> {
    let source = good_node(dice);
    let other = good_node(dice);
    let named = dice.pick(&[source, other]);
    Parts::restart(dice, source, named).bytes()
}

/// Puts a question to both sides; whether they agree and the lists are as they were.
pub fn ask(
    witness: &mut Witness,
    calls: &impl Calls,
    gateway: &Gateway,
    reference: &gateway::Gateway,
    question: &Question,
) -> bool {
    let (arrival, asked) = (&question.arrival, question.asked);
    let expected = Answer {
        reason: reason_of(observed::why(reference, arrival, asked, witness.column)),
        lists: Table::of_all_places(gateway),
    };
    let mut lent = *gateway;
    let head = gateway.head;
    let reason = calls.why(head, lent.lists(), arrival.port, asked, &arrival.bytes);
    let ours = Answer {
        reason,
        lists: Table::of_all_places(&lent),
    };
    witness.compare(|| question.put("on all places"), &ours, &expected)
}

/// The reference's answer as the proved side lays it out.
pub fn reason_of(answer: Result<why::Reason, u8>) -> Reason {
    let mut laid_out = Reason {
        refusal: answer.err().unwrap_or(crate::refusal::NONE),
        reason: answer.map_or(0, why::Reason::number),
        place: 0,
        node: 0,
        block: Block { start: 0, k: 0 },
    };
    if let Ok(why::Reason::Held { place, line }) = answer {
        laid_out.place = place;
        laid_out.node = line.node;
        laid_out.block = Block {
            start: line.start,
            k: line.k as u8,
        };
    }
    laid_out
}
