//! Why a report is sent to a port or held back from it (02, W1).

use crate::gateway::{holds, Gateway, Line, LENT_LENGTHS};
use crate::message;
use crate::refusal;

/// The reason, the first that applies (02, W1).
#[derive(Clone, Copy, Debug, PartialEq, Eq)]
pub enum Reason {
    /// The asked port is the arrival port.
    Arrival,
    /// The event is automatic.
    Automatic,
    /// The asked port is open.
    Open,
    /// The first line in table order that holds the event, its place counted from 0.
    Held { place: usize, line: Line },
    /// Nothing holds it.
    Nothing,
}

impl Reason {
    /// Its number, 1 to 5 (02, W1, "1 to 5 in that order").
    pub fn number(self) -> u8 {
        match self {
            Reason::Arrival => 1,
            Reason::Automatic => 2,
            Reason::Open => 3,
            Reason::Held { .. } => 4,
            Reason::Nothing => 5,
        }
    }

    /// Whether the report is sent (02, W1, "exactly when it is the second, third or fourth").
    pub fn is_sent(self) -> bool {
        (2..=4).contains(&self.number())
    }
}

impl Gateway {
    /// Why the report goes to the asked port or not: refusals 7, 8 for either port, reading, 15 (02, W1, "Refusals").
    pub fn why(&self, arrival: u32, asked: u32, bytes: &[u8]) -> Result<Reason, u8> {
        if !self.in_bounds() {
            return Err(refusal::BOUNDS);
        }
        if arrival >= self.ports || asked >= self.ports {
            return Err(refusal::PORT);
        }
        let message = message::read(bytes)?;
        let Some(event) = message::reported_event(&message) else {
            return Err(refusal::NO_REPORT);
        };
        Ok(self.reason(arrival, asked, event))
    }

    /// The same where the lists of the table and of its index are lent: 7 before all else for one of another length (01-scope, Refusal numbers, 7; 02, W6).
    pub fn why_on_lists(
        &self,
        lengths: [usize; 6],
        arrival: u32,
        asked: u32,
        bytes: &[u8],
    ) -> Result<Reason, u8> {
        if lengths != LENT_LENGTHS {
            return Err(refusal::BOUNDS);
        }
        self.why(arrival, asked, bytes)
    }

    /// The first reason that applies, of ports that are there (02, W1).
    fn reason(&self, arrival: u32, asked: u32, event: u64) -> Reason {
        if asked == arrival {
            return Reason::Arrival;
        }
        if holds(self.automatic, event) {
            return Reason::Automatic;
        }
        if self.open.contains(&asked) {
            return Reason::Open;
        }
        for (place, line) in self.lines.iter().enumerate() {
            if line.port == asked && holds((line.start, line.k), event) {
                return Reason::Held { place, line: *line };
            }
        }
        Reason::Nothing
    }
}

#[cfg(test)]
mod tests {
    use super::*;
    use crate::judging::histories::any_history;
    use crate::judging::random::Dice;
    use crate::judging::world::Area;
    use crate::message::Message;
    use crate::trial::HOUSE_NUMBER;

    const EVENT: u64 = 0x0A00000000010001;
    const AUTOMATIC: u64 = 0x0100000000000000;

    fn report(event: u64) -> Vec<u8> {
        with_event(0x05B4, event)
    }

    fn with_event(mti: u16, event: u64) -> Vec<u8> {
        let header = Message {
            mti,
            source: 9,
            destination: None,
            event: Some(event),
        };
        let content: &[u8] = if mti == 0x0F14 { &[7] } else { &[] };
        message::write(&header, content, 1000).unwrap()
    }

    fn line(port: u32, node: u64, start: u64, k: u32) -> Line {
        Line {
            port,
            node,
            start,
            k,
        }
    }

    /// Four ports, the house block, these lines and open ports.
    fn four(lines: &[Line], open: &[u32]) -> Gateway {
        let (mut gateway, _) = Gateway::start(4, HOUSE_NUMBER);
        gateway.set_lines(lines.to_vec());
        gateway.open = open.iter().copied().collect();
        gateway
    }

    /// 02, W1: all five reasons of one report, by the port that is asked; with a payload too.
    #[test]
    fn five_reasons() {
        let held = line(2, 7, EVENT, 0);
        let gateway = four(&[line(3, 7, EVENT + 1, 0), held], &[1]);
        for bytes in [report(EVENT), with_event(0x0F14, EVENT)] {
            assert_eq!(gateway.why(0, 0, &bytes), Ok(Reason::Arrival));
            assert_eq!(gateway.why(0, 1, &bytes), Ok(Reason::Open));
            let place_and_line = Reason::Held {
                place: 1,
                line: held,
            };
            assert_eq!(gateway.why(0, 2, &bytes), Ok(place_and_line));
            assert_eq!(gateway.why(0, 3, &bytes), Ok(Reason::Nothing));
        }
        assert_eq!(gateway.why(0, 3, &report(AUTOMATIC)), Ok(Reason::Automatic));
    }

    /// 02, W1: "1 to 5 in that order", and which of them is sent.
    #[test]
    fn numbers() {
        let held = Reason::Held {
            place: 0,
            line: line(1, 1, 1, 0),
        };
        let all = [
            Reason::Arrival,
            Reason::Automatic,
            Reason::Open,
            held,
            Reason::Nothing,
        ];
        assert_eq!(all.map(Reason::number), [1, 2, 3, 4, 5]);
        assert_eq!(all.map(Reason::is_sent), [false, true, true, true, false]);
    }

    /// 02, W1, "The first that applies counts": everything applies, then one less each time.
    #[test]
    fn the_first_that_applies() {
        let whole = line(2, 7, 0, 64);
        let gateway = four(&[whole], &[2]);
        let number = |gateway: &Gateway, arrival, event| {
            gateway.why(arrival, 2, &report(event)).unwrap().number()
        };
        assert_eq!(number(&gateway, 2, AUTOMATIC), 1);
        assert_eq!(number(&gateway, 0, AUTOMATIC), 2);
        assert_eq!(number(&gateway, 0, EVENT), 3);
        assert_eq!(number(&four(&[whole], &[1, 3]), 0, EVENT), 4);
        assert_eq!(number(&four(&[], &[1, 3]), 0, EVENT), 5);
        assert_eq!(number(&four(&[], &[]), 2, EVENT), 1);
        assert_eq!(number(&four(&[], &[2]), 2, EVENT), 1);
        assert_eq!(number(&four(&[whole], &[]), 0, AUTOMATIC), 2);
    }

    /// 02, W1, "the first line in table order that holds the event, with its place and Node ID".
    #[test]
    fn the_first_line_that_holds_it() {
        let single = line(2, 7, EVENT, 0);
        let range = line(2, 8, EVENT & !0xFF, 8);
        let elsewhere = line(1, 9, EVENT, 0);
        let beside = line(2, 9, EVENT + 1, 0);
        for (lines, place) in [
            (vec![single, range], 0),
            (vec![range, single], 0),
            (vec![elsewhere, single, range], 1),
            (vec![elsewhere, beside, range, single, single], 2),
        ] {
            let expected = Reason::Held {
                place,
                line: lines[place],
            };
            assert_eq!(four(&lines, &[]).why(0, 2, &report(EVENT)), Ok(expected));
        }
        let mut full = vec![beside; 256];
        assert_eq!(
            four(&full, &[]).why(0, 2, &report(EVENT)),
            Ok(Reason::Nothing)
        );
        full[255] = single;
        let last = Reason::Held {
            place: 255,
            line: single,
        };
        assert_eq!(four(&full, &[]).why(0, 2, &report(EVENT)), Ok(last));
    }

    /// 01-scope, Ranges: the first and the last event of a block are in it, those beside them are not.
    #[test]
    fn edges_of_blocks() {
        let range = line(2, 8, EVENT & !0xFF, 8);
        let gateway = four(&[range], &[]);
        let number = |event| gateway.why(0, 2, &report(event)).unwrap().number();
        let first = EVENT & !0xFF;
        let edges = [first - 1, first, first + 255, first + 256];
        assert_eq!(edges.map(number), [5, 4, 4, 5]);
        let edges = [AUTOMATIC - 1, AUTOMATIC, HOUSE_NUMBER, HOUSE_NUMBER + 1];
        assert_eq!(edges.map(number), [5, 2, 2, 5]);
    }

    /// 02, W1, "Refusals": 7, 8 for either port, reading's, 15, each before the next.
    #[test]
    fn order_of_refusals() {
        let gateway = four(&[], &[]);
        let mut bad = gateway.clone();
        bad.ports = 9;
        assert_eq!(bad.why(9, 9, &[]), Err(7));
        assert_eq!(gateway.why(4, 0, &[]), Err(8));
        assert_eq!(gateway.why(0, 4, &[]), Err(8));
        assert_eq!(gateway.why(4, 4, &report(EVENT)), Err(8));
        assert_eq!(gateway.why(0, 4, &with_event(0x04C4, EVENT)), Err(8));
        assert_eq!(gateway.why(3, 0, &report(EVENT)), Ok(Reason::Nothing));
        assert_eq!(gateway.why(0, 3, &report(EVENT)), Ok(Reason::Nothing));
        let of_zero = [0x04, 0xC4, 0, 0, 0, 0, 0, 0, 0, 0, 0, 0, 0, 0, 0, 1];
        let unlike = [1, 0, 0, 0, 0, 0, 0, 9, 0, 0, 0, 0, 0, 8];
        let mut too_long = with_event(0x0594, EVENT);
        too_long.push(0);
        for (bytes, refusal) in [
            (&[][..], 1),
            (&[0x05], 1),
            (&[0x0F, 0x15], 2),
            (&[0x45, 0xB4], 2),
            (&report(EVENT)[..15], 1),
            (&with_event(0x04C4, EVENT)[..15], 1),
            (&of_zero, 3),
            (&too_long, 4),
            (&with_event(0x0F14, EVENT)[..16], 4),
            (&unlike, 5),
            (&with_event(0x04C4, EVENT), 15),
        ] {
            assert_eq!(gateway.why(0, 1, bytes), Err(refusal));
            assert_eq!(gateway.why(0, 0, bytes), Err(refusal));
        }
    }

    /// 01-scope, Messages, "An event report, where one comes in, is 05B4 or 0F14": 15 for all others.
    #[test]
    fn what_is_no_report() {
        let whole = four(&[line(2, 7, 0, 64)], &[2]);
        for mti in [0x04C4, 0x04A4, 0x04C6, 0x0544, 0x0594, 0x15B4, 0x2F14] {
            assert_eq!(whole.why(0, 2, &with_event(mti, EVENT)), Err(15));
        }
        let restart = [1, 0, 0, 0, 0, 0, 0, 9, 0, 0, 0, 0, 0, 9];
        assert_eq!(whole.why(0, 2, &restart), Err(15));
        assert_eq!(whole.why(2, 2, &restart), Err(15));
    }

    /// 01-scope, Refusal numbers: port 7 of 8 is there, 8 is not, wherever it stands.
    #[test]
    fn ports_at_the_limit() {
        let (eight, _) = Gateway::start(8, HOUSE_NUMBER);
        assert_eq!(eight.why(7, 7, &report(EVENT)), Ok(Reason::Arrival));
        assert_eq!(eight.why(0, 7, &report(EVENT)), Ok(Reason::Nothing));
        assert_eq!(eight.why(0, 8, &report(EVENT)), Err(8));
        assert_eq!(eight.why(8, 0, &report(EVENT)), Err(8));
        let (refused, _) = Gateway::start(9, HOUSE_NUMBER);
        assert_eq!(refused.why(0, 0, &report(EVENT)), Err(7));
    }

    /// 01-scope, Refusal numbers, 7: a list of another length, before all else.
    #[test]
    fn lengths_of_lists() {
        let gateway = four(&[], &[]);
        let asked = |lengths, asked, bytes: &[u8]| gateway.why_on_lists(lengths, 0, asked, bytes);
        let right = [256, 256, 256, 256, 256, 9];
        assert_eq!(asked(right, 1, &report(EVENT)), Ok(Reason::Nothing));
        assert_eq!(asked(right, 4, &[]), Err(8));
        for list in 0..6 {
            for length in [0, 8, 10, 255, 257] {
                let mut lengths = right;
                lengths[list] = length;
                assert_eq!(asked(lengths, 1, &report(EVENT)), Err(7));
                assert_eq!(asked(lengths, 4, &[]), Err(7));
            }
        }
    }

    /// 02, W1: in any history a report is sent to a port exactly when the reason is the second, third or fourth; nothing is asked of a refused one.
    #[test]
    fn sent_exactly_when() {
        let mut seen = [0; 6];
        for index in 0..150 {
            let mut dice = Dice::of_input(3, 1, index);
            let ports = dice.between(2, 8) as u8;
            let automatic = Area::any_automatic(&mut dice);
            let (mut gateway, _) = Gateway::start(u32::from(ports), automatic.number);
            for arrival in any_history(&mut dice, ports, automatic) {
                let before = gateway.clone();
                let outcome = gateway.receive(u32::from(arrival.port), &arrival.bytes);
                for asked in 0..u32::from(ports) {
                    match before.why(u32::from(arrival.port), asked, &arrival.bytes) {
                        Ok(reason) => {
                            assert_eq!(outcome.refusal, 0);
                            assert_eq!(outcome.sent.contains(&asked), reason.is_sent());
                            seen[usize::from(reason.number())] += 1;
                        }
                        Err(15) => assert_eq!(outcome.refusal, 0),
                        Err(refusal) => assert_eq!(outcome.refusal, refusal),
                    }
                }
            }
        }
        assert!(seen[1..].iter().all(|times| *times > 100), "{seen:?}");
    }
}
