use super::*;
use crate::gateway::Line;
use crate::trial::HOUSE_NUMBER;

const EVENT: u64 = 0x0A00000000010001;
const AUTOMATIC: u64 = 0x0100000000000001;
const MOST: u32 = 4_294_967_295;

/// A message of node 0A0000000001, written out by hand.
fn message(mti: u16, event: Option<u64>, content: &[u8]) -> Vec<u8> {
    let mut bytes = mti.to_be_bytes().to_vec();
    bytes.extend([0x0A, 0, 0, 0, 0, 1]);
    bytes.extend(event.map(u64::to_be_bytes).into_iter().flatten());
    bytes.extend(content);
    bytes
}

fn report(event: u64) -> Vec<u8> {
    message(0x05B4, Some(event), &[])
}

fn started(ports: u32) -> Gateway {
    Gateway::start(ports, HOUSE_NUMBER).0
}

/// A meter without a mark.
fn meter(counts: [u32; COUNTS]) -> Meter {
    Meter {
        counts,
        marked: false,
    }
}

/// These meters, and all zero at the ports after them.
fn meters_of<const N: usize>(counts: [[u32; COUNTS]; N]) -> Meters {
    let mut meters = Meters::default();
    for (place, counts) in meters.iter_mut().zip(counts) {
        *place = meter(counts);
    }
    meters
}

/// 02, W7: an announcement is accepted and no more; a report is in at its own port, and sent or held back at the others, not at ports that the box does not have.
#[test]
fn a_report_at_every_port() {
    let mut gateway = started(4);
    let mut meters = Meters::default();
    let announcement = message(0x04C4, Some(EVENT), &[]);
    assert_eq!(
        receive(&mut gateway, &mut meters, 2, &announcement).refusal,
        0
    );
    assert_eq!(meters, meters_of([[0; 5], [0; 5], [1, 0, 0, 0, 0]]));
    let outcome = receive(&mut gateway, &mut meters, 0, &report(EVENT));
    assert_eq!(outcome.sent, BTreeSet::from([2]));
    let once = [
        [1, 0, 1, 0, 0],
        [0, 0, 0, 0, 1],
        [1, 0, 0, 1, 0],
        [0, 0, 0, 0, 1],
    ];
    assert_eq!(meters, meters_of(once));
    receive(&mut gateway, &mut meters, 2, &report(EVENT));
    let twice = [
        [1, 0, 1, 0, 1],
        [0, 0, 0, 0, 2],
        [2, 0, 1, 1, 0],
        [0, 0, 0, 0, 2],
    ];
    assert_eq!(meters, meters_of(twice));
}

/// 02, W7: a report with payload is a report; one of an automatic event is sent to all others; an open port is sent everything.
#[test]
fn which_reports() {
    let mut gateway = started(3);
    let mut meters = Meters::default();
    receive(
        &mut gateway,
        &mut meters,
        1,
        &message(0x0F14, Some(EVENT), &[7]),
    );
    assert_eq!(
        meters,
        meters_of([[0, 0, 0, 0, 1], [1, 0, 1, 0, 0], [0, 0, 0, 0, 1]])
    );
    receive(&mut gateway, &mut meters, 1, &report(AUTOMATIC));
    assert_eq!(
        meters,
        meters_of([[0, 0, 0, 1, 1], [2, 0, 2, 0, 0], [0, 0, 0, 1, 1]])
    );
    gateway.open.insert(0);
    receive(&mut gateway, &mut meters, 2, &report(EVENT));
    assert_eq!(
        meters,
        meters_of([[0, 0, 0, 2, 1], [2, 0, 2, 0, 1], [1, 0, 1, 1, 1]])
    );
}

/// 02, W7: what is no report is accepted at its port and on no other count, wherever it is sent; 15B4 and 04C6 are other messages.
#[test]
fn what_is_no_report() {
    let restart = message(0x0100, None, &[0x0A, 0, 0, 0, 0, 1]);
    for bytes in [
        restart,
        message(0x0970, None, &[]),
        message(0x08F4, Some(EVENT), &[]),
        message(0x04A4, Some(EVENT), &[]),
        message(0x0544, Some(EVENT), &[]),
        message(0x0594, Some(EVENT), &[]),
        message(0x04C6, Some(EVENT), &[]),
        message(0x15B4, Some(EVENT), &[]),
    ] {
        let mut meters = Meters::default();
        let outcome = receive(&mut started(3), &mut meters, 1, &bytes);
        assert_eq!(outcome.sent, BTreeSet::from([0, 2]));
        assert_eq!(meters, meters_of([[0; 5], [1, 0, 0, 0, 0]]));
    }
}

/// 02, W7: refusals 1 to 5 are counted at their port and change nothing else; 0F15 and a report of a wrong length are no reports.
#[test]
fn refused_messages() {
    let nobody = [&[0x05, 0xB4][..], &[0; 6], &EVENT.to_be_bytes()].concat();
    let mut gateway = started(2);
    let mut meters = Meters::default();
    for (refusal, bytes) in [
        (1, vec![0x05]),
        (1, report(EVENT)[..15].to_vec()),
        (2, message(0x0F15, Some(EVENT), &[1])),
        (2, message(0x85B4, Some(EVENT), &[])),
        (3, nobody),
        (4, message(0x05B4, Some(EVENT), &[1])),
        (5, message(0x0100, None, &[0x0A, 0, 0, 0, 0, 2])),
    ] {
        let before = (gateway.clone(), meters);
        let outcome = receive(&mut gateway, &mut meters, 1, &bytes);
        assert_eq!((outcome.refusal, outcome.sent.len()), (refusal, 0));
        assert_eq!(gateway, before.0);
        let mut counted = before.1;
        counted[1].counts[1] += 1;
        assert_eq!(meters, counted);
    }
    assert_eq!(meters[1], meter([0, 7, 0, 0, 0]));
}

/// 02, W7: a call refused with 7 or 8 is on no meter, whether or not the message could be read.
#[test]
fn on_no_meter() {
    let mut full = meters_of([[MOST; 5]; 8]);
    for bytes in [report(EVENT), vec![], message(0x04C4, Some(EVENT), &[])] {
        let mut gateway = started(4);
        for port in [4, 7, 8, 255] {
            assert_eq!(
                receive(&mut gateway, &mut full, port, &bytes).refusal,
                refusal::PORT
            );
        }
        gateway.open.insert(4);
        for port in [0, 3, 4, 255] {
            assert_eq!(
                receive(&mut gateway, &mut full, port, &bytes).refusal,
                refusal::BOUNDS
            );
        }
        let mut wrong_index = started(4);
        let line = Line {
            port: 1,
            node: 7,
            start: 0,
            k: 3,
        };
        wrong_index.lines.push(line);
        assert_eq!(receive(&mut wrong_index, &mut full, 0, &bytes).refusal, 7);
    }
    assert_eq!(full, meters_of([[MOST; 5]; 8]));
}

/// 02, W7: each count goes up to 4,294,967,295 without a mark; the next stays there and marks its own meter, and the mark stays.
#[test]
fn at_the_limit() {
    // What counts up each of port 1's counts on a box of two ports, where it comes in, and all that it counts at port 1.
    let ways: [(Count, u32, Vec<u8>, &[Count]); 5] = [
        (
            Count::Accepted,
            1,
            message(0x0970, None, &[]),
            &[Count::Accepted],
        ),
        (Count::Refused, 1, vec![], &[Count::Refused]),
        (
            Count::ReportsIn,
            1,
            report(EVENT),
            &[Count::Accepted, Count::ReportsIn],
        ),
        (Count::Sent, 0, report(AUTOMATIC), &[Count::Sent]),
        (Count::HeldBack, 0, report(EVENT), &[Count::HeldBack]),
    ];
    for (what, port, bytes, counted) in ways {
        let mut gateway = started(2);
        let mut meters = Meters::default();
        meters[1].counts[what as usize] = MOST - 1;
        let mut expected = meters[1];
        for marked in [false, true, true] {
            receive(&mut gateway, &mut meters, port, &bytes);
            for also in counted {
                let count = &mut expected.counts[*also as usize];
                *count = if *also == what { MOST } else { *count + 1 };
            }
            expected.marked = marked;
            assert_eq!(meters[1], expected, "{what:?}");
            assert!(!meters[0].marked);
        }
        // The mark stays where other counts go up, and a refusal with 8 leaves all as it is.
        receive(&mut gateway, &mut meters, 2, &bytes);
        assert_eq!(meters[1], expected);
        meters[1].counts = [0; 5];
        receive(&mut gateway, &mut meters, 1, &report(EVENT));
        assert_eq!(
            (meters[1].counts, meters[1].marked),
            ([1, 0, 1, 0, 0], true)
        );
    }
}

/// 02, W7: one message can mark a meter by two counts, and several meters.
#[test]
fn several_at_the_limit() {
    let mut gateway = started(3);
    let mut meters = meters_of([[MOST; 5]; 8]);
    receive(&mut gateway, &mut meters, 1, &report(EVENT));
    assert_eq!(meters.map(|meter| meter.counts), [[MOST; 5]; 8]);
    let marked = meters.map(|meter| meter.marked);
    assert_eq!(
        marked,
        [true, true, true, false, false, false, false, false]
    );
    let mut meters = meters_of([[MOST; 5]; 8]);
    receive(&mut gateway, &mut meters, 1, &message(0x0970, None, &[]));
    assert_eq!(
        meters.map(|meter| meter.marked as u8),
        [0, 1, 0, 0, 0, 0, 0, 0]
    );
}

/// 02, W7: while no meter is marked, sent plus held back over all ports equals all reports in times the port count less one.
#[test]
fn the_sum() {
    for ports in 2..=8 {
        let mut gateway = started(ports);
        let mut meters = Meters::default();
        for step in 0..200 {
            let mti = [0x05B4, 0x04C4, 0x05B4, 0x0F14, 0x0544][step as usize % 5];
            let content: &[u8] = if mti == 0x0F14 { &[1] } else { &[] };
            let event = EVENT + u64::from(step % 7);
            receive(
                &mut gateway,
                &mut meters,
                step / 5 % (ports + 1),
                &message(mti, Some(event), content),
            );
        }
        let sum = |what: Count| {
            let counts = meters.iter().map(|meter| meter.counts[what as usize]);
            counts.sum::<u32>()
        };
        assert!(sum(Count::Sent) > 0 && sum(Count::HeldBack) > 0);
        assert_eq!(
            sum(Count::Sent) + sum(Count::HeldBack),
            sum(Count::ReportsIn) * (ports - 1)
        );
    }
}

/// 02, W7: to the nearest, halves up, exact where the sum passes 64 bits.
#[test]
fn shares() {
    for (held_back, of, tenths) in [
        (1, 2_000, 1),
        (1, 2_001, 0),
        (1, 1_999, 1),
        (3, 2_000, 2),
        (2, 2_000, 1),
        (1_999, 2_000, 1_000),
        (1_998, 2_000, 999),
        (2_000, 2_001, 1_000),
        (0, 1, 0),
        (0, u64::MAX, 0),
        (1, 1, 1_000),
        (u64::MAX, u64::MAX, 1_000),
        (1, 3, 333),
        (2, 3, 667),
        (613, 1_000, 613),
        (1, u64::MAX, 0),
    ] {
        assert_eq!(share_of(of - held_back, held_back), Some(tenths));
    }
    assert_eq!(share_of(0, 0), None);
    assert_eq!(share_of(u64::MAX, u64::MAX), Some(500));
    assert_eq!(share_of(u64::MAX, 1), Some(0));
    assert_eq!(share_of(1, u64::MAX), Some(1_000));
    // The sum of 2^64 + 2^61 is past 64 bits, and the ninth part of it is 111.1 tenths.
    assert_eq!(share_of(u64::MAX, (1 << 61) + 1), Some(111));
    // A half is 1 of 2,000, also where both are as great as they can be: 1,999 times this fits into 64 bits just so.
    let great = u64::MAX / 1_999;
    assert_eq!(share_of(1_999 * great, great), Some(1));
    assert_eq!(share_of(1_999 * great + 1, great), Some(0));
}
