//! Reading and writing of messages (01-scope, Messages; 003 section 3.1; 001 section 4).

use crate::range;
use crate::refusal;

/// The status an Identified message carries (001 sections 4.3 and 4.6).
#[derive(Clone, Copy, Debug, PartialEq, Eq)]
pub enum Status {
    Valid,
    Invalid,
    Unknown,
}

/// What a message is, by its MTI (01-scope, Messages, the table).
#[derive(Clone, Copy, Debug, PartialEq, Eq)]
pub enum Kind {
    InitializationComplete,
    EventReport,
    EventReportWithPayload,
    IdentifyConsumer,
    IdentifyProducer,
    ConsumerIdentified(Status),
    ProducerIdentified(Status),
    ConsumerRangeIdentified,
    ProducerRangeIdentified,
    IdentifyEventsGlobal,
    IdentifyEventsAddressed,
    LearnEvent,
    Other,
}

/// The fields of a message before its content (01-scope, Messages, the byte layout).
#[derive(Clone, Debug, PartialEq, Eq)]
pub struct Message {
    pub mti: u16,
    pub source: u64,
    pub destination: Option<u64>,
    pub event: Option<u64>,
}

/// The kind of an MTI, or refusal 2 (01-scope, Messages, the table; Refusal numbers, 2).
pub fn kind_of(mti: u16) -> Result<Kind, u8> {
    if mti & 0x8000 != 0 || mti & 0x4000 != 0 {
        return Err(refusal::MTI);
    }
    let kind = match mti {
        0x0F15 | 0x0F16 => return Err(refusal::MTI),
        0x0100 | 0x0110 => Kind::InitializationComplete,
        0x05B4 => Kind::EventReport,
        0x0F14 => Kind::EventReportWithPayload,
        0x08F4 => Kind::IdentifyConsumer,
        0x0914 => Kind::IdentifyProducer,
        0x04C4 => Kind::ConsumerIdentified(Status::Valid),
        0x04C5 => Kind::ConsumerIdentified(Status::Invalid),
        0x04C7 => Kind::ConsumerIdentified(Status::Unknown),
        0x0544 => Kind::ProducerIdentified(Status::Valid),
        0x0545 => Kind::ProducerIdentified(Status::Invalid),
        0x0547 => Kind::ProducerIdentified(Status::Unknown),
        0x04A4 => Kind::ConsumerRangeIdentified,
        0x0524 => Kind::ProducerRangeIdentified,
        0x0970 => Kind::IdentifyEventsGlobal,
        0x0968 => Kind::IdentifyEventsAddressed,
        0x0594 => Kind::LearnEvent,
        _ => Kind::Other,
    };
    Ok(kind)
}

/// Whether the MTI flags a destination, bit 3 (01-scope, Messages; 003 section 3.1.1).
pub fn has_destination(mti: u16) -> bool {
    mti & 0x0008 != 0
}

/// Whether the MTI flags an Event ID, bit 2 (01-scope, Messages; 003 section 3.1.1).
pub fn has_event(mti: u16) -> bool {
    mti & 0x0004 != 0
}

/// How many bytes stand before the content (01-scope, Messages, the byte layout).
pub fn header_length(mti: u16) -> usize {
    let mut length = 2 + 6;
    if has_destination(mti) {
        length += 6;
    }
    if has_event(mti) {
        length += 8;
    }
    length
}

/// Whether the table allows this content length (01-scope, Messages, the table).
fn content_length_allowed(kind: Kind, length: usize) -> bool {
    match kind {
        Kind::InitializationComplete => length == 6,
        Kind::EventReportWithPayload => (1..=256).contains(&length),
        Kind::Other => length <= 72,
        Kind::EventReport
        | Kind::IdentifyConsumer
        | Kind::IdentifyProducer
        | Kind::ConsumerIdentified(_)
        | Kind::ProducerIdentified(_)
        | Kind::ConsumerRangeIdentified
        | Kind::ProducerRangeIdentified
        | Kind::IdentifyEventsGlobal
        | Kind::IdentifyEventsAddressed
        | Kind::LearnEvent => length == 0,
    }
}

/// Whether a Node ID may stand: not zero, not above 48 bits (01-scope, Refusal numbers, 3).
pub fn is_node_id(id: u64) -> bool {
    id != 0 && id <= 0xFFFF_FFFF_FFFF
}

/// A number from bytes, high byte first (01-scope, Messages).
pub fn number(bytes: &[u8]) -> u64 {
    let mut value = 0;
    for byte in bytes {
        value = value * 256 + u64::from(*byte);
    }
    value
}

/// The six bytes of a Node ID, high byte first (01-scope, Messages).
pub fn node_id_bytes(id: u64) -> Vec<u8> {
    id.to_be_bytes()[2..].to_vec()
}

/// Reads a message: 1 for under 2 bytes, 2, 1 for missing fields, 3, 4, 5 (01-scope, Refusal numbers, order).
pub fn read(bytes: &[u8]) -> Result<Message, u8> {
    if bytes.len() < 2 {
        return Err(refusal::TOO_SHORT);
    }
    let mti = u16::from_be_bytes([bytes[0], bytes[1]]);
    let kind = kind_of(mti)?;
    if bytes.len() < header_length(mti) {
        return Err(refusal::TOO_SHORT);
    }
    let source = number(&bytes[2..8]);
    let mut next = 8;
    let mut destination = None;
    if has_destination(mti) {
        destination = Some(number(&bytes[next..next + 6]));
        next += 6;
    }
    let mut event = None;
    if has_event(mti) {
        event = Some(number(&bytes[next..next + 8]));
    }
    let message = Message {
        mti,
        source,
        destination,
        event,
    };
    check(&message, kind, &bytes[header_length(mti)..])?;
    Ok(message)
}

/// The content of a message that was read (01-scope, Messages, "then content").
pub fn content_of(bytes: &[u8]) -> Result<&[u8], u8> {
    let message = read(bytes)?;
    Ok(&bytes[header_length(message.mti)..])
}

/// Refusals 3, 4 and 5 in that order, as reading and writing share them (01-scope, Refusal numbers, order).
fn check(message: &Message, kind: Kind, content: &[u8]) -> Result<(), u8> {
    if !is_node_id(message.source) {
        return Err(refusal::NODE_ID);
    }
    if let Some(destination) = message.destination {
        if !is_node_id(destination) {
            return Err(refusal::NODE_ID);
        }
    }
    if message.destination.is_some() != has_destination(message.mti) {
        return Err(refusal::CONTENT);
    }
    if message.event.is_some() != has_event(message.mti) {
        return Err(refusal::CONTENT);
    }
    if !content_length_allowed(kind, content.len()) {
        return Err(refusal::CONTENT);
    }
    if kind == Kind::InitializationComplete && content != node_id_bytes(message.source) {
        return Err(refusal::NOT_SOURCE);
    }
    Ok(())
}

/// Writes a message into an output of `room` bytes: 2, 3, 4, 5, 6 (01-scope, Refusal numbers, order).
pub fn write(message: &Message, content: &[u8], room: usize) -> Result<Vec<u8>, u8> {
    let kind = kind_of(message.mti)?;
    check(message, kind, content)?;
    let mut bytes = Vec::new();
    bytes.extend(message.mti.to_be_bytes());
    bytes.extend(node_id_bytes(message.source));
    if let Some(destination) = message.destination {
        bytes.extend(node_id_bytes(destination));
    }
    if let Some(event) = message.event {
        bytes.extend(event.to_be_bytes());
    }
    bytes.extend(content);
    if bytes.len() > room {
        return Err(refusal::ROOM);
    }
    Ok(bytes)
}

/// The event of an event report, 05B4 or 0F14 (01-scope, Messages, "An event report").
pub fn reported_event(message: &Message) -> Option<u64> {
    match kind_of(message.mti) {
        Ok(Kind::EventReport | Kind::EventReportWithPayload) => message.event,
        _ => None,
    }
}

/// The block a message announces: Consumer Identified one event, Consumer Range its block (01-scope, Gateway).
pub fn announced_block(message: &Message) -> Option<(u64, u32)> {
    match kind_of(message.mti) {
        Ok(Kind::ConsumerIdentified(_)) => message.event.map(|event| (event, 0)),
        Ok(Kind::ConsumerRangeIdentified) => message.event.map(range::block_of),
        _ => None,
    }
}

/// Whether the message is an Initialization Complete (01-scope, Messages, the table).
pub fn is_initialization_complete(message: &Message) -> bool {
    kind_of(message.mti) == Ok(Kind::InitializationComplete)
}

#[cfg(test)]
mod tests {
    use super::*;

    const SOURCE: u64 = 0x0A0000000001;

    fn bytes(mti: u16, rest: usize) -> Vec<u8> {
        let mut all = mti.to_be_bytes().to_vec();
        all.extend(node_id_bytes(SOURCE));
        all.extend(vec![0x55; rest]);
        all
    }

    fn plain(mti: u16) -> Message {
        Message {
            mti,
            source: SOURCE,
            destination: has_destination(mti).then_some(0x0A0000000002),
            event: has_event(mti).then_some(0x0A00000000010001),
        }
    }

    /// 01-scope, Messages, the table; 001 sections 4.1 to 4.9: kind, flags, content limits.
    #[test]
    fn mti_table() {
        use Kind::*;
        let table: [(u16, Kind, bool, bool, usize, usize); 18] = [
            (0x0100, InitializationComplete, false, false, 6, 6),
            (0x0110, InitializationComplete, false, false, 6, 6),
            (0x05B4, EventReport, false, true, 0, 0),
            (0x0F14, EventReportWithPayload, false, true, 1, 256),
            (0x08F4, IdentifyConsumer, false, true, 0, 0),
            (0x0914, IdentifyProducer, false, true, 0, 0),
            (0x04C4, ConsumerIdentified(Status::Valid), false, true, 0, 0),
            (
                0x04C5,
                ConsumerIdentified(Status::Invalid),
                false,
                true,
                0,
                0,
            ),
            (
                0x04C7,
                ConsumerIdentified(Status::Unknown),
                false,
                true,
                0,
                0,
            ),
            (0x0544, ProducerIdentified(Status::Valid), false, true, 0, 0),
            (
                0x0545,
                ProducerIdentified(Status::Invalid),
                false,
                true,
                0,
                0,
            ),
            (
                0x0547,
                ProducerIdentified(Status::Unknown),
                false,
                true,
                0,
                0,
            ),
            (0x04A4, ConsumerRangeIdentified, false, true, 0, 0),
            (0x0524, ProducerRangeIdentified, false, true, 0, 0),
            (0x0970, IdentifyEventsGlobal, false, false, 0, 0),
            (0x0968, IdentifyEventsAddressed, true, false, 0, 0),
            (0x0594, LearnEvent, false, true, 0, 0),
            (0x0490, Other, false, false, 0, 72),
        ];
        for (mti, kind, destination, event, least, most) in table {
            assert_eq!(kind_of(mti), Ok(kind), "{mti:04X}");
            assert_eq!(has_destination(mti), destination, "{mti:04X}");
            assert_eq!(has_event(mti), event, "{mti:04X}");
            for length in 0..300 {
                let allowed = least <= length && length <= most;
                assert_eq!(content_length_allowed(kind, length), allowed);
            }
        }
    }

    /// 003 section 3.1.1 and appendix 1: the flags of its own MTIs, each "other" here.
    #[test]
    fn mti_of_document_003() {
        for (mti, destination) in [
            (0x0498, true),
            (0x0490, false),
            (0x0160, false),
            (0x0170, false),
            (0x0068, true),
            (0x00A8, true),
            (0x0828, true),
            (0x0668, true),
        ] {
            assert_eq!(kind_of(mti), Ok(Kind::Other));
            assert_eq!(has_destination(mti), destination);
            assert!(!has_event(mti));
        }
    }

    /// 01-scope, Messages: 04C6 and 0546 are other and announce nothing; 0F15 and 0F16 are refused.
    #[test]
    fn near_misses() {
        assert_eq!(kind_of(0x04C6), Ok(Kind::Other));
        assert_eq!(kind_of(0x0546), Ok(Kind::Other));
        assert_eq!(announced_block(&plain(0x04C6)), None);
        assert_eq!(kind_of(0x0F15), Err(2));
        assert_eq!(kind_of(0x0F16), Err(2));
        assert_eq!(kind_of(0x4100), Err(2));
        assert_eq!(kind_of(0x8100), Err(2));
        assert_eq!(kind_of(0x15B4), Ok(Kind::Other));
        assert_eq!(kind_of(0x25B4), Ok(Kind::Other));
        assert_eq!(header_length(0x35B4), 16);
    }

    /// 01-scope, Refusal numbers, "Both sides of limits".
    #[test]
    fn both_sides_of_limits() {
        assert!(read(&bytes(0x0F14, 8 + 256)).is_ok());
        assert_eq!(read(&bytes(0x0F14, 8 + 257)), Err(4));
        assert_eq!(read(&bytes(0x0F14, 8)), Err(4));
        assert!(read(&bytes(0x0490, 72)).is_ok());
        assert_eq!(read(&bytes(0x0490, 73)), Err(4));
        assert_eq!(bytes(0x05B4, 8).len(), 16);
        assert!(read(&bytes(0x05B4, 8)).is_ok());
        assert_eq!(read(&bytes(0x05B4, 7)), Err(1));
        assert_eq!(read(&bytes(0x05B4, 9)), Err(4));
        assert_eq!(bytes(0x0100, 0).len(), 8);
        assert_eq!(read(&bytes(0x0100, 0)), Err(4));
        let mut highest = 0x0490u16.to_be_bytes().to_vec();
        highest.extend([0xFF; 6]);
        assert_eq!(read(&highest).unwrap().source, 0xFFFFFFFFFFFF);
    }

    /// 01-scope, Refusal numbers, order when reading: 1, 2, 1, 3, 4, 5.
    #[test]
    fn reading_order() {
        assert_eq!(read(&[]), Err(1));
        assert_eq!(read(&[0xFF]), Err(1));
        assert_eq!(read(&[0xFF, 0xFF]), Err(2));
        assert_eq!(read(&[0x0F, 0x15]), Err(2));
        assert_eq!(read(&[0x05, 0xB4]), Err(1));
        assert_eq!(read(&[0x05, 0xB4, 0, 0, 0, 0, 0, 0]), Err(1));
        assert_eq!(read(&[0x01, 0x00, 0, 0, 0, 0, 0, 0]), Err(3));
        let mut addressed = bytes(0x0968, 0);
        addressed.extend([0; 6]);
        assert_eq!(read(&addressed), Err(3));
        addressed.push(0);
        assert_eq!(read(&addressed), Err(3));
        assert_eq!(read(&bytes(0x0100, 6)), Err(5));
        assert_eq!(read(&bytes(0x0110, 7)), Err(4));
    }

    /// 01-scope, Refusal numbers, order when writing: 2, 3, 4, 5, 6.
    #[test]
    fn writing_order() {
        let mut wrong = plain(0x8100);
        wrong.source = 0;
        assert_eq!(write(&wrong, &[0; 80], 0), Err(2));
        wrong.mti = 0x0100;
        wrong.event = Some(1);
        assert_eq!(write(&wrong, &[0; 80], 0), Err(3));
        wrong.source = 1 << 48;
        assert_eq!(write(&wrong, &[0; 80], 0), Err(3));
        wrong.source = SOURCE;
        wrong.destination = Some(0);
        assert_eq!(write(&wrong, &[0; 80], 0), Err(3));
        wrong.destination = Some(1);
        assert_eq!(write(&wrong, &[0; 6], 0), Err(4));
        wrong.destination = None;
        assert_eq!(write(&wrong, &[0; 6], 0), Err(4));
        wrong.event = None;
        assert_eq!(write(&wrong, &[0; 5], 0), Err(4));
        assert_eq!(write(&wrong, &[0; 6], 0), Err(5));
        assert_eq!(write(&wrong, &node_id_bytes(SOURCE), 13), Err(6));
        assert_eq!(write(&wrong, &node_id_bytes(SOURCE), 14).unwrap().len(), 14);
        let mut absent = plain(0x05B4);
        absent.event = None;
        assert_eq!(write(&absent, &[], 100), Err(4));
        let mut unaddressed = plain(0x0968);
        unaddressed.destination = None;
        assert_eq!(write(&unaddressed, &[], 100), Err(4));
    }

    /// 01-scope, Messages, the byte layout, and "0 and all ones are each written back as they were".
    #[test]
    fn layout_and_back() {
        let mut message = plain(0x3FFC);
        message.event = Some(0x1122334455667788);
        let written = write(&message, &[0xEE, 0xDD], 100).unwrap();
        let expected = [
            0x3F, 0xFC, 0x0A, 0, 0, 0, 0, 1, 0x0A, 0, 0, 0, 0, 2, 0x11, 0x22, 0x33, 0x44, 0x55,
            0x66, 0x77, 0x88, 0xEE, 0xDD,
        ];
        assert_eq!(written, expected);
        assert_eq!(read(&written), Ok(message));
        assert_eq!(content_of(&written), Ok(&[0xEE, 0xDD][..]));
        for event in [0, u64::MAX] {
            let mut range = plain(0x04A4);
            range.event = Some(event);
            let written = write(&range, &[], 16).unwrap();
            assert_eq!(read(&written), Ok(range.clone()));
            assert_eq!(announced_block(&range), Some((0, 64)));
        }
    }

    /// 00-order, demand 2: what is read is written back to the same bytes, over every MTI and many lengths, one of which every good MTI may have.
    #[test]
    fn every_mti_back() {
        for mti in 0..=u16::MAX {
            let mut was_read = false;
            for length in [0, 1, 5, 6, 7, 8, 13, 14, 20, 21, 72, 73, 264, 265] {
                let mut given = bytes(mti, length);
                if kind_of(mti) == Ok(Kind::InitializationComplete) && length == 6 {
                    given = bytes(mti, 0);
                    given.extend(node_id_bytes(SOURCE));
                }
                if let Ok(message) = read(&given) {
                    was_read = true;
                    let content = content_of(&given).unwrap();
                    let room = given.len();
                    assert_eq!(write(&message, content, room), Ok(given.clone()));
                    assert_eq!(write(&message, content, room - 1), Err(6));
                }
            }
            assert_eq!(was_read, kind_of(mti).is_ok(), "{mti:04X}");
        }
    }

    /// 01-scope, Gateway and Messages: what announces and what reports.
    #[test]
    fn announcements_and_reports() {
        let event = 0x0A00000000010001;
        for mti in 0..=0x3FFF {
            let message = plain(mti);
            let single = [0x04C4, 0x04C5, 0x04C7].contains(&mti);
            let range = mti == 0x04A4;
            let expected = if single {
                Some((event, 0))
            } else if range {
                Some((0x0A00000000010000, 1))
            } else {
                None
            };
            assert_eq!(announced_block(&message), expected, "{mti:04X}");
            let report = mti == 0x05B4 || mti == 0x0F14;
            assert_eq!(reported_event(&message), report.then_some(event));
            let complete = mti == 0x0100 || mti == 0x0110;
            assert_eq!(is_initialization_complete(&message), complete);
        }
    }
}
