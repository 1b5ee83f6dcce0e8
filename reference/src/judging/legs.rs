//! The rows of a CAN leg (02, W3).

/// The payload lengths of a split on which another frame, or another length of the last one, begins or ends.
pub const SPLIT_LENGTHS: [usize; 9] = [0, 1, 7, 8, 9, 16, 17, 255, 256];
/// The ways for a list of aliases or a joining state to be out of bounds.
pub const CAN_WAYS: [&str; 9] = [
    "list out of bounds: over 128 pairs",
    "list out of bounds: an alias above FFF",
    "list out of bounds: a Node ID",
    "list out of bounds: an alias twice",
    "list out of bounds: a Node ID twice",
    "list out of bounds: unequal lists",
    "joining out of bounds: over two senders",
    "joining out of bounds: a sender twice",
    "joining out of bounds: over 256 bytes",
];
/// How many ways there are.
pub const CAN_WAY_COUNT: usize = CAN_WAYS.len();
/// The first of the ways that no file can have.
pub const FIRST_OF_CALLS: usize = 5;
/// The first of the ways that are of the joining state.
pub const FIRST_OF_STATE: usize = 6;

/// What can be seen of a CAN leg beside the answers (02, W3).
#[derive(Clone, Copy, PartialEq, Eq, PartialOrd, Ord, Debug)]
pub enum Leg {
    WholeHandedOut,
    PayloadHandedOut,
    ShortestHandedOut,
    LongestHandedOut,
    TwoAtOnce,
    BesideThird,
    OldDropped,
    FirstOfTwoDropped,
    WholeBetween,
    AfterFirstLost,
    AfterMiddleLost,
    AfterLastLost,
    AfterTooLong,
    KeptBesideTooLong,
    UnusedBytes,
    ExactRoom,
    OneByteShort,
    TooLongToSplit,
    SplitThenJoined,
}

impl Leg {
    /// All of them, in the order of the table.
    pub const ALL: [Leg; 19] = [
        Leg::WholeHandedOut,
        Leg::PayloadHandedOut,
        Leg::ShortestHandedOut,
        Leg::LongestHandedOut,
        Leg::TwoAtOnce,
        Leg::BesideThird,
        Leg::OldDropped,
        Leg::FirstOfTwoDropped,
        Leg::WholeBetween,
        Leg::AfterFirstLost,
        Leg::AfterMiddleLost,
        Leg::AfterLastLost,
        Leg::AfterTooLong,
        Leg::KeptBesideTooLong,
        Leg::UnusedBytes,
        Leg::ExactRoom,
        Leg::OneByteShort,
        Leg::TooLongToSplit,
        Leg::SplitThenJoined,
    ];

    /// What its row is called.
    pub fn label(self) -> &'static str {
        match self {
            Leg::WholeHandedOut => "handed out: 05B4",
            Leg::PayloadHandedOut => "handed out: 0F14",
            Leg::ShortestHandedOut => "handed out: one byte of payload",
            Leg::LongestHandedOut => "handed out: 256 bytes of payload",
            Leg::TwoAtOnce => "handed out: both of two at once",
            Leg::BesideThird => "handed out though a third came between",
            Leg::OldDropped => "start that drops an unfinished message",
            Leg::FirstOfTwoDropped => "start that drops the first of two",
            Leg::WholeBetween => "05B4 of a sender that is unfinished",
            Leg::AfterFirstLost => "handed out after one without first frame",
            Leg::AfterMiddleLost => "handed out after one without a middle frame",
            Leg::AfterLastLost => "handed out after one without last frame",
            Leg::AfterTooLong => "handed out after refusal 18",
            Leg::KeptBesideTooLong => "refusal 18 beside another sender's message",
            Leg::UnusedBytes => "data bytes past the length that are not 0",
            Leg::ExactRoom => "split: into the room that it needs",
            Leg::OneByteShort => "split: a byte of room too few",
            Leg::TooLongToSplit => "split: refused 257 bytes of payload",
            Leg::SplitThenJoined => "split, then joined",
        }
    }
}
