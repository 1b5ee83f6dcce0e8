//! The rows of announcements beside the lines of their port and node: such as are covered, such as replace lines, and such as are new (02, W4).

/// What can be seen of an announcement beside the lines that are there, and of a table that is given.
#[derive(Clone, Copy, PartialEq, Eq, PartialOrd, Ord, Debug)]
pub enum Cover {
    Equal,
    EventInside,
    BlockInside,
    InsideEveryEvent,
    CoveredInFull,
    ReplacedOne,
    ReplacedSeveral,
    ReplacedBeforeOthers,
    ReplacedByEveryEvent,
    ReplacedInFull,
    ReplacedOneInFull,
    OverOtherNode,
    OverOtherPort,
    UnderOtherNode,
    UnderOtherPort,
    BesideOtherHalf,
    BetweenHalves,
    MetFull,
    CoveredAndOver,
    GivenNested,
    GivenEqual,
}

impl Cover {
    /// All of them, in the order of the table.
    pub const ALL: [Cover; 21] = [
        Cover::Equal,
        Cover::EventInside,
        Cover::BlockInside,
        Cover::InsideEveryEvent,
        Cover::CoveredInFull,
        Cover::ReplacedOne,
        Cover::ReplacedSeveral,
        Cover::ReplacedBeforeOthers,
        Cover::ReplacedByEveryEvent,
        Cover::ReplacedInFull,
        Cover::ReplacedOneInFull,
        Cover::OverOtherNode,
        Cover::OverOtherPort,
        Cover::UnderOtherNode,
        Cover::UnderOtherPort,
        Cover::BesideOtherHalf,
        Cover::BetweenHalves,
        Cover::MetFull,
        Cover::CoveredAndOver,
        Cover::GivenNested,
        Cover::GivenEqual,
    ];

    /// What its row is called.
    pub fn label(self) -> &'static str {
        match self {
            Cover::Equal => "not stored: equal to a line",
            Cover::EventInside => "not stored: an event inside a line",
            Cover::BlockInside => "not stored: a block inside a line",
            Cover::InsideEveryEvent => "not stored: a line has every event",
            Cover::CoveredInFull => "not stored: in a full table",
            Cover::ReplacedOne => "replaced one line",
            Cover::ReplacedSeveral => "replaced several lines",
            Cover::ReplacedBeforeOthers => "replaced a line that stood before others",
            Cover::ReplacedByEveryEvent => "replaced by every event",
            Cover::ReplacedInFull => "replaced in a full table",
            Cover::ReplacedOneInFull => "replaced one line in a full table",
            Cover::OverOtherNode => "replaced, not another node's line below it",
            Cover::OverOtherPort => "replaced, not another port's line below it",
            Cover::UnderOtherNode => "stored: another node's line is above it",
            Cover::UnderOtherPort => "stored: another port's line is above it",
            Cover::BesideOtherHalf => "stored: the other half is a line",
            Cover::BetweenHalves => "replaced both of its halves",
            Cover::MetFull => "new in a full table",
            Cover::CoveredAndOver => "not stored: and over another line",
            Cover::GivenNested => "given tables with nested lines",
            Cover::GivenEqual => "given tables with equal lines",
        }
    }

    /// Whether only a table that is given can have it: none that comes from a start does.
    pub fn is_of_given_tables(self) -> bool {
        matches!(
            self,
            Cover::CoveredAndOver | Cover::GivenNested | Cover::GivenEqual
        )
    }
}
