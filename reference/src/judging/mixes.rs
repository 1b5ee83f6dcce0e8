//! What histories are made of.

/// How often each thing happens, as weights, and how many messages in a hundred are damaged.
pub struct Mix {
    pub announcement: u64,
    pub range: u64,
    /// An announcement near a line that is there: covered by it, holding it, or beside it.
    pub nested: u64,
    pub report: u64,
    pub restart: u64,
    /// Some messages at once: a board moves.
    pub moving: u64,
    pub repetition: u64,
    pub other: u64,
    pub damaged: u64,
}

/// Everything at times.
pub const EVEN: Mix = Mix {
    announcement: 25,
    range: 10,
    nested: 10,
    report: 30,
    restart: 8,
    moving: 8,
    repetition: 7,
    other: 20,
    damaged: 20,
};
/// Mostly announcements, so that the table fills.
pub const FILLING: Mix = Mix {
    announcement: 88,
    range: 6,
    nested: 0,
    report: 3,
    restart: 0,
    moving: 0,
    repetition: 2,
    other: 1,
    damaged: 2,
};
/// What a full table goes through; a restart takes a node's lines at every port, and a wide range those of a node at a port, so that more of them would keep the
/// table from being full again.
pub const AT_THE_LIMIT: Mix = Mix {
    announcement: 80,
    range: 8,
    nested: 14,
    report: 60,
    restart: 3,
    moving: 3,
    repetition: 24,
    other: 8,
    damaged: 5,
};
/// Ranges and reports at their edges.
pub const RANGES: Mix = Mix {
    announcement: 5,
    range: 35,
    nested: 5,
    report: 50,
    restart: 3,
    moving: 4,
    repetition: 5,
    other: 2,
    damaged: 3,
};
/// Announcements near the lines that are there, and reports at the edges.
pub const NESTED: Mix = Mix {
    announcement: 6,
    range: 4,
    nested: 60,
    report: 25,
    restart: 2,
    moving: 2,
    repetition: 5,
    other: 2,
    damaged: 4,
};
