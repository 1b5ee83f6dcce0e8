//! The ways for a box, its lists or a board to be out of bounds.

/// The ways for a box to be out of bounds.
pub const BOX_WAYS: [&str; 10] = [
    "box out of bounds: port count",
    "box out of bounds: line count",
    "box out of bounds: a line's port",
    "box out of bounds: a line's node",
    "box out of bounds: a line's k",
    "box out of bounds: a line's start",
    "box out of bounds: open mark",
    "box out of bounds: automatic k = 0",
    "box out of bounds: automatic k",
    "box out of bounds: automatic start",
];
/// How many ways there are.
pub const BOX_WAY_COUNT: usize = BOX_WAYS.len();
/// The lists of the box's call in place that are not as long as they should be.
pub const LENGTHS: [&str; 16] = [
    "list too short: nodes",
    "list too long: nodes",
    "list too short: starts",
    "list too long: starts",
    "list too short: ports",
    "list too long: ports",
    "list too short: sizes",
    "list too long: sizes",
    "list too short: all six",
    "list too long: all six",
    "order of no places",
    "order of 255 places",
    "order of 257 places",
    "no sets",
    "8 sets",
    "10 sets",
];
/// How many of these there are.
pub const LENGTH_COUNT: usize = LENGTHS.len();
/// The ways for a board to be out of bounds.
pub const BOARD_WAYS: [&str; 18] = [
    "board out of bounds: a role",
    "board out of bounds: a status",
    "board out of bounds: a mark",
    "board out of bounds: the state",
    "board out of bounds: Advertised too early",
    "board out of bounds: automatic k = 0",
    "board out of bounds: automatic k",
    "board out of bounds: automatic start",
    "board out of bounds: over 64 slots",
    "unequal lists: roles short",
    "unequal lists: roles long",
    "unequal lists: events short",
    "unequal lists: events long",
    "unequal lists: statuses short",
    "unequal lists: statuses long",
    "unequal lists: marks short",
    "unequal lists: marks long",
    "unequal lists: no two alike",
];
/// How many ways there are; those of unequal lists are the last.
pub const BOARD_WAY_COUNT: usize = BOARD_WAYS.len();
/// The first of the ways that only lists can be out of bounds in.
pub const FIRST_UNEQUAL: usize = 9;
