//! The box and the boards once more, written from the documents alone and without the Rattle code: what the judge compares with.
//! `judging` is the judge itself.
//!
//! The comments name the documents: "00-order" is document 00, "01-scope" document 01, "02" the change requests of document 02, "001" the Event
//! Transport Standard of July 2024, "003" the Message Network draft, "BOARD-FILES" the page docs/BOARD-FILES.md, "TRIAL-CASES" docs/TRIAL-CASES.md, "CASE-FILES" docs/CASE-FILES.md,
//! "FRAME-FILES" docs/FRAME-FILES.md.

pub mod aliases;
pub mod board;
pub mod call;
pub mod can;
pub mod case_file;
pub mod explain;
pub mod frame_file;
pub mod gateway;
pub mod gateway_cases;
pub mod index;
pub mod joining;
pub mod judging;
pub mod lent_board;
pub mod lent_box;
pub mod lent_can;
pub mod lent_message;
pub mod lent_range;
pub mod message;
pub mod meter_cases;
pub mod meters;
pub mod meters_text;
pub mod node;
pub mod node_cases;
#[cfg(feature = "proved")]
pub mod proved;
pub mod range;
pub mod report;
pub mod rest;
pub mod trial;
pub mod trial_cases;
pub mod why;
pub mod why_text;

/// The refusal numbers (01-scope, Refusal numbers).
pub mod refusal {
    /// Not refused.
    pub const NONE: u8 = 0;
    /// Under 2 bytes, or too few for the fields the MTI flags.
    pub const TOO_SHORT: u8 = 1;
    /// MTI bit 15 or 14 set, or 0F15, or 0F16.
    pub const MTI: u8 = 2;
    /// A present or own Node ID is zero or above 48 bits.
    pub const NODE_ID: u8 = 3;
    /// Content length not in the table; when writing, also a field against its flag.
    pub const CONTENT: u8 = 4;
    /// Initialization Complete content is not the source.
    pub const NOT_SOURCE: u8 = 5;
    /// The output is shorter than what must be written.
    pub const ROOM: u8 = 6;
    /// State out of bounds, or over 64 slots.
    pub const BOUNDS: u8 = 7;
    /// Port not below the port count; at start, port count not 2 to 8.
    pub const PORT: u8 = 8;
    /// Node not Initialized.
    pub const NOT_INITIALIZED: u8 = 9;
    /// No such slot, or a status to be set that isn't one of the three.
    pub const NO_SLOT: u8 = 10;
    /// Slot is not a producer.
    pub const NOT_PRODUCER: u8 = 11;
    /// Slot is not Advertised.
    pub const NOT_ADVERTISED: u8 = 12;
    /// Replies would pass 1,024 bytes.
    pub const REPLIES: u8 = 13;
    /// No range number; in other range calls, no block.
    pub const NO_RANGE: u8 = 14;
    /// The message isn't an event report (02, W1).
    pub const NO_REPORT: u8 = 15;
    /// An alias or a sender that is not in the list (02, W3).
    pub const NOT_LISTED: u8 = 16;
    /// A continuation without a start (02, W3).
    pub const NOT_BEGUN: u8 = 17;
    /// A payload over 256 bytes (02, W3).
    pub const PAYLOAD: u8 = 18;
    /// A frame of the wrong length (02, W3).
    pub const FRAME_LENGTH: u8 = 19;
    /// A start from a third sender while two are unfinished (02, W3).
    pub const THIRD_SENDER: u8 = 20;
    /// Any other header, or a message to split that is no event report (02, W3).
    pub const NOT_FOR_CAN: u8 = 29;
}
