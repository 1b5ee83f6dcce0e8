//! Stands in for the archive's CAN side in tests of the judge: the reference itself, with a slip in a join, a split or a text, or without.

use crate::aliases::Aliases;
use crate::frame_file::{self, line_of, Step, BAD_FILE};
use crate::lent_can::{Frame, Gathered, Joined, Joining, Lists};
use crate::lent_message::{Message, Writing};
use crate::message;

use super::can_calls::{self, CanSide};
use super::command::{Amounts, Judge, Options};
use super::counts::{Column, Columns};
use super::frames;
use super::random::Dice;
use super::reached;
use super::rows::Row;
use super::sort::Sort;
use super::stand_in_joins::{self as joins, AskedToJoin};
use super::stand_in_splits::{self as splits, AskedToSplit};
use super::witness::Witness;

/// A slip in a text: what it makes of the right one, beside the file.
type TextSlip = fn(&[u8], &mut Vec<u8>);

/// A stand-in with a slip in each call, and whether it writes into what it only has to read.
pub struct StandIn {
    join: joins::Slip,
    split: splits::Slip,
    text: TextSlip,
    writes: bool,
}

/// One without a slip.
const SOUND: StandIn = StandIn {
    join: joins::none,
    split: splits::none,
    text: |_, _| {},
    writes: false,
};

impl StandIn {
    /// One with a slip in joining.
    pub fn with_join(join: joins::Slip) -> StandIn {
        StandIn { join, ..SOUND }
    }

    /// One with a slip in splitting.
    pub fn with_split(split: splits::Slip) -> StandIn {
        StandIn { split, ..SOUND }
    }

    fn joined(&self, list: &Aliases, state: &Joining, frame: Frame) -> Joined {
        let asked = AskedToJoin {
            list,
            state,
            frame: frame.frame(),
        };
        let mut joined = asked.rightly();
        (self.join)(&asked, &mut joined);
        joined
    }

    fn written(&self, list: &Aliases, message: Message, content: &[u8], out: &mut [u8]) -> Writing {
        let asked = AskedToSplit {
            list,
            message: message.fields(),
            content,
            before: out.to_vec(),
        };
        let mut writing = asked.rightly(out);
        (self.split)(&asked, &mut writing, out);
        writing
    }

    /// The text of a file, every step taken by these calls.
    fn text_of(&self, file: &[u8]) -> Vec<u8> {
        let Some((list, steps)) = frame_file::parts_of(file) else {
            return BAD_FILE.to_vec();
        };
        let mut state = Joining::EMPTY;
        let mut text = String::new();
        for (place, step) in steps.iter().enumerate() {
            let (refusal, bytes) = match step {
                Step::Join(frame) => {
                    let joined = self.joined(&list, &state, Frame::of(frame));
                    state = joined.state;
                    (joined.refusal, bytes_of(&joined))
                }
                Step::Split {
                    message,
                    content,
                    room,
                } => {
                    let mut out = vec![0xAA; *room];
                    let writing = self.written(&list, lent(message), content, &mut out);
                    (writing.refusal, out[..writing.bytes.min(*room)].to_vec())
                }
            };
            text.push_str(&line_of(place, refusal, &bytes, state.count));
        }
        text.into_bytes()
    }
}

/// The fields of a message as they are lent.
fn lent(message: &message::Message) -> Message {
    Message {
        mti: message.mti,
        source: message.source,
        has_destination: message.destination.is_some().into(),
        destination: message.destination.unwrap_or(0),
        has_event: message.event.is_some().into(),
        event: message.event.unwrap_or(0),
    }
}

/// The bytes of what is handed out, whether or not that is a message.
fn bytes_of(joined: &Joined) -> Vec<u8> {
    if joined.mti == 0 {
        return Vec::new();
    }
    let Gathered { sender, event, .. } = joined.message;
    let mut bytes = joined.mti.to_be_bytes().to_vec();
    bytes.extend(&sender.to_be_bytes()[2..]);
    bytes.extend(event.to_be_bytes());
    bytes.extend(joined.message.gathered().payload);
    bytes
}

fn list_of(lists: &Lists) -> Aliases {
    Aliases {
        aliases: lists.aliases.to_vec(),
        nodes: lists.nodes.to_vec(),
    }
}

impl CanSide for StandIn {
    fn join(&self, lists: Lists, state: &Joining, frame: Frame) -> Joined {
        let list = list_of(&lists);
        if let (true, Some(last)) = (self.writes, lists.nodes.last_mut()) {
            *last ^= 1;
        }
        self.joined(&list, state, frame)
    }

    fn split(&self, lists: Lists, message: Message, content: &[u8], out: &mut [u8]) -> Writing {
        let list = list_of(&lists);
        if let (true, Some(first)) = (self.writes, lists.aliases.first_mut()) {
            *first ^= 1;
        }
        self.written(&list, message, content, out)
    }

    fn frame_text(&self, file: &[u8], skip: usize, text: &mut [u8]) -> usize {
        let mut whole = self.text_of(file);
        (self.text)(file, &mut whole);
        let left = &whole[skip.min(whole.len())..];
        let taken = left.len().min(text.len());
        text[..taken].copy_from_slice(&left[..taken]);
        taken
    }
}

/// Whether one input of a sort differs, and what it has reached.
fn differs(sort: Sort, seed: u64, index: u64, stand_in: &StandIn, column: &mut Column) -> bool {
    column.saw_input();
    let mut witness = Witness::new(column, false);
    let mut dice = Dice::of_input(seed, sort as u64, index);
    match sort {
        Sort::Frame => frames::judge(&mut dice, &mut witness, stand_in),
        _ => can_calls::judge(&mut dice, &mut witness, stand_in),
    }
    !witness.agreed()
}

/// Whether the first inputs of a sort find a stand-in out.
pub fn is_found(sort: Sort, inputs: u64, stand_in: &StandIn) -> bool {
    let found = |index| differs(sort, 1, index, stand_in, &mut Column::default());
    (0..inputs).any(found)
}

/// A tenth of the inputs that there are by default.
const JUDGE: Judge = Judge {
    name: "stand-in",
    sorts: &[Sort::Frame, Sort::Can],
    amounts: Amounts {
        files: 2_000,
        small: 0,
        times: 1,
    },
    without: &[],
};

/// A sound archive agrees on every input, and a tenth of the inputs that there are by default reach every row, twice as often as is asked for.
#[test]
fn a_sound_archive() {
    for seed in 1..=2 {
        let mut columns = Columns::default();
        for sort in JUDGE.sorts {
            let column = &mut columns[*sort as usize];
            for index in 0..JUDGE.amounts.of(*sort) {
                assert!(
                    !differs(*sort, seed, index, &SOUND, column),
                    "input {index}"
                );
            }
            for row in Row::all() {
                let (seen, asked) = (column.seen(row), row.least());
                let reached = !JUDGE.can_reach(row, *sort) || seen >= 2 * asked;
                assert!(reached, "{}: {}: {seen}", sort.name(), row.label());
            }
        }
        let options = Options {
            seed,
            amounts: JUDGE.amounts,
            only: None,
            help: false,
        };
        assert_eq!(reached::faults(&JUDGE, &options, &columns), [""; 0]);
    }
}

/// A call that writes into the lists is found.
#[test]
fn writing() {
    let stand_in = StandIn {
        writes: true,
        ..SOUND
    };
    assert!(is_found(Sort::Can, 3, &stand_in));
}

fn bytes_left_over_are_taken(file: &[u8], text: &mut Vec<u8>) {
    if let ([start @ .., _], BAD_FILE) = (file, &text[..]) {
        *text = SOUND.text_of(start);
    }
}

fn over_128_pairs_are_a_bad_file(file: &[u8], text: &mut Vec<u8>) {
    if file.first().is_some_and(|pairs| *pairs > 128) {
        *text = BAD_FILE.to_vec();
    }
}

fn a_thousand_steps_are_too_many(_: &[u8], text: &mut Vec<u8>) {
    if text.iter().filter(|byte| **byte == b'\n').count() == 1_000 {
        *text = BAD_FILE.to_vec();
    }
}

fn the_longest_file_is_too_long(file: &[u8], text: &mut Vec<u8>) {
    if file.len() == 65_536 {
        *text = BAD_FILE.to_vec();
    }
}

fn digits_are_lower_case(_: &[u8], text: &mut Vec<u8>) {
    *text = text.to_ascii_lowercase();
}

const TEXT_SLIPS: [TextSlip; 5] = [
    bytes_left_over_are_taken,
    over_128_pairs_are_a_bad_file,
    a_thousand_steps_are_too_many,
    the_longest_file_is_too_long,
    digits_are_lower_case,
];

/// Every slip in a text is found.
#[test]
fn slips() {
    for (place, text) in TEXT_SLIPS.into_iter().enumerate() {
        let stand_in = StandIn { text, ..SOUND };
        assert!(is_found(Sort::Frame, 1_000, &stand_in), "slip {place}");
    }
}
