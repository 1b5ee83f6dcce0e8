//! Before anything is measured: the quick CAN side answers as the reference does.

use reference::aliases::Aliases;
use reference::can;
use reference::frame_file::written_out;
use reference::judging::legs::{CAN_WAY_COUNT, FIRST_OF_STATE};
use reference::judging::random::Dice;
use reference::judging::{can_lists, can_splits, can_states};
use reference::lent_can::{Frame, Gathered, Joining};
use reference::lent_message::{Message, Writing};
use reference::refusal;

use crate::quick_can::{self, List};

/// Stops the program where the two differ.
pub fn with_the_reference() {
    for index in 0..20_000 {
        let mut dice = Dice::of_input(1, 1, index);
        let mut list = can_lists::in_bounds(&mut dice);
        let mut state = can_states::in_bounds(&mut dice, &list);
        match dice.between(0, 3 * CAN_WAY_COUNT) {
            way if way < FIRST_OF_STATE => can_lists::spoil(&mut dice, &mut list, way, false),
            way if way < CAN_WAY_COUNT => can_states::spoil(&mut dice, &list, &mut state, way),
            _ => {}
        }
        compare_join(&mut dice, &list, &state);
        compare_split(&mut dice, &list);
    }
}

/// Without the test of the list too, where that would say nothing.
fn ways_to_call(list: &Aliases) -> &'static [bool] {
    if list.in_bounds() {
        &[true, false]
    } else {
        &[true]
    }
}

fn lent(list: &Aliases) -> List<'_> {
    List {
        aliases: &list.aliases,
        nodes: &list.nodes,
    }
}

fn compare_join(dice: &mut Dice, list: &Aliases, state: &Joining) {
    let frame = can_states::any_frame(dice, list, state);
    let mut after = state.joining();
    let slow = after.join(list, &frame);
    for check in ways_to_call(list) {
        let quick = quick_can::join(lent(list), *state, Frame::of(&frame), *check);
        assert_eq!(quick.refusal, slow.refusal);
        match &slow.report {
            Some((mti, report)) => {
                assert_eq!((quick.mti, &quick.message.gathered()), (*mti, report));
            }
            None => assert_eq!((quick.mti, quick.message), (0, Gathered::NONE)),
        }
        if matches!(slow.refusal, refusal::NONE | refusal::PAYLOAD) {
            assert_eq!(quick.state.joining(), after);
        } else {
            assert_eq!(quick.state, *state);
        }
    }
}

fn compare_split(dice: &mut Dice, list: &Aliases) {
    let parts = can_splits::any_parts(dice, list);
    let room = can_splits::any_room(dice, &parts);
    let message = Message {
        mti: parts.mti,
        source: parts.source,
        has_destination: parts.destination.is_some().into(),
        destination: parts.destination.unwrap_or(dice.number()),
        has_event: parts.event.is_some().into(),
        event: parts.event.unwrap_or(dice.number()),
    };
    let slow = can::split(list, &message.fields(), &parts.content, room);
    let written = slow.as_deref().map(written_out).unwrap_or_default();
    let expected = Writing {
        refusal: slow.err().unwrap_or(refusal::NONE),
        bytes: written.len(),
    };
    for check in ways_to_call(list) {
        let mut out = [0xAA; 600];
        let quick = quick_can::split(
            lent(list),
            message,
            &parts.content,
            &mut out[..room],
            *check,
        );
        assert_eq!(quick, expected);
        assert!(out.starts_with(&written));
        assert!(out[written.len()..].iter().all(|byte| *byte == 0xAA));
    }
}
