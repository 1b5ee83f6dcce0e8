//! Makes joining states, in bounds or out of them in a chosen way, and a frame for one.

use crate::aliases::{Aliases, HIGHEST_ALIAS};
use crate::can::{Frame, Part};
use crate::lent_can::{Gathered, Joining, PAYLOAD};

use super::can_lists::any_alias;
use super::can_talk::{any_payload, damage_frame};
use super::legs::FIRST_OF_STATE;
use super::random::Dice;

/// A state in bounds, any numbers standing past the count and the lengths.
pub fn in_bounds(dice: &mut Dice, list: &Aliases) -> Joining {
    let mut state = Joining {
        count: dice.pick(&[0, 1, 1, 2, 2, 2]),
        first: any_gathered(dice, list),
        second: any_gathered(dice, list),
    };
    while state.count == 2 && state.first.sender == state.second.sender {
        state.second.sender = state.second.sender.wrapping_add(dice.number());
    }
    refill(dice, list, &mut state);
    state
}

/// What one sender of the list, or seldom another, has begun.
fn any_gathered(dice: &mut Dice, list: &Aliases) -> Gathered {
    let sender = if list.nodes.is_empty() || dice.chance(8) {
        dice.pick(&[0, 1, 1 << 48, u64::MAX])
    } else {
        dice.pick(&list.nodes)
    };
    let length = match dice.weighted(&[15, 25, 10, 30, 20]) {
        0 => 0,
        1 => 8 * dice.between(1, 31),
        2 => dice.between(0, PAYLOAD),
        3 => dice.between(PAYLOAD - 9, PAYLOAD),
        _ => dice.pick(&[PAYLOAD - 8, PAYLOAD]),
    };
    let mut gathered = Gathered {
        sender,
        event: dice.number(),
        length,
        payload: [0; PAYLOAD],
    };
    let payload = any_payload(dice, length);
    gathered.payload[..length].copy_from_slice(&payload);
    gathered
}

/// Other numbers past the count and the lengths, which are no part of the state; at times such as would be out of bounds.
pub fn refill(dice: &mut Dice, list: &Aliases, state: &mut Joining) {
    let count = state.count;
    for (place, gathered) in [&mut state.first, &mut state.second]
        .into_iter()
        .enumerate()
    {
        if place >= count {
            *gathered = any_gathered(dice, list);
            gathered.length =
                dice.pick(&[gathered.length, gathered.length, PAYLOAD + 1, usize::MAX]);
        }
        let filling = dice.number() as u8;
        let used = gathered.length.min(PAYLOAD);
        gathered.payload[used..].fill(filling);
    }
    if count == 1 && dice.chance(30) {
        state.second.sender = state.first.sender;
    }
}

/// Puts a state in bounds out of them in one way, by its place among the rows.
pub fn spoil(dice: &mut Dice, list: &Aliases, state: &mut Joining, way: usize) {
    match way - FIRST_OF_STATE {
        0 => state.count = dice.pick(&[3, 3, 4, 256, 257, 1 << 32, usize::MAX]),
        1 => {
            (state.first, state.second) = (any_gathered(dice, list), any_gathered(dice, list));
            state.count = 2;
            state.second.sender = state.first.sender;
        }
        _ => {
            let over = dice.pick(&[257, 257, 258, 264, 512, 1 << 16 | 8, 1 << 32, usize::MAX]);
            state.count = state.count.max(1);
            if state.count == 2 && dice.chance(50) {
                state.second.length = over;
            } else {
                state.first.length = over;
            }
            if state.count == 1 {
                state.second.length = dice.pick(&[0, 8, usize::MAX]);
            }
        }
    }
}

/// The ways in which a state is out of bounds, by their places among the rows (02, W3, 7).
pub fn ways_of(state: &Joining) -> Vec<usize> {
    let places = state.places();
    let out = [
        state.count > 2,
        state.count == 2 && state.first.sender == state.second.sender,
        state.count <= 2 && places.iter().any(|one| one.length > PAYLOAD),
    ];
    let ways = (0..out.len()).filter(|way| out[*way]);
    ways.map(|way| FIRST_OF_STATE + way).collect()
}

/// A frame, mostly one of a sender that is unfinished in the state; of an alias above FFF, which no header can have, the low bits.
pub fn any_frame(dice: &mut Dice, list: &Aliases, state: &Joining) -> Frame {
    let begun = dice.pick(&[state.first.sender, state.second.sender]);
    let alias = match list.alias_of(begun) {
        Some(alias) if dice.chance(75) => alias & HIGHEST_ALIAS,
        _ if list.aliases.is_empty() || dice.chance(10) => any_alias(dice, list),
        _ => dice.pick(&list.aliases) & HIGHEST_ALIAS,
    };
    let part = dice.pick(&[
        Part::Whole,
        Part::First,
        Part::First,
        Part::Middle,
        Part::Middle,
        Part::Last,
        Part::Last,
    ]);
    let mut frame = Frame::of(part, alias, &dice.number().to_be_bytes());
    if part == Part::Last {
        frame.length = dice.between(1, 8) as u8;
    }
    if dice.chance(15) {
        damage_frame(dice, &mut frame);
    }
    frame
}

#[cfg(test)]
mod tests {
    use super::super::can_lists;
    use super::super::legs::CAN_WAY_COUNT;
    use super::*;

    /// A state is in bounds until it is spoilt, whatever stands past it, and every way is out of bounds in that way.
    #[test]
    fn every_way() {
        for index in 0..2_000 {
            let mut dice = Dice::of_input(1, 1, index);
            let list = can_lists::in_bounds(&mut dice);
            let good = in_bounds(&mut dice, &list);
            assert!(good.joining().in_bounds() && ways_of(&good).is_empty());
            let mut again = good;
            refill(&mut dice, &list, &mut again);
            assert_eq!(again.joining(), good.joining());
            for way in FIRST_OF_STATE..CAN_WAY_COUNT {
                let mut state = good;
                spoil(&mut dice, &list, &mut state, way);
                assert!(ways_of(&state).contains(&way), "{way}");
                assert!(!state.joining().in_bounds());
            }
        }
    }
}
