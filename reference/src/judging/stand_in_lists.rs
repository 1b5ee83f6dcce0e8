//! Slips with lent lists, in the stand-in for the archive's box: what is written where it is only to be read, and lengths that are not tested.

use crate::gateway::LENT_LENGTHS;
use crate::lent_box::Lists;

use super::counts::Column;
use super::sort::Sort;
use super::stand_in_box::{differs, StandIn, SOUND};

/// Changes the last place of a list, where there is one.
fn change_last<T: std::ops::BitXorAssign + From<u8>>(list: &mut [T]) {
    if let Some(last) = list.last_mut() {
        *last ^= 1.into();
    }
}

/// A call that writes into a list that it only has to read is found, on lists of any length.
#[test]
fn writing() {
    let writes: [fn(Lists); 3] = [
        |lists| change_last(lists.sizes),
        |lists| change_last(lists.order),
        |lists| change_last(lists.sets),
    ];
    for writes in writes {
        let stand_in = StandIn { writes, ..SOUND };
        for index in 0..300 {
            let column = &mut Column::default();
            assert!(differs(1, Sort::Box, index, &stand_in, column));
        }
    }
}

/// A length that is not tested is found, whichever list it is of.
#[test]
fn lengths() {
    for list in 0..LENT_LENGTHS.len() {
        let stand_in = StandIn {
            untested: Some(list),
            ..SOUND
        };
        let column = &mut Column::default();
        let found = |index| differs(1, Sort::Box, index, &stand_in, column);
        assert!((0..300).any(found), "list {list}");
    }
}
