//! A board as its caller lends it: the record, and the slots as four lists of numbers (01-scope, Node, "The core works over lists of numbers").

use crate::node::{Answer, Node, Slot};
use crate::refusal;

/// A record and the four slot lists, each lent to its own length; all numbers are as the caller laid them out (01-scope, Node).
#[derive(Clone, Debug, PartialEq, Eq)]
pub struct LentBoard {
    pub id: u64,
    pub state: u8,
    pub automatic: (u64, u32),
    /// Entry i of each list; there are as many as the longest list has, or more.
    pub slots: Vec<Slot>,
    /// How much is lent of the roles, events, statuses and marks.
    pub lengths: [usize; 4],
}

impl LentBoard {
    /// Whether the lists are of one length (01-scope, Node, "Out of bounds: slot lists of unequal length").
    pub fn lists_are_equal(&self) -> bool {
        self.lengths == [self.lengths[0]; 4]
    }

    /// A call on what is lent; lists of unequal length are refusal 7, before all else (01-scope, Node, "Out of bounds"; Refusal numbers, order).
    pub fn call(&mut self, make: impl FnOnce(&mut Node) -> Answer) -> Answer {
        if !self.lists_are_equal() {
            return Answer::refused(refusal::BOUNDS);
        }
        let count = self.lengths[0];
        let mut node = Node {
            id: self.id,
            state: self.state,
            automatic: self.automatic,
            slots: self.slots[..count].to_vec(),
        };
        let answer = make(&mut node);
        (self.id, self.state, self.automatic) = (node.id, node.state, node.automatic);
        self.slots[..count].copy_from_slice(&node.slots);
        answer
    }
}

#[cfg(test)]
mod tests {
    use super::*;

    fn board(lengths: [usize; 4]) -> LentBoard {
        let slot = Slot {
            role: 0,
            event: 5,
            status: 0,
            mark: 0,
        };
        LentBoard {
            id: 7,
            state: 0,
            automatic: (0, 1),
            slots: vec![slot; 4],
            lengths,
        }
    }

    /// Only what is lent is changed, and past it there are no slots.
    #[test]
    fn what_is_lent() {
        let mut lent = board([2; 4]);
        assert_eq!(lent.call(|node| node.set_status(1, 2)).refusal, 0);
        assert_eq!(lent.call(|node| node.set_status(2, 2)).refusal, 10);
        assert_eq!(
            lent.slots
                .iter()
                .map(|slot| slot.status)
                .collect::<Vec<_>>(),
            [0, 2, 0, 0]
        );
        assert_eq!(lent.call(|node| node.initialise(14)).refusal, 0);
        assert_eq!((lent.state, lent.id, lent.automatic), (1, 7, (0, 1)));
    }

    /// Any one list that is longer or shorter: 7, also before 3, and everything stands as before.
    #[test]
    fn unequal_lists() {
        for list in 0..4 {
            for length in [1, 3] {
                let mut lengths = [2; 4];
                lengths[list] = length;
                for id in [7, 0] {
                    let mut lent = board(lengths);
                    lent.id = id;
                    let before = lent.clone();
                    assert_eq!(lent.call(|node| node.initialise(14)), Answer::refused(7));
                    assert_eq!(lent, before);
                }
            }
        }
    }
}
