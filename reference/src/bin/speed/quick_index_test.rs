//! The test of the box with an index: everything that refusal 7 covers, in one pass over the nodes and one over the index.

use reference::index::WHOLE_SPACE;

use crate::quick::{is_block, low_bits, MOST_LINES};
use crate::quick_index::{kind_of, Gateway, WHOLE_K};

/// A pass over the index: where it is, and the ports with a line that holds the event.
struct Walk {
    place: usize,
    event: u64,
    holding: u8,
}

impl Gateway {
    /// The ports with a line that holds the event, if it is looked for, or nothing where the state is out of bounds.
    #[inline(always)]
    pub fn tested<const LOOK: bool>(&self, event: u64) -> Option<u8> {
        let (start, k) = self.automatic;
        let head_in_bounds = (2..=8).contains(&self.ports)
            && self.count <= MOST_LINES
            && u64::from(self.marks) & !low_bits(self.ports) == 0
            && k != 0
            && is_block(start, k);
        if !head_in_bounds || !self.nodes_in_bounds() {
            return None;
        }
        self.walked::<LOOK>(event)
    }

    /// A number is no Node ID where it or the one before it has a bit above the low 48.
    fn nodes_in_bounds(&self) -> bool {
        let nodes = self.nodes[..self.count].iter();
        let bits = nodes.fold(0, |bits, node| bits | node | node.wrapping_sub(1));
        bits >> 48 == 0
    }

    /// Numbers below the count of which each is strictly below the next name every line once. So the lines are tested where the index names them: the sets say which
    /// port and k comes next, and there has to be such a line; behind the last of them there may be none.
    #[inline(always)]
    fn walked<const LOOK: bool>(&self, event: u64) -> Option<u8> {
        let order = &self.order[..self.count];
        let highest = order
            .iter()
            .fold(0, |highest, number| *number.max(&highest));
        if usize::from(highest) >= self.count.max(1) {
            return None;
        }
        let mut walk = Walk {
            place: 0,
            event,
            holding: 0,
        };
        for port in 0..self.ports {
            let mut sizes = self.sets[usize::from(port)];
            while sizes != 0 {
                let k = sizes.trailing_zeros() as u8;
                sizes &= sizes - 1;
                self.walk_size::<LOOK>(&mut walk, order, port, k)?;
            }
            if self.sets[WHOLE_SPACE] >> port & 1 == 1 {
                self.walk_size::<LOOK>(&mut walk, order, port, WHOLE_K)?;
            }
        }
        let past_the_ports = self.sets[usize::from(self.ports)..WHOLE_SPACE]
            .iter()
            .fold(self.sets[WHOLE_SPACE] >> self.ports, |bits, set| bits | set);
        (walk.place == order.len() && past_the_ports == 0).then_some(walk.holding)
    }

    /// The lines of one size, of which there is at least one; nothing where one is out of bounds or out of order.
    #[inline(always)]
    fn walk_size<const LOOK: bool>(
        &self,
        walk: &mut Walk,
        order: &[u8],
        port: u8,
        k: u8,
    ) -> Option<()> {
        let kind = kind_of(port, k);
        let inside = low_bits(k);
        let prefix = walk.event & !inside;
        let mut number = *order.get(walk.place)?;
        if self.kinds[usize::from(number)] != kind {
            return None;
        }
        let mut start = self.starts[usize::from(number)];
        let mut bits = start;
        let mut holds = start == prefix;
        let mut place = walk.place + 1;
        while let Some(next) = order.get(place) {
            let line = usize::from(*next);
            if self.kinds[line] != kind {
                break;
            }
            let next_start = self.starts[line];
            if next_start <= start && (next_start < start || *next <= number) {
                return None;
            }
            bits |= next_start;
            holds |= next_start == prefix;
            (number, start) = (*next, next_start);
            place += 1;
        }
        walk.place = place;
        if LOOK && holds {
            walk.holding |= 1 << port;
        }
        (bits & inside == 0).then_some(())
    }
}
