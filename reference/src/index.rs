//! The index of a table by block size (02, W6).

use crate::gateway::{holds, Line};

/// How many sets an index has: the sizes of each of eight ports, and the ports that have the whole space.
pub const SETS: usize = 9;
/// The place of the set of ports that have the whole space.
pub const WHOLE_SPACE: usize = 8;
/// The k of the whole space, which has no bit of its own among a port's sizes.
pub const WHOLE_K: u32 = 64;

/// Which block sizes occur at each port, and each size's lines in order of first event, then of place (02, W6).
#[derive(Clone, Debug, PartialEq, Eq)]
pub struct Index {
    /// The places of the lines, by port, then size, first event and place.
    pub order: Vec<usize>,
    /// For each port bit k for a size of 2^k events, k up to 63; and last bit p for the whole space at port p.
    pub sets: [u64; SETS],
}

impl Index {
    /// The index of these lines; a port over 7 or a k over 64, which no table in bounds has, is in no set (02, W6).
    pub fn of(lines: &[Line]) -> Index {
        let mut keys = Vec::new();
        let mut sets = [0; SETS];
        for (place, line) in lines.iter().enumerate() {
            keys.push((line.port, line.k, line.start, place));
            if let Some((set, bit)) = bit_of(line.port, line.k) {
                sets[set] |= 1 << bit;
            }
        }
        keys.sort();
        let order = keys.iter().map(|(_, _, _, place)| *place).collect();
        Index { order, sets }
    }

    /// Whether a size occurs at a port, by the sets.
    pub fn has(&self, port: u32, k: u32) -> bool {
        bit_of(port, k).is_some_and(|(set, bit)| self.sets[set] >> bit & 1 == 1)
    }

    /// The place of a line at the port that holds the event, looked up size by size, the smallest first (02, W6).
    pub fn line_for(&self, lines: &[Line], port: u32, event: u64) -> Option<usize> {
        for k in 0..=WHOLE_K {
            if !self.has(port, k) {
                continue;
            }
            for place in &self.order {
                let line = &lines[*place];
                if (line.port, line.k) == (port, k) && holds((line.start, line.k), event) {
                    return Some(*place);
                }
            }
        }
        None
    }
}

/// The set that tells of a size at a port, and its bit there (02, W6).
fn bit_of(port: u32, k: u32) -> Option<(usize, u32)> {
    if port as usize >= WHOLE_SPACE || k > WHOLE_K {
        return None;
    }
    if k == WHOLE_K {
        return Some((WHOLE_SPACE, port));
    }
    Some((port as usize, k))
}

#[cfg(test)]
mod tests;
