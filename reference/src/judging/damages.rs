//! Indexes that disagree with their table (02, W6), each in one way: every call refuses them with 7.

use crate::gateway::{Gateway, Line, MOST_LINES};
use crate::index::{Index, WHOLE_K, WHOLE_SPACE};

use super::random::Dice;

/// How an index disagrees with its table.
#[derive(Clone, Copy, PartialEq, Eq, PartialOrd, Ord, Debug)]
pub enum Damage {
    Twice,
    Missing,
    Neighbours,
    EqualStarts,
    AtTheCount,
    PastTheCount,
    ByPlace,
    BySizeFirst,
    OfNoLines,
    SizeTooMany,
    SizeTooFew,
    SizeElsewhere,
    WholeTooMany,
    WholeTooFew,
    WholeElsewhere,
}

impl Damage {
    /// All of them, in the order of the table.
    pub const ALL: [Damage; 15] = [
        Damage::Twice,
        Damage::Missing,
        Damage::Neighbours,
        Damage::EqualStarts,
        Damage::AtTheCount,
        Damage::PastTheCount,
        Damage::ByPlace,
        Damage::BySizeFirst,
        Damage::OfNoLines,
        Damage::SizeTooMany,
        Damage::SizeTooFew,
        Damage::SizeElsewhere,
        Damage::WholeTooMany,
        Damage::WholeTooFew,
        Damage::WholeElsewhere,
    ];

    /// What its row is called.
    pub fn label(self) -> &'static str {
        match self {
            Damage::Twice => "wrong index: a number twice",
            Damage::Missing => "wrong index: a number missing",
            Damage::Neighbours => "wrong index: two neighbours changed over",
            Damage::EqualStarts => "wrong index: equal first events by place",
            Damage::AtTheCount => "wrong index: a number at the count",
            Damage::PastTheCount => "wrong index: a number past the count",
            Damage::ByPlace => "wrong index: in table order",
            Damage::BySizeFirst => "wrong index: by size before port",
            Damage::OfNoLines => "wrong index: that of no lines",
            Damage::SizeTooMany => "wrong index: a size too many",
            Damage::SizeTooFew => "wrong index: a size too few",
            Damage::SizeElsewhere => "wrong index: a size at no port",
            Damage::WholeTooMany => "wrong index: the whole space too many",
            Damage::WholeTooFew => "wrong index: the whole space too few",
            Damage::WholeElsewhere => "wrong index: the whole space at no port",
        }
    }

    /// The index of a state in bounds, damaged so; nothing where its table has no room for that.
    pub fn of(self, dice: &mut Dice, state: &Gateway) -> Option<Index> {
        let Gateway { lines, ports, .. } = state;
        let mut index = state.index.clone();
        let Index { order, sets } = &mut index;
        match self {
            Damage::Twice => {
                let place = some_neighbours(dice, order)?;
                let (from, to) = dice.pick(&[(place, place + 1), (place + 1, place)]);
                order[to] = order[from];
            }
            Damage::Missing => {
                order.remove(some_place(dice, order)?);
                let any = order[some_place(dice, order)?];
                let last = *order.last()?;
                order.push(dice.pick(&[last, any]));
            }
            Damage::Neighbours => {
                let place = some_neighbours(dice, order)?;
                order.swap(place, place + 1);
            }
            Damage::EqualStarts => {
                let place = some_equal_neighbours(dice, lines, order)?;
                order.swap(place, place + 1);
            }
            Damage::AtTheCount if lines.len() < MOST_LINES => {
                let place = some_place(dice, order)?;
                order[place] = lines.len();
            }
            Damage::PastTheCount if lines.len() + 1 < MOST_LINES => {
                let place = some_place(dice, order)?;
                order[place] = dice.between(lines.len() + 1, MOST_LINES - 1);
            }
            Damage::AtTheCount | Damage::PastTheCount => return None,
            Damage::ByPlace => order.sort(),
            Damage::BySizeFirst => order.sort_by_key(|place| (lines[*place].k, lines[*place].port)),
            Damage::OfNoLines => {
                order.fill(0);
                sets.fill(0);
            }
            Damage::SizeTooMany => {
                let port = dice.below(u64::from(*ports)) as usize;
                sets[port] |= some_size(dice, lines);
            }
            Damage::SizeTooFew => {
                let line = some_line(dice, lines, |line| line.k < WHOLE_K)?;
                sets[line.port as usize] ^= 1 << line.k;
            }
            Damage::SizeElsewhere if *ports < 8 => {
                sets[dice.between(*ports as usize, 7)] = some_size(dice, lines);
            }
            Damage::SizeElsewhere => return None,
            Damage::WholeTooMany => sets[WHOLE_SPACE] |= 1 << dice.below(u64::from(*ports)),
            Damage::WholeTooFew => {
                let line = some_line(dice, lines, |line| line.k == WHOLE_K)?;
                sets[WHOLE_SPACE] ^= 1 << line.port;
            }
            Damage::WholeElsewhere => {
                let near = dice.between(*ports as usize, 8);
                let far = dice.between(*ports as usize, 63);
                sets[WHOLE_SPACE] |= 1 << dice.pick(&[near, far]);
            }
        }
        (index != state.index).then_some(index)
    }
}

/// Any damage that the state's table has room for, and the index with it.
pub fn any(dice: &mut Dice, state: &Gateway) -> (Damage, Index) {
    loop {
        let damage = dice.pick(&Damage::ALL);
        if let Some(index) = damage.of(dice, state) {
            return (damage, index);
        }
    }
}

/// A place, if there is one.
fn some_place(dice: &mut Dice, order: &[usize]) -> Option<usize> {
    (!order.is_empty()).then(|| dice.between(0, order.len() - 1))
}

/// The first place of two neighbours, if there are two.
fn some_neighbours(dice: &mut Dice, order: &[usize]) -> Option<usize> {
    some_place(dice, order.get(1..)?)
}

/// The same of two lines of one port, size and first event.
fn some_equal_neighbours(dice: &mut Dice, lines: &[Line], order: &[usize]) -> Option<usize> {
    let key = |place: usize| (lines[place].port, lines[place].k, lines[place].start);
    let mut equal = Vec::new();
    for (place, pair) in order.windows(2).enumerate() {
        if key(pair[0]) == key(pair[1]) {
            equal.push(place);
        }
    }
    (!equal.is_empty()).then(|| dice.pick(&equal))
}

/// One of the lines of a kind, if there is one.
fn some_line(dice: &mut Dice, lines: &[Line], is_so: fn(&Line) -> bool) -> Option<Line> {
    let some: Vec<Line> = lines.iter().copied().filter(is_so).collect();
    (!some.is_empty()).then(|| dice.pick(&some))
}

/// The bit of a size: any, or that of one of the lines, or one beside it.
fn some_size(dice: &mut Dice, lines: &[Line]) -> u64 {
    let any = dice.below(64) as u32;
    let k = some_line(dice, lines, |line| line.k < WHOLE_K).map_or(any, |line| line.k);
    1 << dice.pick(&[any, k, (k + 1) % 64, (k + 63) % 64])
}

#[cfg(test)]
mod tests {
    use super::*;
    use crate::trial::HOUSE_NUMBER;

    /// Each damage is one: a state that was in bounds is no longer so, and nothing but its index is another.
    #[test]
    fn each_is_out_of_bounds() {
        let mut dice = Dice::of_input(1, 1, 1);
        let line = |port, start, k| Line {
            port,
            node: 7,
            start,
            k,
        };
        let (mut state, _) = Gateway::start(4, HOUSE_NUMBER);
        let several = vec![
            line(2, 4, 1),
            line(1, 4, 2),
            line(1, 9, 0),
            line(1, 9, 0),
            line(3, 0, 64),
        ];
        state.set_lines(several);
        assert!(state.in_bounds());
        for damage in Damage::ALL {
            for _ in 0..200 {
                let mut damaged = state.clone();
                if let Some(index) = damage.of(&mut dice, &state) {
                    damaged.index = index;
                    assert!(!damaged.in_bounds(), "{}", damage.label());
                }
            }
            let possible = (0..50).any(|_| damage.of(&mut dice, &state).is_some());
            assert!(possible, "{}", damage.label());
        }
    }

    /// A table without lines can have its sets wrong and nothing else, a full one no number past the count.
    #[test]
    fn where_there_is_no_room() {
        use Damage::*;
        let mut dice = Dice::of_input(1, 1, 2);
        let (mut state, _) = Gateway::start(8, HOUSE_NUMBER);
        let of_sets = [SizeTooMany, WholeTooMany, WholeElsewhere];
        for damage in Damage::ALL {
            let possible = damage.of(&mut dice, &state).is_some();
            assert_eq!(possible, of_sets.contains(&damage), "{}", damage.label());
        }
        let lines = (0..256).map(|start| Line {
            port: 1,
            node: 7,
            start,
            k: 0,
        });
        state.set_lines(lines.collect());
        for damage in [AtTheCount, PastTheCount, ByPlace, EqualStarts, WholeTooFew] {
            assert_eq!(damage.of(&mut dice, &state), None);
        }
        assert!(Twice.of(&mut dice, &state).is_some());
    }
}
