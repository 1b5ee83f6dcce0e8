//! Comparing two blocks (02, W4).

use super::Comparison::{Apart, Equal, FirstInside, SecondInside};
use super::*;

/// Both ways round.
fn both_ways(first: (u64, u32), second: (u64, u32)) -> [Comparison; 2] {
    [
        compare(first, second).unwrap(),
        compare(second, first).unwrap(),
    ]
}

/// 02, W4: the four answers, each by blocks of several events and of one.
#[test]
fn four_answers() {
    for block in [(0, 0), (7, 0), (8, 3), (0x100, 8), (0, 63), (0, 64)] {
        assert_eq!(both_ways(block, block), [Equal; 2]);
    }
    for (inner, outer) in [
        ((8, 0), (8, 1)),
        ((9, 0), (8, 1)),
        ((8, 2), (8, 3)),
        ((12, 2), (8, 3)),
        ((15, 0), (8, 3)),
        ((0x0A00000000010001, 0), (0x0A00000000010000, 8)),
    ] {
        assert_eq!(both_ways(inner, outer), [FirstInside, SecondInside]);
    }
    for (one, other) in [
        ((8, 0), (9, 0)),
        ((7, 0), (8, 3)),
        ((16, 0), (8, 3)),
        ((0, 3), (8, 3)),
        ((16, 4), (8, 3)),
        ((0x0A00000000010100, 0), (0x0A00000000010000, 8)),
    ] {
        assert_eq!(both_ways(one, other), [Apart; 2]);
    }
}

/// 02, W4, over every k: a block, its halves, the block that it is half of, its neighbour, and the events at and beside its edges.
#[test]
fn every_k() {
    for k in 0..=64 {
        let start = (0x5A5A_5A5A_5A5A_5A5A / size(k) * size(k)) as u64;
        let end = last(start, k).unwrap();
        let block = (start, k);
        assert_eq!(both_ways(block, block), [Equal; 2]);
        let edges = if k == 0 {
            [Equal; 2]
        } else {
            [FirstInside, SecondInside]
        };
        assert_eq!(both_ways((start, 0), block), edges);
        assert_eq!(both_ways((end, 0), block), edges);
        if k > 0 {
            let upper = (start + (size(k) / 2) as u64, k - 1);
            for half in [(start, k - 1), upper] {
                assert_eq!(both_ways(half, block), [FirstInside, SecondInside]);
            }
            assert_eq!(both_ways((start, k - 1), upper), [Apart; 2]);
        }
        if k < 64 {
            let whole = (start & !(size(k + 1) - 1) as u64, k + 1);
            assert_eq!(both_ways(block, whole), [FirstInside, SecondInside]);
            assert_eq!(both_ways(block, (start ^ 1 << k, k)), [Apart; 2]);
        }
        for beside in [start.checked_sub(1), end.checked_add(1)]
            .into_iter()
            .flatten()
        {
            assert_eq!(both_ways((beside, 0), block), [Apart; 2]);
        }
    }
}

/// 02, W4, and 01-scope, Traps, "Shifting by 64": every event holds each other block, and is equal to itself only.
#[test]
fn every_event() {
    let every = (0, 64);
    assert_eq!(compare(every, every), Ok(Equal));
    for block in [
        (0, 0),
        (u64::MAX, 0),
        (5, 0),
        (0, 63),
        (1 << 63, 63),
        (2, 1),
    ] {
        assert_eq!(both_ways(block, every), [FirstInside, SecondInside]);
    }
    assert_eq!(both_ways((0, 63), (1 << 63, 63)), [Apart; 2]);
    assert_eq!(both_ways((0, 63), (1 << 63, 0)), [Apart; 2]);
    assert_eq!(
        both_ways((0, 63), (u64::MAX >> 1, 0)),
        [SecondInside, FirstInside]
    );
}

/// 01-scope, Refusal numbers, 14: where either is no block, or both.
#[test]
fn no_blocks() {
    for bad in [
        (1, 1),
        (8, 4),
        (1, 64),
        (1 << 62, 63),
        (0, 65),
        (0, 255),
        (0, u32::MAX),
    ] {
        for good in [(0, 0), (1, 0), (8, 3), (1 << 63, 63), (0, 64)] {
            assert_eq!(compare(bad, good), Err(14));
            assert_eq!(compare(good, bad), Err(14));
        }
        assert_eq!(compare(bad, bad), Err(14));
    }
}

/// 02, W4, beside the definition: the answer is what the events say, one by one, of all blocks among 16 events.
#[test]
fn by_the_events() {
    let mut blocks = Vec::new();
    for k in 0..=4 {
        blocks.extend(
            (0..16u64)
                .filter(|start| is_block(*start, k))
                .map(|start| (start, k)),
        );
    }
    let has = |block: (u64, u32), event| contains(block.0, block.1, event) == Ok(true);
    let mut times = [0; 4];
    for first in &blocks {
        for second in &blocks {
            let all_in = |one, other| (0..16).all(|event| !has(one, event) || has(other, event));
            let expected = match (all_in(*first, *second), all_in(*second, *first)) {
                (true, true) => Equal,
                (true, false) => FirstInside,
                (false, true) => SecondInside,
                (false, false) => Apart,
            };
            assert_eq!(compare(*first, *second), Ok(expected));
            times[usize::from(expected.number()) - 1] += 1;
        }
    }
    assert_eq!(Comparison::ALL.map(Comparison::number), [1, 2, 3, 4]);
    assert_eq!(times, [31, 98, 98, 734]);
}
