//! Event ID ranges (01-scope, Ranges; 001 section 4).

use crate::refusal;

/// The run of equal bits counted from the lowest bit, 1 to 64 (01-scope, Ranges).
fn run_of_equal_bits(number: u64) -> u32 {
    let lowest = number & 1;
    let mut k = 1;
    while k < 64 && (number >> k) & 1 == lowest {
        k += 1;
    }
    k
}

/// How many numbers a block with this k has, k at most 64 (01-scope, Ranges).
fn size(k: u32) -> u128 {
    1u128 << k
}

/// Whether 2^k numbers from `start` are a block: k at most 64, start a multiple of 2^k (01-scope, Ranges).
pub fn is_block(start: u64, k: u32) -> bool {
    k <= 64 && u128::from(start).is_multiple_of(size(k))
}

/// The last number of a block; refusal 14 if it is none (01-scope, Ranges and Refusal numbers).
pub fn last(start: u64, k: u32) -> Result<u64, u8> {
    if !is_block(start, k) {
        return Err(refusal::NO_RANGE);
    }
    Ok((u128::from(start) + size(k) - 1) as u64)
}

/// The block that a range number means, as its start and k (01-scope, Ranges; 001 section 4).
pub fn block_of(number: u64) -> (u64, u32) {
    let k = run_of_equal_bits(number);
    let start = u128::from(number) / size(k) * size(k);
    (start as u64, k)
}

/// The range number of a block, `None` where refusal 14 is due (01-scope, Ranges, "To write a block").
pub fn number_of(start: u64, k: u32) -> Option<u64> {
    if k == 0 || !is_block(start, k) {
        return None;
    }
    if k == 64 {
        return Some(u64::MAX);
    }
    let bit_k_is_zero = (start >> k) & 1 == 0;
    if bit_k_is_zero {
        last(start, k).ok()
    } else {
        Some(start)
    }
}

/// Whether the block holds the event; refusal 14 if it is no block (01-scope, Ranges and Refusal numbers).
pub fn contains(start: u64, k: u32, event: u64) -> Result<bool, u8> {
    let end = last(start, k)?;
    Ok(start <= event && event <= end)
}

/// How two blocks lie to each other (02, W4).
#[derive(Clone, Copy, Debug, PartialEq, Eq, PartialOrd, Ord)]
pub enum Comparison {
    Equal,
    FirstInside,
    SecondInside,
    Apart,
}

impl Comparison {
    /// All of them, in the order of their numbers.
    pub const ALL: [Comparison; 4] = [
        Comparison::Equal,
        Comparison::FirstInside,
        Comparison::SecondInside,
        Comparison::Apart,
    ];

    /// Its number, 1 to 4 (02, W4, in the order of its words).
    pub fn number(self) -> u8 {
        match self {
            Comparison::Equal => 1,
            Comparison::FirstInside => 2,
            Comparison::SecondInside => 3,
            Comparison::Apart => 4,
        }
    }
}

/// Compares two blocks, each a start and k; refusal 14 if either is none (02, W4; 01-scope, Refusal numbers). A block is inside another where the other
/// has its first event and its last, and more.
pub fn compare(first: (u64, u32), second: (u64, u32)) -> Result<Comparison, u8> {
    let first = first.0..=last(first.0, first.1)?;
    let second = second.0..=last(second.0, second.1)?;
    if first == second {
        return Ok(Comparison::Equal);
    }
    if second.contains(first.start()) && second.contains(first.end()) {
        return Ok(Comparison::FirstInside);
    }
    if first.contains(second.start()) && first.contains(second.end()) {
        return Ok(Comparison::SecondInside);
    }
    Ok(Comparison::Apart)
}

/// Whether the range number covers the event, by the formula as printed (001 section 4, inRange).
pub fn in_range(event: u64, number: u64) -> bool {
    let k = run_of_equal_bits(number);
    let mask = (size(k) - 1) as u64;
    event & !mask == number & !mask
}

#[cfg(test)]
mod tests {
    mod compared;

    use super::*;

    /// 01-scope, Ranges, the table marked P: R, first, last.
    const MARKED: [(u64, u64, u64); 13] = [
        (0x1, 0x0, 0x1),
        (0x2, 0x2, 0x3),
        (0x3, 0x0, 0x3),
        (0x4, 0x4, 0x7),
        (0x5, 0x4, 0x5),
        (0xABCDEF, 0xABCDE0, 0xABCDEF),
        (0xABCDE0, 0xABCDE0, 0xABCDFF),
        (0xFEDCBFFF, 0xFEDC8000, 0xFEDCBFFF),
        (0x123456780001FFFF, 0x1234567800000000, 0x123456780001FFFF),
        (0x12345678FFFE0000, 0x12345678FFFE0000, 0x12345678FFFFFFFF),
        (0x7FFFFFFFFFFFFFFF, 0x0, 0x7FFFFFFFFFFFFFFF),
        (0x8000000000000000, 0x8000000000000000, 0xFFFFFFFFFFFFFFFF),
        (0x0, 0x0, 0xFFFFFFFFFFFFFFFF),
    ];

    /// 004 section 2.4, the examples there that agree with 001: R, first, last.
    const NOTES: [(u64, u64, u64); 9] = [
        (0x1234FF, 0x123400, 0x1234FF),
        (0x123500, 0x123500, 0x1235FF),
        (0x987650, 0x987650, 0x98765F),
        (0x98764F, 0x987640, 0x98764F),
        (0xABCD0000, 0xABCD0000, 0xABCDFFFF),
        (0x1111111E, 0x1111111E, 0x1111111F),
        (0x00ABCDF0, 0x00ABCDF0, 0x00ABCDFF),
        (0x0000FFFF, 0x00000000, 0x0000FFFF),
        (0xFFFF0000, 0xFFFF0000, 0xFFFFFFFF),
    ];

    /// 01-scope, Ranges: the house default of the automatic block.
    const HOUSE: (u64, u64, u64) = (0x010000000000FFFF, 0x0100000000000000, 0x010000000000FFFF);

    fn all_examples() -> Vec<(u64, u64, u64)> {
        let mut all = MARKED.to_vec();
        all.extend(NOTES);
        all.push(HOUSE);
        all
    }

    /// 01-scope, Ranges (the 13 marked ranges, the house default); 004 section 2.4.
    #[test]
    fn examples_of_ranges() {
        for (number, first, end) in all_examples() {
            let (start, k) = block_of(number);
            assert_eq!(start, first, "{number:X}");
            assert_eq!(last(start, k), Ok(end), "{number:X}");
            for event in [first, end, first + (end - first) / 2] {
                assert_eq!(contains(start, k, event), Ok(true));
                assert!(in_range(event, number));
            }
            if first > 0 {
                assert_eq!(contains(start, k, first - 1), Ok(false));
                assert!(!in_range(first - 1, number));
            }
            if end < u64::MAX {
                assert_eq!(contains(start, k, end + 1), Ok(false));
                assert!(!in_range(end + 1, number));
            }
        }
    }

    /// 01-scope, Ranges: a block is written back as the number it was read from, 0 as all ones.
    #[test]
    fn written_back() {
        for (number, _, _) in all_examples() {
            let (start, k) = block_of(number);
            let back = if number == 0 { u64::MAX } else { number };
            assert_eq!(number_of(start, k), Some(back));
        }
    }

    /// 01-scope, Ranges: "0 and all ones both mean every event", "k = 64 is written as all ones".
    #[test]
    fn whole_space() {
        assert_eq!(block_of(0), (0, 64));
        assert_eq!(block_of(u64::MAX), (0, 64));
        assert_eq!(number_of(0, 64), Some(u64::MAX));
        for event in [0, 1, 1 << 63, u64::MAX] {
            assert_eq!(contains(0, 64, event), Ok(true));
            assert!(in_range(event, 0) && in_range(event, u64::MAX));
        }
    }

    /// 01-scope, Ranges: no range number with k = 0, k above 64, or a start off the multiple.
    #[test]
    fn no_range_number() {
        assert_eq!(number_of(5, 0), None);
        assert_eq!(number_of(0, 0), None);
        assert_eq!(number_of(0, 65), None);
        assert_eq!(number_of(0, u32::MAX), None);
        assert_eq!(number_of(1, 1), None);
        assert_eq!(number_of(1, 64), None);
        assert_eq!(number_of(1 << 62, 63), None);
        assert_eq!(number_of(0, 63), Some(0x7FFFFFFFFFFFFFFF));
        assert_eq!(number_of(1 << 63, 63), Some(0x8000000000000000));
    }

    /// 01-scope, Refusal numbers, 14: other range calls take k = 0 and refuse what is no block.
    #[test]
    fn other_range_calls() {
        assert_eq!(contains(5, 0, 5), Ok(true));
        assert_eq!(contains(5, 0, 4), Ok(false));
        assert_eq!(last(u64::MAX, 0), Ok(u64::MAX));
        assert_eq!(contains(0, 65, 0), Err(14));
        assert_eq!(contains(0, u32::MAX, 0), Err(14));
        assert_eq!(contains(1, 1, 1), Err(14));
        assert_eq!(last(1, 64), Err(14));
    }

    /// 01-scope, Ranges, over every k at both values of bit k: written and read give the block again.
    #[test]
    fn every_k() {
        for k in 1..=63 {
            for start in [0u64, 1u64 << k] {
                let number = number_of(start, k).unwrap();
                assert_eq!(block_of(number), (start, k));
            }
        }
    }
}
