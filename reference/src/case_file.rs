//! Case files: a command a line (CASE-FILES).

/// The most bytes of a file that are read (CASE-FILES).
pub const MOST_BYTES: usize = 65_536;
/// The most bytes of a message (CASE-FILES).
pub const MOST_MESSAGE: usize = 512;
/// The most numbers of a line.
const MOST_NUMBERS: usize = 15;
/// The letters of a command's name that count (CASE-FILES).
const LETTERS: usize = 4;

/// A line that could be read: the first letters of the command, its numbers, and its message where it has a colon (CASE-FILES).
#[derive(Clone, Debug, PartialEq, Eq)]
pub struct Case {
    pub name: String,
    pub numbers: Vec<u64>,
    pub message: Option<Vec<u8>>,
}

/// The text of a file: each line and what the command comes to, nothing where it is none (CASE-FILES).
pub fn text_of(file: &[u8], mut obey: impl FnMut(&Case) -> Option<String>) -> Vec<u8> {
    let mut text = Vec::new();
    let read = &file[..file.len().min(MOST_BYTES)];
    let mut lines: Vec<&[u8]> = read.split(|byte| *byte == b'\n').collect();
    lines.pop();
    for (place, line) in lines.iter().enumerate() {
        if line.is_empty() || line[0] == b'#' {
            continue;
        }
        text.extend(*line);
        text.push(b'\n');
        if line[0] == b'=' {
            continue;
        }
        let answer = case_of(line).and_then(|case| obey(&case));
        let not_read = || format!("  line {}: cannot be read\n", place + 1);
        text.extend(answer.unwrap_or_else(not_read).into_bytes());
    }
    text
}

/// What a line says, nothing where it cannot be read (CASE-FILES).
fn case_of(line: &[u8]) -> Option<Case> {
    let said = line.split(|byte| *byte == b'#').next()?;
    let said = std::str::from_utf8(said).ok()?;
    let (head, message) = match said.split_once(':') {
        Some((head, message)) => (head, Some(message_of(message)?)),
        None => (said, None),
    };
    let (name, numbers) = head.split_once(' ').unwrap_or((head, ""));
    Some(Case {
        name: name.chars().take(LETTERS).collect(),
        numbers: numbers_of(numbers)?,
        message,
    })
}

/// Hexadecimal numbers between blanks (CASE-FILES).
fn numbers_of(words: &str) -> Option<Vec<u64>> {
    let mut numbers = Vec::new();
    for word in words.split(' ').filter(|word| !word.is_empty()) {
        numbers.push(number_of(word)?);
    }
    if numbers.len() > MOST_NUMBERS {
        return None;
    }
    Some(numbers)
}

/// The number that hexadecimal digits spell, nothing above 64 bits (CASE-FILES).
fn number_of(digits: &str) -> Option<u64> {
    let mut number: u64 = 0;
    for digit in digits.chars() {
        number = number.checked_mul(16)? + u64::from(digit_of(digit)?);
    }
    Some(number)
}

/// A hexadecimal digit, in lower case (CASE-FILES).
fn digit_of(digit: char) -> Option<u8> {
    if digit.is_ascii_uppercase() {
        return None;
    }
    digit.to_digit(16).map(|value| value as u8)
}

/// The bytes written out, two digits each (CASE-FILES).
fn message_of(text: &str) -> Option<Vec<u8>> {
    let digits: Vec<char> = text.chars().filter(|digit| *digit != ' ').collect();
    if !digits.len().is_multiple_of(2) || digits.len() > 2 * MOST_MESSAGE {
        return None;
    }
    let mut message = Vec::new();
    for pair in digits.chunks(2) {
        message.push(digit_of(pair[0])? * 16 + digit_of(pair[1])?);
    }
    Some(message)
}

/// The places that a fill takes: from the first to the last, each how manieth (CASE-FILES).
pub fn places(most: u64, first: u64, last: u64, stride: u64) -> Vec<usize> {
    let mut taken = Vec::new();
    for place in first..=last.min(most - 1) {
        if stride != 0 && (place - first).is_multiple_of(stride) {
            taken.push(place as usize);
        }
    }
    taken
}

#[cfg(test)]
mod tests {
    use super::*;

    fn read(line: &str) -> Option<Case> {
        case_of(line.as_bytes())
    }

    /// CASE-FILES: a name, numbers, a message, a comment.
    #[test]
    fn lines_that_can_be_read() {
        let case = read("repeat 1  f:  04c4 0a # A announces: +5").unwrap();
        assert_eq!((case.name.as_str(), case.numbers), ("repe", vec![1, 15]));
        assert_eq!(case.message.unwrap(), [4, 0xC4, 0x0A]);
        assert_eq!(read("keep").unwrap().numbers, []);
        assert_eq!(read("keep:").unwrap().message, Some(Vec::new()));
        let case = read("set  ffffffffffffffff 0f ").unwrap();
        assert_eq!((case.numbers, case.message), (vec![u64::MAX, 15], None));
        assert_eq!(read("at 1:").unwrap().message, Some(Vec::new()));
        let longest = format!("at 1: {}", "07".repeat(512));
        assert_eq!(read(&longest).unwrap().message, Some(vec![7; 512]));
        assert_eq!(read(&format!("{longest}07")), None);
    }

    /// CASE-FILES: what cannot be read.
    #[test]
    fn lines_that_cannot_be_read() {
        for line in [
            "at g:",
            "at A:",
            "at 1: 0",
            "at 1: 0g",
            "at 1:: 00",
            "start 4 10000000000000000",
        ] {
            assert_eq!(read(line), None, "{line}");
        }
    }

    /// CASE-FILES: what is printed as it is, passed over, and said of a line that cannot be read.
    #[test]
    fn text_of_a_file() {
        let file = b"# said nowhere\n\n= Title\nset 1 2 # so\nset g\nset 1\nunended";
        let text = text_of(file, |case| {
            (case.numbers.len() == 2).then(|| "  done\n".into())
        });
        let expected = "= Title\nset 1 2 # so\n  done\nset g\n  line 5: cannot be read\nset 1\n  line 6: cannot be read\n";
        assert_eq!(String::from_utf8(text).unwrap(), expected);
    }

    /// CASE-FILES: the places of a fill.
    #[test]
    fn places_of_a_fill() {
        assert_eq!(places(256, 254, 300, 1), [254, 255]);
        assert_eq!(places(65, 1, 9, 4), [1, 5, 9]);
        assert!(places(65, 3, 2, 1).is_empty() && places(65, 0, 9, 0).is_empty());
    }
}
