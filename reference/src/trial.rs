//! The trial program (01-scope, Trial program).

use crate::gateway::Gateway;
use crate::message::number;

/// The house default of the automatic block (01-scope, Ranges).
pub const HOUSE_NUMBER: u64 = 0x010000000000FFFF;
/// The ports the trial starts (01-scope, Trial program).
pub const PORTS: u32 = 4;
/// The most bytes of a file (01-scope, Trial program).
pub const MOST_BYTES: usize = 65_536;
/// The most entries of a file (01-scope, Trial program).
pub const MOST_ENTRIES: usize = 1_000;
/// What a file prints that cannot be taken (01-scope, Trial program).
pub const BAD_FILE: &[u8] = b"bad file\n";

/// One entry: the port and the body (01-scope, Trial program).
pub struct Entry {
    pub port: u32,
    pub body: Vec<u8>,
}

/// The text of a trial file (01-scope, Trial program).
pub fn trial_text(file: &[u8]) -> Vec<u8> {
    let Some(entries) = entries_of(file) else {
        return BAD_FILE.to_vec();
    };
    let (mut gateway, _) = Gateway::start(PORTS, HOUSE_NUMBER);
    let mut text = String::new();
    for (place, entry) in entries.iter().enumerate() {
        text.push_str(&line_of(&mut gateway, place, entry));
    }
    text.into_bytes()
}

/// The entries of a file, or nothing for a bad file (01-scope, Trial program, the contents table).
pub fn entries_of(file: &[u8]) -> Option<Vec<Entry>> {
    if file.len() > MOST_BYTES || file.len() < 2 {
        return None;
    }
    let count = number(&file[0..2]) as usize;
    if count > MOST_ENTRIES {
        return None;
    }
    let table_end = 2 + 3 * count;
    if file.len() < table_end {
        return None;
    }
    let mut total = table_end;
    for entry in file[2..table_end].chunks(3) {
        total += number(&entry[1..3]) as usize;
    }
    if file.len() != total {
        return None;
    }
    let mut entries = Vec::new();
    let mut next = table_end;
    for entry in file[2..table_end].chunks(3) {
        let length = number(&entry[1..3]) as usize;
        entries.push(Entry {
            port: u32::from(entry[0]),
            body: file[next..next + length].to_vec(),
        });
        next += length;
    }
    Some(entries)
}

/// The file of these entries, each a port and a body (01-scope, Trial program, the contents table).
pub fn file_of(entries: &[(u8, Vec<u8>)]) -> Vec<u8> {
    let mut file = (entries.len() as u16).to_be_bytes().to_vec();
    for (port, body) in entries {
        file.push(*port);
        file.extend((body.len() as u16).to_be_bytes());
    }
    for (_, body) in entries {
        file.extend(body);
    }
    file
}

/// The line of one entry: number, ports or refusal, lines in the table (01-scope, Trial program).
fn line_of(gateway: &mut Gateway, place: usize, entry: &Entry) -> String {
    let outcome = gateway.receive(entry.port, &entry.body);
    let answer = if outcome.refusal != 0 {
        format!("refused {}", outcome.refusal)
    } else {
        let mut digits = String::new();
        for port in 0..PORTS {
            digits.push(if outcome.sent.contains(&port) {
                '1'
            } else {
                '0'
            });
        }
        digits
    };
    format!("{place} {answer} {}\n", gateway.lines.len())
}

#[cfg(test)]
mod tests {
    use super::*;

    fn bytes_of(hex: &str) -> Vec<u8> {
        let digits: Vec<char> = hex.chars().filter(|digit| !digit.is_whitespace()).collect();
        digits
            .chunks(2)
            .map(|pair| u8::from_str_radix(&pair.iter().collect::<String>(), 16).unwrap())
            .collect()
    }

    fn example() -> Vec<u8> {
        file_of(&[
            (1, bytes_of("04C4 0A0000000001 0A00000000010001")),
            (0, bytes_of("05B4 0A0000000009 0A00000000010001")),
            (1, bytes_of("0100 0A0000000002 0A0000000002")),
            (0, bytes_of("05B4 0A0000000009 0A00000000010001")),
            (1, bytes_of("0100 0A0000000001 0A0000000001")),
            (0, bytes_of("05B4 0A0000000009 0A00000000010001")),
            (4, Vec::new()),
        ])
    }

    /// 01-scope, Trial program, the example.
    #[test]
    fn the_example() {
        let expected =
            "0 1011 1\n1 0100 1\n2 1011 1\n3 0100 1\n4 1011 0\n5 0000 0\n6 refused 8 0\n";
        assert_eq!(String::from_utf8(trial_text(&example())).unwrap(), expected);
    }

    /// 02, W2: a board with a line at port 1 comes up at port 3, where it announces anew; the line of the next Node ID stays.
    #[test]
    fn a_board_that_moves() {
        let report = (0, bytes_of("05B4 0A0000000009 0A00000000010001"));
        let file = file_of(&[
            (1, bytes_of("04C4 0A0000000001 0A00000000010001")),
            (2, bytes_of("04C4 0A0000000002 0A00000000010001")),
            report.clone(),
            (3, bytes_of("0110 0A0000000001 0A0000000001")),
            report.clone(),
            (3, bytes_of("04C4 0A0000000001 0A00000000010001")),
            report,
        ]);
        let expected = "0 1011 1\n1 1101 2\n2 0110 2\n3 1110 1\n4 0010 1\n5 1110 2\n6 0011 2\n";
        assert_eq!(String::from_utf8(trial_text(&file)).unwrap(), expected);
    }

    /// 01-scope, Trial program: any other total length, n too large, more bytes.
    #[test]
    fn bad_files() {
        assert_eq!(trial_text(&[]), BAD_FILE);
        assert_eq!(trial_text(&[0]), BAD_FILE);
        assert_eq!(trial_text(&[0, 0]), b"");
        assert_eq!(trial_text(&[0, 0, 0]), BAD_FILE);
        assert_eq!(trial_text(&[0, 1, 0, 0]), BAD_FILE);
        let mut longer = example();
        longer.push(0);
        assert_eq!(trial_text(&longer), BAD_FILE);
        let mut shorter = example();
        shorter.pop();
        assert_eq!(trial_text(&shorter), BAD_FILE);
        let most = file_of(&vec![(0, Vec::new()); 1000]);
        assert_eq!(trial_text(&most).split(|byte| *byte == b'\n').count(), 1001);
        assert!(trial_text(&most).starts_with(b"0 refused 1 0\n1 refused 1 0\n"));
        assert_eq!(trial_text(&file_of(&vec![(0, Vec::new()); 1001])), BAD_FILE);
    }

    /// 01-scope, Trial program: at most 65,536 bytes, both sides.
    #[test]
    fn longest_file() {
        let longest = file_of(&[(0, vec![0; 32_768]), (0, vec![0; 32_760])]);
        assert_eq!(longest.len(), 65_536);
        assert_eq!(trial_text(&longest), b"0 refused 3 0\n1 refused 3 0\n");
        let longer = file_of(&[(0, vec![0; 32_768]), (0, vec![0; 32_761])]);
        assert_eq!(trial_text(&longer), BAD_FILE);
    }
}
