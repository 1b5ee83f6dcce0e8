//! Running a program on a file, and several files at once.

use std::io::{self, Write};
use std::process::{Child, Command, Stdio};
use std::sync::atomic::{AtomicUsize, Ordering};
use std::sync::mpsc;
use std::thread;

use super::witness::Text;

/// A program: the words that start it, its path the last of them.
pub struct Program(pub Vec<String>);

/// What a program printed, and how it ended.
#[derive(PartialEq, Debug)]
pub struct Printed {
    text: Text,
    ended: String,
}

impl Printed {
    /// What a program prints that ends well.
    pub fn expected(text: Vec<u8>) -> Printed {
        let ended = "exit status: 0".to_string();
        let text = Text(text);
        Printed { text, ended }
    }
}

impl Program {
    /// What it prints with the file as its standard input; one that cannot be run has printed nothing.
    pub fn run(&self, file: &[u8]) -> Printed {
        self.start()
            .and_then(|child| printed(child, file))
            .unwrap_or_else(|error| Printed {
                text: Text(Vec::new()),
                ended: format!("not run: {error}"),
            })
    }

    /// Starts it.
    fn start(&self) -> io::Result<Child> {
        let missing = || io::Error::other("no program is named");
        let (first, others) = self.0.split_first().ok_or_else(missing)?;
        let mut command = Command::new(first);
        command.args(others);
        command.stdin(Stdio::piped()).stdout(Stdio::piped()).spawn()
    }
}

/// What a started program prints; the file is written beside the reading, so that neither side waits for the other.
fn printed(mut child: Child, file: &[u8]) -> io::Result<Printed> {
    let input = child.stdin.take();
    let output = thread::scope(|scope| {
        // A program may end before it has read all of its input, so that a failure to write is no error.
        scope.spawn(move || input.map(|mut pipe| pipe.write_all(file)));
        child.wait_with_output()
    })?;
    Ok(Printed {
        text: Text(output.stdout),
        ended: output.status.to_string(),
    })
}

/// Gives each place below the count to one of the workers, as many at once as there are processors, and takes what they answer, in any order.
pub fn at_once<T: Send>(
    count: usize,
    work: impl Fn(usize) -> T + Sync,
    mut take: impl FnMut(usize, T),
) {
    let next = AtomicUsize::new(0);
    let workers = thread::available_parallelism().map_or(1, usize::from);
    let (sender, receiver) = mpsc::channel();
    thread::scope(|scope| {
        for _ in 0..workers {
            let (sender, next, work) = (sender.clone(), &next, &work);
            scope.spawn(move || loop {
                let place = next.fetch_add(1, Ordering::Relaxed);
                if place >= count || sender.send((place, work(place))).is_err() {
                    break;
                }
            });
        }
        drop(sender);
        receiver
            .iter()
            .for_each(|(place, answer)| take(place, answer));
    });
}

#[cfg(test)]
mod tests {
    use super::*;

    fn program(line: &str) -> Program {
        Program(line.split(' ').map(str::to_string).collect())
    }

    /// More than a pipe holds goes through, both ways.
    #[test]
    fn a_long_file() {
        let file = vec![b'a'; 300_000];
        assert!(program("cat").run(&file) == Printed::expected(file));
    }

    /// A program that reads nothing, one that ends badly, and one that is not there.
    #[test]
    fn ways_to_end() {
        let file = vec![b'a'; 300_000];
        assert!(program("true").run(&file) == Printed::expected(Vec::new()));
        assert!(program("false").run(&file) != Printed::expected(Vec::new()));
        assert!(program("./no/such/program").run(&file) != Printed::expected(Vec::new()));
        assert!(Program(Vec::new()).run(&file) != Printed::expected(Vec::new()));
    }

    /// Every place is worked on once.
    #[test]
    fn all_places() {
        let mut answers = vec![0; 100];
        at_once(
            100,
            |place| 3 * place,
            |place, answer| answers[place] += answer,
        );
        let expected: Vec<usize> = (0..100).map(|place| 3 * place).collect();
        assert_eq!(answers, expected);
        at_once(0, |_| unreachable!(), |_, ()| unreachable!());
    }
}
