//! A peer as a process, which is asked and answers by lines; `tests/bench/peers/peer.h`
//! says by which.

use std::io::{self, BufRead, BufReader, Write};
use std::path::Path;
use std::process::{Child, ChildStdin, Command, Stdio};
use std::sync::mpsc::{channel, Receiver, RecvTimeoutError};
use std::thread;
use std::time::Duration;

/// So long it may take to start, and to read a file.
const PATIENCE: Duration = Duration::from_secs(60);

/// Why there is no answer.
#[derive(Clone, Copy, Debug, PartialEq, Eq)]
pub enum Silence {
    /// It took too long.
    TooSlow,
    /// It has ended: it could not do what was asked, or had too little memory.
    Ended,
}

/// What came of a run.
#[derive(Clone, Copy, Debug, PartialEq)]
pub struct Ran {
    /// How many nodes the expression selects.
    pub selected: usize,
    /// How long one call took.
    pub seconds: f64,
}

/// A peer that runs. It is ended when this goes out of scope.
pub struct Peer {
    process: Child,
    requests: ChildStdin,
    answers: Receiver<String>,
}

impl Peer {
    /// Starts it, and waits for its first line: its version.
    pub fn start(command: &mut Command) -> io::Result<(Peer, String)> {
        let command = command.stdin(Stdio::piped()).stdout(Stdio::piped());
        let mut process = command.spawn()?;
        let requests = process.stdin.take().expect("its input is ours");
        let output = process.stdout.take().expect("its output is ours");
        // What it writes is read by a thread: a read cannot be given up, and waiting for
        // the thread can. The thread ends when the process does.
        let (found, answers) = channel();
        thread::spawn(move || {
            for line in BufReader::new(output).lines().map_while(Result::ok) {
                if found.send(line).is_err() {
                    break;
                }
            }
        });
        let peer = Peer {
            process,
            requests,
            answers,
        };
        match peer.answer(PATIENCE) {
            Ok(version) => Ok((peer, version)),
            Err(_) => Err(io::Error::other("it does not start")),
        }
    }

    /// Lets it read a file, which it keeps in memory.
    pub fn read(&mut self, file: &Path) {
        let request = format!("document {}", file.display());
        let answer = self.ask(&request, PATIENCE);
        answer.expect("it reads the file");
    }

    /// Lets it make calls until so much time has passed, and at least one; waits no
    /// longer than the limit.
    pub fn run(
        &mut self,
        expression: &str,
        length: Duration,
        limit: Duration,
    ) -> Result<Ran, Silence> {
        let request = format!("run {} {expression}", length.as_nanos());
        let answer = self.ask(&request, limit)?;
        let ran = ran(&answer);
        Ok(ran.unwrap_or_else(|| panic!("no answer to {request}: {answer}")))
    }

    fn ask(&mut self, request: &str, limit: Duration) -> Result<String, Silence> {
        let asked = writeln!(self.requests, "{request}").and_then(|()| self.requests.flush());
        asked.map_err(|_| Silence::Ended)?;
        self.answer(limit)
    }

    fn answer(&self, limit: Duration) -> Result<String, Silence> {
        self.answers
            .recv_timeout(limit)
            .map_err(|error| match error {
                RecvTimeoutError::Timeout => Silence::TooSlow,
                RecvTimeoutError::Disconnected => Silence::Ended,
            })
    }
}

impl Drop for Peer {
    fn drop(&mut self) {
        // One that is too slow would go on. If it has ended by itself, so much the better.
        let _ = self.process.kill();
        let _ = self.process.wait();
    }
}

/// Reads the answer to a run: nodes, calls and nanoseconds.
fn ran(answer: &str) -> Option<Ran> {
    let mut words = answer.split(' ');
    let selected = words.next()?.parse().ok()?;
    let calls: f64 = words.next()?.parse().ok()?;
    let nanoseconds: f64 = words.next()?.parse().ok()?;
    let seconds = nanoseconds / calls / 1e9;
    words.next().is_none().then_some(Ran { selected, seconds })
}

#[cfg(test)]
mod tests {
    use super::{ran, Peer, Ran, Silence};
    use std::path::Path;
    use std::process::Command;
    use std::time::Duration;

    #[test]
    fn an_answer_has_three_numbers() {
        let (selected, seconds) = (3, 0.5);
        let due = Ran { selected, seconds };
        assert_eq!(ran("3 4 2000000000"), Some(due));
        for answer in ["", "3", "3 4", "3 4 x", "3 4 5 6"] {
            assert_eq!(ran(answer), None, "{answer}");
        }
    }

    /// A peer that is a script of the shell.
    fn peer(script: &str) -> Peer {
        let mut command = Command::new("sh");
        let (peer, version) = Peer::start(command.args(["-c", script])).expect("it starts");
        assert_eq!(version, "version 1");
        peer
    }

    #[test]
    fn a_peer_answers_line_by_line() {
        let script = "echo version 1; read a; echo 9; read b; echo 7 2 3000000000; cat";
        let mut peer = peer(script);
        peer.read(Path::new("some.xml"));
        let (selected, seconds) = (7, 1.5);
        let long = Duration::from_secs(60);
        let ran = peer.run("//a", Duration::ZERO, long);
        assert_eq!(ran, Ok(Ran { selected, seconds }));
    }

    #[test]
    fn a_peer_may_be_too_slow_or_end() {
        let long = Duration::from_secs(60);
        let short = Duration::from_millis(20);
        let mut slow = peer("echo version 1; read a; exec sleep 100");
        let ran = slow.run("//a", Duration::ZERO, short);
        assert_eq!(ran, Err(Silence::TooSlow));
        let mut ending = peer("echo version 1; read a");
        let ran = ending.run("//a", Duration::ZERO, long);
        assert_eq!(ran, Err(Silence::Ended));
    }
}
