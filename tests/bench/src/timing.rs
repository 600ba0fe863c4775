//! Times calls, several in turn.

use std::hint::black_box;
use std::time::{Duration, Instant};

/// So many times each call is timed.
pub const RUNS: usize = 61;
/// At least so many times, if time is short.
const LEAST_RUNS: usize = 3;
/// A run repeats the call until it has lasted at least so long, so that the
/// clock's own steps do not count.
pub const RUN_LENGTH: Duration = Duration::from_millis(4);
/// At least about so many bytes are read between two looks at the clock, which
/// would take longer than a call that reads few.
const BYTES_BETWEEN: usize = 20_000;

/// Something to time, with the bytes that it reads in one call.
pub struct Subject<'a> {
    pub name: &'a str,
    pub bytes: usize,
    pub call: Box<dyn Fn() -> usize + 'a>,
}

/// Seconds that one call takes. The fastest run is the one that other work on
/// the machine disturbed least.
pub struct Times {
    pub median: f64,
    pub fastest: f64,
    pub runs: usize,
}

/// How many times as long the one takes as the other, with so many digits.
pub fn ratio(one: &Times, other: &Times, digits: usize) -> String {
    let (median, fastest) = (one.median / other.median, one.fastest / other.fastest);
    format!("{median:.digits$} ({fastest:.digits$})")
}

/// Times all subjects in turn, again and again, so that a change in the
/// machine's load meets all of them alike.
pub fn time(subjects: &[Subject]) -> Vec<Times> {
    time_for(subjects, Duration::MAX)
}

/// The same, but no further runs are begun once so much time has passed.
pub fn time_for(subjects: &[Subject], budget: Duration) -> Vec<Times> {
    let begun = Instant::now();
    let mut runs = vec![Vec::new(); subjects.len()];
    for run in 0..RUNS {
        if run >= LEAST_RUNS && begun.elapsed() > budget {
            break;
        }
        for (subject, times) in subjects.iter().zip(&mut runs) {
            times.push(one_run(subject));
        }
    }
    runs.iter_mut().map(|times| summary(times)).collect()
}

/// Something that takes its turn: a run, which says how many seconds one call took
/// in it, or why it is out of the game.
pub type Turn<'a, E> = Box<dyn FnMut() -> Result<f64, E> + 'a>;

/// One that takes its turns, with what came of them so far.
struct Player<'a, E> {
    turn: Turn<'a, E>,
    times: Vec<f64>,
    spent: Duration,
    out: Option<E>,
}

impl<'a, E> Player<'a, E> {
    fn new(turn: Turn<'a, E>) -> Player<'a, E> {
        Player {
            turn,
            times: Vec::new(),
            spent: Duration::ZERO,
            out: None,
        }
    }

    fn take_turn(&mut self, budget: Duration) {
        let over = self.times.len() >= LEAST_RUNS && self.spent > budget;
        if self.out.is_some() || over {
            return;
        }
        let start = Instant::now();
        match (self.turn)() {
            Ok(seconds) => self.times.push(seconds),
            Err(reason) => self.out = Some(reason),
        }
        self.spent += start.elapsed();
    }

    fn result(mut self) -> Result<Times, E> {
        match self.out {
            None => Ok(summary(&mut self.times)),
            Some(reason) => Err(reason),
        }
    }
}

/// Lets all take turns, again and again. Each has a budget of its own, so that a
/// slow one has fewer runs and takes none from the others.
pub fn take_turns<E>(turns: Vec<Turn<E>>, budget: Duration) -> Vec<Result<Times, E>> {
    let mut players: Vec<Player<E>> = turns.into_iter().map(Player::new).collect();
    for _ in 0..RUNS {
        for player in &mut players {
            player.take_turn(budget);
        }
    }
    players.into_iter().map(Player::result).collect()
}

fn summary(times: &mut [f64]) -> Times {
    times.sort_by(f64::total_cmp);
    Times {
        median: times[times.len() / 2],
        fastest: times[0],
        runs: times.len(),
    }
}

/// The seconds that one call takes in a run of its own.
pub fn one_run(subject: &Subject) -> f64 {
    let batch = 1 + BYTES_BETWEEN / subject.bytes;
    let start = Instant::now();
    let mut calls = 0;
    while start.elapsed() < RUN_LENGTH {
        for _ in 0..batch {
            black_box((subject.call)());
        }
        calls += batch;
    }
    start.elapsed().as_secs_f64() / calls as f64
}

#[cfg(test)]
mod tests {
    use super::{take_turns, Turn, LEAST_RUNS, RUNS};
    use std::time::Duration;

    #[test]
    fn a_slow_one_takes_no_runs_from_the_others() {
        let pause = Duration::from_millis(2);
        let slow = move || {
            std::thread::sleep(pause);
            Ok(2.0)
        };
        let mut left = 2;
        let falls_out = move || {
            left -= 1;
            match left {
                0 => Err("out"),
                _ => Ok(3.0),
            }
        };
        let turns: Vec<Turn<&str>> =
            vec![Box::new(|| Ok(1.0)), Box::new(slow), Box::new(falls_out)];
        let times = take_turns(turns, pause).into_iter();
        let runs: Vec<Result<usize, &str>> = times.map(|its| its.map(|its| its.runs)).collect();
        assert_eq!(runs, [Ok(RUNS), Ok(LEAST_RUNS), Err("out")]);
    }
}
