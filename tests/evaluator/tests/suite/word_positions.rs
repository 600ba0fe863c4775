//! The positions of random paths against their words, written out one by one.

use std::collections::BTreeSet;

use evaluator::positions::{Positions, Words};
use evaluator::random::{rule, Random};
use evaluator::reader;
use evaluator::rule::{equalities, Path};

/// Above this many words a path is left aside.
const MOST_WORDS: usize = 3_000;

type Word = Vec<usize>;

/// All words in which each star runs at most twice, or none if they are too
/// many. Twice is enough to show what follows what, what is first and what is
/// last: by induction each of these shows in such a word of the path inside
/// the star, and a pair across two runs in two such words joined.
fn words(of: &Words) -> Option<BTreeSet<Word>> {
    let written = match of {
        Words::Empty => BTreeSet::from([vec![]]),
        Words::Step(step) => BTreeSet::from([vec![*step]]),
        Words::Then(a, b) => join(&words(a)?, &words(b)?)?,
        Words::Either(a, b) => &words(a)? | &words(b)?,
        Words::Repeat(inner) => {
            let once = words(inner)?;
            let twice = join(&once, &once)?;
            &(&once | &twice) | &BTreeSet::from([vec![]])
        }
    };
    (written.len() <= MOST_WORDS).then_some(written)
}

fn join(a: &BTreeSet<Word>, b: &BTreeSet<Word>) -> Option<BTreeSet<Word>> {
    let all = || {
        a.iter()
            .flat_map(|u| b.iter().map(move |v| [u.as_slice(), v].concat()))
    };
    (a.len() * b.len() <= 4 * MOST_WORDS).then(|| all().collect())
}

/// The follow square and the last positions, read off the words of one path.
fn read_off(words: &BTreeSet<Word>, start: usize, follows: &mut [Vec<bool>], last: &mut [bool]) {
    for word in words {
        let mut before = start;
        for &step in word {
            follows[before][step] = true;
            before = step;
        }
        last[before] = true;
    }
}

/// Compares; false if the words are too many to write out.
fn positions_agree(seed: u64, p: &Path, r: &Path) -> bool {
    let positions = Positions::of(p, r);
    let count = positions.count();
    let mut next = 1;
    let of_p = words(&Words::of(p, &mut next));
    let of_r = words(&Words::of(r, &mut next));
    let (Some(of_p), Some(of_r)) = (of_p, of_r) else {
        return false;
    };
    let mut follows = vec![vec![false; count]; count];
    let mut last = vec![false; count];
    read_off(&of_p, 0, &mut follows, &mut last);
    read_off(&of_r, count - 1, &mut follows, &mut last);
    assert_eq!(positions.follows, follows, "seed {seed}: {p:?} {r:?}");
    assert_eq!(positions.last, last, "seed {seed}: {p:?} {r:?}");
    true
}

#[test]
fn follow_and_last_are_those_of_the_words() {
    let mut compared = 0;
    for seed in 0..4_000 {
        let random = &mut Random::new(seed);
        let size = 4 + random.below(14);
        let rule = rule(random, size);
        for (p, r) in equalities(&rule) {
            compared += usize::from(positions_agree(seed, p, r));
        }
    }
    assert!(compared > 2_000, "{compared} compared");
}

/// The follow pairs and the last positions of a rule's one equality.
fn listed(rule: &str) -> (Vec<(usize, usize)>, Vec<usize>) {
    let test = reader::read(rule.as_bytes());
    let all = equalities(&test);
    let positions = Positions::of(all[0].0, all[0].1);
    let places = 0..positions.count();
    let pairs = places
        .clone()
        .flat_map(|i| places.clone().map(move |j| (i, j)));
    (
        pairs.filter(|(i, j)| positions.follows[*i][*j]).collect(),
        places.clone().filter(|i| positions.last[*i]).collect(),
    )
}

#[test]
fn positions_of_the_session_are_as_worked_out_by_hand() {
    // P is 1 `l`, 2 `[:name]`; R is 3 `r`, 4 `r` starred, 5 `l`; R starts at 6.
    let (follows, last) = listed("(.l[:name]=..r*rl)");
    assert_eq!(
        follows,
        [(0, 1), (1, 2), (3, 4), (3, 5), (4, 4), (4, 5), (6, 3)]
    );
    assert_eq!(last, [2, 5]);
}

#[test]
fn starts_are_last_when_the_empty_word_belongs() {
    assert_eq!(listed("(e=*l)"), (vec![(1, 1), (2, 1)], vec![0, 1, 2]));
    assert_eq!(listed("(+el=l)"), (vec![(0, 1), (3, 2)], vec![0, 1, 2]));
    assert_eq!(listed("(*e=.*e*e)"), (vec![], vec![0, 1]));
}

#[test]
fn a_star_of_a_sequence_turns_from_its_end_to_its_beginning() {
    let (follows, last) = listed("(*.l+er=e)");
    assert_eq!(follows, [(0, 1), (1, 1), (1, 2), (2, 1)]);
    assert_eq!(last, [0, 1, 2, 3]);
}
