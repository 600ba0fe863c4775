//! Whole calls beside other engines, which people would take instead: the same nodes
//! as XML, the same question as XPath, all in one run and taking turns.
//!
//! A call of ours judges document and rule, evaluates, and clears its scratch. A call
//! of theirs parses the document from memory, reads the expression, evaluates it, and
//! gives back its memory. Each engine is a program under `tests/bench/peers`, which is
//! built here and kept running; an engine that is not installed is left out.

mod aims;
mod cases;
mod engines;
mod process;
mod table;

use std::time::Duration;

use crate::evaluations::{assert_same_answers, proved, BY_SNIPPETS};
use crate::timing::{one_run, take_turns, Turn, RUN_LENGTH};
use crate::xml::XmlFile;
use cases::{Case, Question};
use engines::Engine;
use evaluator::document::spell;
use process::{Peer, Silence};
use table::{Outcome, Row};

/// So long one call of a peer may take.
const LIMIT: Duration = Duration::from_secs(10);

/// So long each is timed in a case; longer if calls are slow, which are made three
/// times in any case.
const BUDGET: Duration = Duration::from_secs(2);

pub fn print() {
    let engines = installed();
    for question in cases::questions() {
        print_question(&question, &engines);
    }
    aims::print();
}

/// The engines that can be asked. Says which ones they are, and what the others lack.
fn installed() -> Vec<Engine> {
    let mut engines = Vec::new();
    for (name, built) in engines::build_all() {
        match built {
            Ok(engine) => {
                println!("  {name}: {}", engine.version);
                engines.push(engine);
            }
            Err(words) => println!("  {name} is left out: {words}"),
        }
    }
    engines
}

/// A table for one question, a line for each library.
fn print_question(question: &Question, engines: &[Engine]) {
    println!("\n{}\n  {}", question.name, question.rule);
    println!("  {}", question.expression);
    table::print_heading(engines);
    for case in question.cases() {
        let row = time_case(question, &case, engines);
        table::print_row(&case, &row);
    }
}

/// Ours and each peer on one library, in turns. Ours is compared with the version in
/// Rust before, and each peer has to select as many nodes as ours.
fn time_case(question: &Question, case: &Case, engines: &[Engine]) -> Row {
    let (document, rule) = (spell(&case.library), question.rule.as_bytes());
    let nodes = case.library.nodes.len();
    let selected = assert_same_answers(&document, rule, nodes).selected;
    let file = XmlFile::of(&case.library).expect("no two texts stand together");
    let ours = proved(&BY_SNIPPETS, &document, rule, nodes);
    let mut peers: Vec<Result<Peer, Silence>> = engines
        .iter()
        .map(|engine| ready(engine, &file, &question.expression, selected))
        .collect();
    let mut turns: Vec<Turn<Silence>> = vec![Box::new(|| Ok(one_run(&ours)))];
    for peer in &mut peers {
        turns.push(Box::new(|| {
            let peer = peer.as_mut().map_err(|silence| *silence)?;
            let ran = peer.run(&question.expression, RUN_LENGTH, LIMIT)?;
            assert_eq!(ran.selected, selected, "{}", question.expression);
            Ok(ran.seconds)
        }));
    }
    let mut outcomes = take_turns(turns, BUDGET).into_iter();
    let ours = outcomes.next().and_then(Outcome::ok);
    Row {
        selected,
        ours: ours.expect("ours is never out"),
        peers: outcomes.collect(),
    }
}

/// A peer that has read the file, has selected as many nodes as it should, and is warm.
fn ready(
    engine: &Engine,
    file: &XmlFile,
    expression: &str,
    selected: usize,
) -> Result<Peer, Silence> {
    let mut peer = engine.start();
    peer.read(&file.path);
    let ran = peer.run(expression, Duration::ZERO, LIMIT)?;
    let name = engine.name;
    assert_eq!(ran.selected, selected, "{name}: {expression}");
    warm_up(&mut peer, expression)?;
    Ok(peer)
}

/// A round of calls that are not timed is so long.
const ROUND: Duration = Duration::from_millis(500);
/// It is warm when so many rounds together have brought no gain.
const ROUNDS_WITHOUT_GAIN: usize = 3;
/// Less is no gain.
const GAIN: f64 = 0.97;
/// So many rounds at most.
const MOST_ROUNDS: usize = 30;

/// Lets it make calls until they get no faster: Java translates what it runs while it
/// runs it.
fn warm_up(peer: &mut Peer, expression: &str) -> Result<(), Silence> {
    let (mut best, mut without) = (f64::INFINITY, 0);
    for _ in 0..MOST_ROUNDS {
        let ran = peer.run(expression, ROUND, LIMIT + ROUND)?;
        let gained = ran.seconds < GAIN * best;
        without = if gained { 0 } else { without + 1 };
        best = best.min(ran.seconds);
        if without == ROUNDS_WITHOUT_GAIN {
            break;
        }
    }
    Ok(())
}
