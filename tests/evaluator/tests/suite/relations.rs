//! Relations are joined row by row, and closed by rows that grow. Here both are
//! held against what the words say, pair by pair.

use evaluator::random::Random;
use evaluator::relation::Relation;

/// Mostly few nodes; seldom more than a row has in one word or two.
fn draw_size(random: &mut Random) -> usize {
    match random.below(50) {
        0 => 60 + random.below(75),
        _ => 1 + random.below(14),
    }
}

/// A random relation over so many nodes, with few pairs or many.
fn draw_relation(random: &mut Random, size: usize) -> Relation {
    let related = *random.pick(&[3, 10, 40]);
    let pairs: Vec<bool> = (0..size * size).map(|_| random.percent(related)).collect();
    Relation::where_holds(size, |v, w| pairs[v * size + w])
}

/// "one after the other": to some node by the first, from it by the second.
fn one_after_the_other(first: &Relation, second: &Relation) -> Relation {
    let size = first.size();
    let leads = |v, w| (0..size).any(|u| first.has(v, u) && second.has(u, w));
    Relation::where_holds(size, leads)
}

#[test]
fn joined_relations_have_a_node_between() {
    let mut some = 0;
    for seed in 0..1_000 {
        let random = &mut Random::new(seed);
        let size = draw_size(random);
        let (first, second) = (draw_relation(random, size), draw_relation(random, size));
        let joined = first.then(&second);
        assert_eq!(joined, one_after_the_other(&first, &second), "seed {seed}");
        some += usize::from((0..size).any(|v| !joined.from(v).is_empty()));
    }
    assert!(some > 500, "{some} had pairs");
}

#[test]
fn a_closure_is_the_relation_zero_or_more_times() {
    let mut often = 0;
    for seed in 0..1_000 {
        let random = &mut Random::new(seed);
        let size = draw_size(random);
        let relation = draw_relation(random, size);
        // A turn that adds nothing is the last that is needed.
        let mut turns = Relation::where_holds(size, |v, w| v == w);
        let mut closure = turns.clone();
        let mut needed = 0;
        loop {
            turns = one_after_the_other(&turns, &relation);
            let longer = Relation::where_holds(size, |v, w| closure.has(v, w) || turns.has(v, w));
            if longer == closure {
                break;
            }
            needed += 1;
            closure = longer;
        }
        assert_eq!(relation.repeated(), closure, "seed {seed}");
        often += usize::from(needed >= 3);
    }
    assert!(often > 300, "{often} needed three turns");
}

#[test]
fn a_union_has_the_pairs_of_both_and_a_row_its_nodes_rising() {
    for seed in 0..1_000 {
        let random = &mut Random::new(seed);
        let size = draw_size(random);
        let (first, second) = (draw_relation(random, size), draw_relation(random, size));
        let union = first.union(&second);
        for v in 0..size {
            let related = |w: &usize| first.has(v, *w) || second.has(v, *w);
            let due: Vec<usize> = (0..size).filter(related).collect();
            assert_eq!(union.from(v), due, "seed {seed}");
        }
    }
}
