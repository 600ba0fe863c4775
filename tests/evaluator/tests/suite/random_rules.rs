//! Random rules, whole and damaged.

use crate::failure::assert_on_bytes;
use evaluator::grammar::longest_prefix;
use evaluator::random::{damage_rule, deep_rule, rule, Random};
use evaluator::rule::parts;
use evaluator::rule_check::{self, check};
use evaluator::Refusal;

/// The number of bytes that two byte strings have in common at their start.
fn common(a: &[u8], b: &[u8]) -> usize {
    a.iter().zip(b).take_while(|(x, y)| x == y).count()
}

#[test]
fn rules_are_spelled_and_read_back() {
    for seed in 0..3_000 {
        let random = &mut Random::new(seed);
        let size = 1 + random.below(80);
        let rule = rule(random, size);
        let spelled = rule.spell();
        assert_eq!(rule_check::read(&spelled), Ok(rule), "seed {seed}");
        let before = &spelled[..spelled.len() - 1];
        assert_on_bytes(seed, before, |bytes| {
            assert_eq!(longest_prefix(bytes).0, bytes.len())
        });
    }
}

#[test]
fn parts_begin_at_rising_offsets_with_the_bytes_they_spell() {
    for seed in 0..1_000 {
        let rule = rule(&mut Random::new(seed), 30);
        let spelled = rule.spell();
        let all = parts(&rule);
        assert!(all.windows(2).all(|pair| pair[0].offset < pair[1].offset));
        for part in &all {
            let bytes = part.piece.spell();
            assert!(spelled[part.offset..].starts_with(&bytes), "seed {seed}");
        }
    }
}

#[test]
fn damaged_rules_are_refused_where_the_grammar_says() {
    let mut accepted = 0;
    for seed in 0..8_000 {
        let random = &mut Random::new(seed);
        let size = 1 + random.below(40);
        let whole = rule(random, size).spell();
        let damaged = damage_rule(random, &whole);
        assert_on_bytes(seed, &damaged, |damaged| {
            judged_by_the_grammar(damaged, &whole)
        });
        accepted += usize::from(check(&damaged).number == 0);
    }
    assert!(accepted > 100 && accepted < 4_000, "{accepted} accepted");
}

/// An accepted rule is spelled by its own tree. A 6 lies behind everything
/// that the bytes share with some legal rule, and at a prefix that does begin
/// a rule: each way to complete it is a rule, with the same parts inside it.
fn judged_by_the_grammar(damaged: &[u8], whole: &[u8]) {
    match rule_check::read(damaged) {
        Ok(rule) => assert_eq!(rule.spell(), damaged),
        Err(Refusal { number: 6, place }) => {
            assert!(place >= common(damaged, whole));
            let prefix = &damaged[..place];
            for rest in longest_prefix(prefix).1.completions() {
                let completed = [prefix, rest.as_slice()].concat();
                let (length, due) = longest_prefix(&completed);
                assert!(length == completed.len() && due.is_whole());
            }
            assert!(longest_prefix(&damaged[..damaged.len().min(place + 1)]).0 == place);
        }
        Err(Refusal { number, place }) => {
            assert!((7..=9).contains(&number) || damaged.len() > 1_024);
            assert!(place < damaged.len());
        }
    }
}

/// Where the first part inside another begins, behind the beginning of that one.
fn first_inside(head: &str) -> usize {
    match head.starts_with('#') {
        true => head.len(),
        false => 1,
    }
}

#[test]
fn in_damaged_deep_rules_7_goes_before_6() {
    let mut sevens_before_sixes = 0;
    for seed in 0..3_000 {
        let random = &mut Random::new(seed);
        let nesting = 33 + random.below(30);
        let (heads, tail) = deep_rule(random, nesting);
        let rule = [heads.concat().into_bytes(), tail].concat();
        let place = heads[..31].concat().len() + first_inside(heads[31]);
        assert_eq!(check(&rule), Refusal { number: 7, place }, "seed {seed}");

        // Damage behind the first byte of that part leaves the 7.
        let at = place + 1 + random.below(rule.len() - place);
        let cut = [&rule[..at], b"X"].concat();
        assert_eq!(check(&cut), Refusal { number: 7, place }, "seed {seed}");
        sevens_before_sixes += usize::from(longest_prefix(&cut).0 < cut.len());

        // Damage at it or before it leaves a 6 there.
        let at = random.below(place + 1);
        let cut = [&rule[..at], b"X"].concat();
        assert_eq!(
            check(&cut),
            Refusal {
                number: 6,
                place: at
            },
            "seed {seed}"
        );
    }
    assert!(sevens_before_sixes > 2_000);
}
