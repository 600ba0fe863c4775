//! Random lists of nodes that stand for their values.

use super::Random;
use crate::by_values::groups;
use crate::tree::Tree;

/// Each value once, by one of its nodes, in any order.
pub fn every_value(random: &mut Random, tree: &Tree) -> Vec<u16> {
    let of_groups = groups(tree);
    let mut list: Vec<u16> = of_groups
        .iter()
        .map(|nodes| one_of(random, nodes))
        .collect();
    shuffle(random, &mut list);
    list
}

/// Some of the values, or none, each once, in any order. Of few values one is
/// taken, half of them, or most; so parts of all sizes are drawn.
pub fn some_values(random: &mut Random, tree: &Tree) -> Vec<u16> {
    let mut list = every_value(random, tree);
    let count = match random.below(8) {
        0..=2 => 1,
        3 => random.below(3),
        4 => list.len() / 2,
        5 => list.len() - 1,
        _ => random.below(list.len() + 1),
    };
    list.truncate(count);
    list
}

/// The same values, some of them several times, by these nodes or by others.
pub fn repeated(random: &mut Random, tree: &Tree, list: &[u16]) -> Vec<u16> {
    if list.is_empty() {
        return Vec::new();
    }
    let of_groups = groups(tree);
    let mut longer = list.to_vec();
    for _ in 0..=random.below(2 * list.len()) {
        let again = usize::from(*random.pick(list));
        let of_value = of_groups.iter().find(|nodes| nodes.contains(&again));
        let nodes = of_value.expect("each node has a value");
        longer.push(one_of(random, nodes));
    }
    shuffle(random, &mut longer);
    longer
}

fn one_of(random: &mut Random, nodes: &[usize]) -> u16 {
    *random.pick(nodes) as u16
}

/// Puts the items in any order.
pub fn shuffle<T>(random: &mut Random, items: &mut [T]) {
    for left in (1..items.len()).rev() {
        items.swap(left, random.below(left + 1));
    }
}
