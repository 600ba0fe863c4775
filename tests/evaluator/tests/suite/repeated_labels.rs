//! Number 14 against its sentence: every two attributes of one element are
//! compared, the element being found by depths alone.

use std::collections::BTreeSet;

use evaluator::document::{check, spell, DocumentRecord, Kind, Library};
use evaluator::random::{any_library, branching_library, library, repeating_library, Random};

/// The element directly inside which a node stands: the last before it that is
/// less deep.
fn element_of(library: &Library, node: usize) -> Option<usize> {
    let depth = library.nodes[node].depth;
    (0..node).rfind(|v| library.nodes[*v].depth < depth)
}

/// The first attribute that another one of the same element and label stands
/// before.
fn first_repeat(library: &Library) -> Option<usize> {
    let is_attribute = |v: &usize| library.nodes[*v].kind == Kind::Attribute;
    let attributes: Vec<usize> = (0..library.nodes.len()).filter(is_attribute).collect();
    let elements: Vec<_> = (0..library.nodes.len())
        .map(|v| element_of(library, v))
        .collect();
    let repeats = |v: usize, w: usize| {
        elements[v] == elements[w] && library.nodes[v].label == library.nodes[w].label
    };
    let seconds = attributes.iter().enumerate().filter(|(at, second)| {
        let mut before = attributes[..*at].iter();
        before.any(|first| repeats(*first, **second))
    });
    seconds.map(|(_, second)| *second).min()
}

/// What the check must hand back of a library that is legal else.
fn due(library: &Library) -> DocumentRecord {
    let (number, place, nodes) = match first_repeat(library) {
        Some(node) => (14, 4 * node + 4, 0),
        None => (0, 0, library.nodes.len()),
    };
    DocumentRecord {
        number,
        place,
        nodes,
    }
}

#[test]
fn a_repeat_is_the_second_of_two_attributes_of_one_element() {
    let (mut accepted, mut places) = (0, BTreeSet::new());
    for seed in 0..6_000 {
        let random = &mut Random::new(seed);
        let most = *random.pick(&[6, 12, 40, 120]);
        let nodes = 1 + random.below(most);
        let library = repeating_library(random, nodes);
        let record = check(&spell(&library));
        assert_eq!(record, due(&library), "seed {seed}");
        accepted += usize::from(record.number == 0);
        places.insert(record.place);
    }
    assert!((1_500..4_500).contains(&accepted), "{accepted} accepted");
    assert!(places.len() > 30, "{places:?}");
}

#[test]
fn random_libraries_have_no_repeat() {
    let mut attributes = 0;
    for seed in 0..3_000 {
        let random = &mut Random::new(seed);
        let nodes = 1 + random.below(150);
        for draw in [library, any_library, branching_library] {
            let library = draw(random, nodes);
            assert_eq!(first_repeat(&library), None, "seed {seed}");
            assert_eq!(check(&spell(&library)), due(&library), "seed {seed}");
            let run = |pair: &[_]| [pair[0], pair[1]] == [Kind::Attribute; 2];
            let kinds: Vec<Kind> = library.nodes.iter().map(|node| node.kind).collect();
            attributes += kinds.windows(2).filter(|pair| run(pair)).count();
        }
    }
    assert!(attributes > 50_000, "{attributes} behind another");
}
