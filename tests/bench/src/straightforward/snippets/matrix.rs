//! Relations over positions: row i has the positions that i is related to.

pub type Matrix = [u16; 16];

/// The members of a set of positions, rising.
pub fn members(mut set: u16) -> impl Iterator<Item = usize> {
    std::iter::from_fn(move || {
        let least = (set != 0).then(|| set.trailing_zeros() as usize);
        set &= set.wrapping_sub(1);
        least
    })
}

/// What the members of a set are related to.
pub fn behind(a: &Matrix, set: u16) -> u16 {
    members(set).fold(0, |found, position| found | a[position])
}

/// The positions that are related to a member of a set.
pub fn before(a: &Matrix, set: u16) -> u16 {
    let related = |position: usize| u16::from(a[position] & set != 0) << position;
    (0..16).fold(0, |found, position| found | related(position))
}

/// First by the one, then by the other.
pub fn product(a: &Matrix, b: &Matrix) -> Matrix {
    a.map(|row| behind(b, row))
}

pub fn add(a: &mut Matrix, b: &Matrix) {
    a.iter_mut().zip(b).for_each(|(row, more)| *row |= more);
}

/// Zero or more times.
pub fn close(a: &mut Matrix) {
    (0..16).for_each(|position| a[position] |= 1 << position);
    for middle in 0..16 {
        let row = a[middle];
        let by_middle = a.iter_mut().filter(|other| **other >> middle & 1 == 1);
        by_middle.for_each(|other| *other |= row);
    }
}

/// The pairs whose two members are related, each to one of a pair of these.
pub fn both_before(a: &Matrix, pairs: &Matrix) -> Matrix {
    product(a, pairs).map(|row| before(a, row))
}
