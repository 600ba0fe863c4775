//! Bare scans: each counts the LF bytes and does nothing else.
//!
//! What the compiler makes of the first two was read in the machine code for
//! plain x86-64; another compiler or processor may differ. They are far apart
//! although both use vector instructions, so that a ratio means nothing
//! without the scan that it was taken against.

use std::hint::black_box;

pub type Scan = fn(&[u8]) -> usize;

pub const SCANS: [(&str, Scan); 4] = [
    ("LF count in byte lanes", count_in_byte_lanes),
    ("LF count, plain loop", count),
    ("LF count, byte by byte", count_byte_by_byte),
    ("LF search, line by line", search_line_by_line),
];

/// As fast as a vectorised search for one byte: 16 bytes are compared at once
/// and counted in 16 counters of a byte each. A chunk has 255 bytes, so that
/// no such counter can overflow.
fn count_in_byte_lanes(bytes: &[u8]) -> usize {
    let chunk_count = |chunk: &[u8]| {
        let is_end = |byte: &u8| u8::from(*byte == b'\n');
        usize::from(chunk.iter().map(is_end).sum::<u8>())
    };
    bytes.chunks(255).map(chunk_count).sum()
}

/// The plain loop. It is vectorised too, but widens each byte to a counter of
/// 64 bits and so takes 4 bytes a turn: hardly faster than one at a time.
fn count(bytes: &[u8]) -> usize {
    bytes.iter().filter(|byte| **byte == b'\n').count()
}

/// The same loop, one byte at a time: the compiler must not look through
/// `black_box`, which costs a store and a load for each byte.
fn count_byte_by_byte(bytes: &[u8]) -> usize {
    bytes
        .iter()
        .filter(|byte| black_box(**byte) == b'\n')
        .count()
}

/// Looks for the end of one line after the other, as a reader of lines must.
/// The loop leaves at each LF and is compiled to one byte at a time.
fn search_line_by_line(bytes: &[u8]) -> usize {
    let mut rest = bytes;
    let mut lines = 0;
    while let Some(length) = rest.iter().position(|byte| *byte == b'\n') {
        rest = &rest[length + 1..];
        lines += 1;
    }
    lines
}

#[cfg(test)]
mod tests {
    use super::SCANS;

    #[test]
    fn all_scans_count_alike() {
        for length in [0_usize, 1, 254, 255, 256, 1_000, 70_000] {
            for step in [1, 2, 7, 300] {
                let bytes: Vec<u8> = (0..length)
                    .map(|at| if at % step == 0 { b'\n' } else { b'x' })
                    .collect();
                for (name, scan) in SCANS {
                    assert_eq!(scan(&bytes), length.div_ceil(step), "{name}");
                }
            }
        }
    }
}
