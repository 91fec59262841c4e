//! What differs between two tracks, as lines `invert FROM TO`: the twin of irig_diff, by the rules of docs/irig_diff.1.

use std::io::{self, Write};

/// Prints the stretches in which the levels of two tracks differ, each a length and its edges.
pub fn print(before: &(u64, Vec<u64>), after: &(u64, Vec<u64>), out: &mut impl Write) -> io::Result<bool> {
    if before.0 != after.0 {
        writeln!(out, "# length {} {}", before.0, after.0)?;
    }
    let (mut i, mut j) = (0, 0);
    let mut from = None;
    loop {
        let edge = match (before.1.get(i), after.1.get(j)) {
            (None, None) => break,
            (Some(x), Some(y)) if x == y => {
                (i, j) = (i + 1, j + 1);
                continue;
            }
            (Some(x), Some(y)) if x > y => (j += 1, *y).1,
            (None, Some(y)) => (j += 1, *y).1,
            (Some(x), _) => (i += 1, *x).1,
        };
        from = match from {
            None => Some(edge),
            Some(start) => {
                writeln!(out, "invert {start} {edge}")?;
                None
            }
        };
    }
    out.flush()?;
    Ok(before == after)
}
