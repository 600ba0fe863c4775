//! How near a rule comes to the limits.

use std::fmt::{self, Display, Formatter};

use yurzhoad::limits::{MAX_NESTING, MAX_STEPS, MAX_TESTS};

use crate::output::counted;
use crate::reader::Part;

/// What of a rule is limited, apart from its bytes.
pub struct Summary {
    pub tests: usize,
    /// That of the part that is nested deepest.
    pub nesting: usize,
    /// The offset and the steps of each comparison and each count.
    stepped: Vec<(usize, usize)>,
}

impl Summary {
    /// Sums up the parts of a rule.
    pub fn of(parts: &[Part<'_>]) -> Summary {
        let stepped = |part: &Part<'_>| Some((part.offset, part.form.steps()?));
        Summary {
            tests: parts.iter().filter(|part| part.form.is_test()).count(),
            nesting: parts.iter().map(|part| part.nesting).max().unwrap_or(0),
            stepped: parts.iter().filter_map(stepped).collect(),
        }
    }

    /// The steps of the comparison or count that has the most.
    pub fn most_steps(&self) -> usize {
        let steps = self.stepped.iter().map(|(_, steps)| *steps);
        steps.max().unwrap_or(0)
    }
}

/// In one line.
impl Display for Summary {
    fn fmt(&self, f: &mut Formatter<'_>) -> fmt::Result {
        let (tests, nesting) = (counted(self.tests, "test"), self.nesting);
        write!(
            f,
            "{tests} of {MAX_TESTS}, nesting {nesting} of {MAX_NESTING}, "
        )?;
        match &self.stepped[..] {
            [] => write!(f, "no comparison or count"),
            [(_, steps)] => write!(f, "{} of {MAX_STEPS}", counted(*steps, "step")),
            several => {
                let each = several.iter().map(|(at, steps)| format!("{steps} at {at}"));
                let each: Vec<String> = each.collect();
                write!(f, "steps of {MAX_STEPS}: {}", each.join(", "))
            }
        }
    }
}
