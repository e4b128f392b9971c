//! Covenants back to back.

use crate::covenant::{CovenantKind, ReadCovenant};
use crate::entries::{self, RunAnswer, StepAnswer};
use crate::refusal::Stop;

/// How a run ended, and how many covenants it had before that.
#[derive(Clone, Copy, Debug, Eq, PartialEq)]
pub struct RunEnd {
    /// The covenants handed out.
    pub count: usize,
    /// What stopped the run; none where its bytes ended between two covenants.
    pub stop: Option<Stop>,
}

impl From<RunAnswer> for RunEnd {
    fn from(answer: RunAnswer) -> Self {
        Self {
            count: answer.covenants,
            stop: answer.stop.result().err(),
        }
    }
}

/// Hands out back-to-back covenants, each under the same allowance, until no bytes are left or one is refused.
///
/// ```
/// use turgamysk::{Refusal, Run, read_run};
///
/// let mut run = Run::new(&[0, 0, 3, 0, 3]);
/// assert_eq!(run.next().unwrap().unwrap().kind.0, 0);
/// assert_eq!(run.next().unwrap().unwrap().kind.0, 3);
/// let stop = run.next().unwrap().unwrap_err();
/// assert_eq!(stop.refusal, Refusal::UnexpectedEnd { offset: 5, needed: 1 });
/// assert!(run.next().is_none());
///
/// assert_eq!(read_run(&[0, 0, 3, 0]).count, 2);
/// ```
#[derive(Clone, Debug)]
pub struct Run<'input> {
    bytes: &'input [u8],
    limit: Option<usize>,
    position: usize,
    count: usize,
    is_over: bool,
}

impl<'input> Run<'input> {
    /// A run with the allowance of 1,000,009 for each covenant.
    pub const fn new(bytes: &'input [u8]) -> Self {
        Self {
            bytes,
            limit: None,
            position: 0,
            count: 0,
            is_over: false,
        }
    }

    /// A run with another allowance for each covenant.
    pub const fn with_limit(bytes: &'input [u8], limit: usize) -> Self {
        Self {
            limit: Some(limit),
            ..Self::new(bytes)
        }
    }

    fn step(&self) -> StepAnswer {
        match self.limit {
            None => entries::covenant_run_next(self.bytes, self.position, self.count),
            Some(limit) => {
                entries::covenant_run_next_with_limit(self.bytes, limit, self.position, self.count)
            }
        }
    }

    /// How many covenants were handed out.
    pub const fn covenants(&self) -> usize {
        self.count
    }
}

impl Iterator for Run<'_> {
    type Item = Result<ReadCovenant, Stop>;

    fn next(&mut self) -> Option<Self::Item> {
        if self.is_over {
            return None;
        }
        let step = self.step();
        self.is_over = step.ended || step.stop.number != 0;
        self.position = step.stop.position;
        self.count = step.covenants;
        if step.ended {
            return None;
        }
        Some(step.stop.result().map(|()| ReadCovenant {
            kind: CovenantKind(step.kind),
            count: step.count,
            used: step.used,
        }))
    }
}

/// Reads a whole run to its end, with the allowance of 1,000,009 for each covenant.
pub fn read_run(bytes: &[u8]) -> RunEnd {
    entries::covenant_read_run(bytes).into()
}

/// Reads a whole run to its end, with another allowance for each covenant.
pub fn read_run_with_limit(bytes: &[u8], limit: usize) -> RunEnd {
    entries::covenant_read_run_with_limit(bytes, limit).into()
}

/// Reads an archive, which is a run of covenants, to its end, with the allowance of 1,000,009 for each covenant.
pub fn import_archive(bytes: &[u8]) -> RunEnd {
    entries::covenant_import_archive(bytes).into()
}
