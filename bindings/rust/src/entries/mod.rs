//! Each entry of `bindings/c/turgamysk.h` as a safe function, with the answer that crosses the boundary.
//!
//! An answer that reads begins with a [`FlatStop`]. One that writes begins with the refusal's number and three numbers
//! that it carries; here these four are one part, [`Verdict`], which has the same layout.

// Each call in these files hands over pointers to as many bytes as the header asks for, out of references that do not
// overlap. A reference to no bytes is not null.

mod amounts;
mod covenants;
mod hashes;
mod items;
mod lines;
mod links;
mod sheets;
mod states;
mod version;
mod wire;

pub use amounts::*;
pub use covenants::*;
pub use hashes::*;
pub use items::*;
pub use lines::*;
pub use links::*;
pub use sheets::*;
pub use states::*;
pub use version::*;
pub use wire::*;

use crate::refusal::{Refusal, Stop};

/// 32 bytes that an entry fills or takes.
pub type Bytes32 = [u8; 32];

/// Whether something is refused: 0 and zeros, or a refusal.
#[repr(C)]
#[derive(Clone, Copy, Debug, Default, Eq, PartialEq)]
pub struct Verdict {
    /// 0, or the refusal's number in document 01's table.
    pub number: u8,
    /// What the refusal carries first,
    pub first: usize,
    /// second,
    pub second: usize,
    /// and third; zeros where it carries less.
    pub third: usize,
}

impl Verdict {
    /// Nothing is refused.
    pub const ACCEPTED: Self = Self::refused(0, [0; 3]);

    /// A refusal of this number, with what it carries.
    pub const fn refused(number: u8, carried: [usize; 3]) -> Self {
        let [first, second, third] = carried;
        Self {
            number,
            first,
            second,
            third,
        }
    }

    /// The refusal, if it is one.
    pub(crate) fn result(self) -> Result<(), Refusal> {
        if self.number == 0 {
            return Ok(());
        }
        let carried = [self.first, self.second, self.third];
        Err(Refusal::of_answer(self.number, carried))
    }

    /// The same, of a read whose reader then stands at a position.
    pub const fn at(self, position: usize) -> FlatStop {
        let Self {
            number,
            first,
            second,
            third,
        } = self;
        FlatStop {
            number,
            first,
            second,
            third,
            position,
        }
    }
}

/// What a call that reads says beside what it read. Unused parts are zeros.
#[repr(C)]
#[derive(Clone, Copy, Debug, Default, Eq, PartialEq)]
pub struct FlatStop {
    /// 0, or the refusal's number in document 01's table.
    pub number: u8,
    /// What the refusal carries first,
    pub first: usize,
    /// second,
    pub second: usize,
    /// and third; zeros where it carries less.
    pub third: usize,
    /// Where the reader then stands.
    pub position: usize,
}

impl FlatStop {
    /// Nothing is refused, and the reader stands at a position.
    pub const fn passed(position: usize) -> Self {
        Verdict::ACCEPTED.at(position)
    }

    /// The same without the position.
    pub const fn verdict(self) -> Verdict {
        Verdict::refused(self.number, [self.first, self.second, self.third])
    }

    /// The refusal and the position, if it is one.
    pub(crate) fn result(self) -> Result<(), Stop> {
        let position = self.position;
        let verdict = self.verdict().result();
        verdict.map_err(|refusal| Stop { refusal, position })
    }
}

/// How many bytes were written, or the refusal; then nothing was written.
#[repr(C)]
#[derive(Clone, Copy, Debug, Default, Eq, PartialEq)]
pub struct WriteAnswer {
    /// Whether it was written.
    pub verdict: Verdict,
    /// The bytes written.
    pub written: usize,
}

impl WriteAnswer {
    pub(crate) fn result(self) -> Result<usize, Refusal> {
        self.verdict.result().map(|()| self.written)
    }
}
