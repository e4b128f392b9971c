//! Destinations of writers: filled with a pattern, longer than what is written, exactly full, one short, or empty.

use crate::oracle::{Refused, refused};
use crate::random::Random;
use crate::tally::{Case, Tally};
use turgamysk::entries::WriteAnswer;

#[derive(Default)]
pub struct Room {
    dest: Vec<u8>,
    expected: Vec<u8>,
}

/// A length for a destination of which `needed` bytes are to be written.
fn length(needed: usize, random: &mut Random) -> usize {
    match random.below(8) {
        0 => 0,
        1 => needed.saturating_sub(1),
        2 => random.below(needed + 1),
        3..=5 => needed,
        _ => needed + random.between(1, 20),
    }
}

fn refusal(verdict: Refused) -> WriteAnswer {
    WriteAnswer {
        verdict,
        written: 0,
    }
}

/// What is said of the size of what is to be written, where nothing is.
pub fn size_answer(expected: &Result<Vec<u8>, Refused>) -> WriteAnswer {
    match expected {
        Ok(bytes) => WriteAnswer {
            written: bytes.len(),
            ..WriteAnswer::default()
        },
        Err(refused) => refusal(*refused),
    }
}

impl Room {
    fn fill(&mut self, length: usize, pattern: u8) {
        for buffer in [&mut self.dest, &mut self.expected] {
            buffer.clear();
            buffer.resize(length, pattern);
        }
    }

    /// What a writer that has all its bytes does to this room.
    fn write(&mut self, bytes: &[u8]) -> WriteAnswer {
        match self.expected.get_mut(..bytes.len()) {
            Some(first) => {
                first.copy_from_slice(bytes);
                WriteAnswer {
                    written: bytes.len(),
                    ..WriteAnswer::default()
                }
            }
            None => refusal(refused(29, [bytes.len(), 0, 0])),
        }
    }
}

/// Compares one write: the answer, the bytes written and the bytes left alone.
pub fn compare_write(
    tally: &mut Tally,
    room: &mut Room,
    random: &mut Random,
    expected: &Result<Vec<u8>, Refused>,
    call: impl FnOnce(&mut [u8]) -> WriteAnswer,
    case: impl FnOnce() -> Case,
) {
    let needed = expected.as_ref().map_or_else(|_| 16, Vec::len);
    room.fill(length(needed, random), random.byte());
    let theirs = match expected {
        Ok(bytes) => room.write(bytes),
        Err(refused) => refusal(*refused),
    };
    if theirs.verdict.number == 29 {
        tally.known("no-room");
    }
    let ours = call(&mut room.dest);
    let left = room.dest == room.expected;
    tally.compare(
        theirs.verdict.number,
        &(ours, left),
        &(theirs, true),
        || {
            let mut case = case();
            let (length, dest) = (room.dest.len(), &room.dest[..room.dest.len().min(40)]);
            case.with += &format!("; {length} bytes of room, then {dest:x?}; true: as expected");
            case
        },
    );
}
