//! The original's answers in the flat form of ours: document 01's number of each of its errors, with what it carries.

use crate::tally::PANIC;
use hns_covenants::{Covenant, CovenantError, MAX_COVENANT_ENCODED_SIZE};
use hns_encoding::{DecodeError, Decoder};
use std::cell::Cell;
use std::panic::{self, AssertUnwindSafe};
use turgamysk::entries::{CovenantAnswer, FlatStop, Verdict};

/// A refusal: its number and what it carries, zeros where it carries less.
pub type Refused = Verdict;

pub const fn refused(number: u8, carried: [usize; 3]) -> Refused {
    Verdict::refused(number, carried)
}

thread_local! {
    /// Whether the original is being asked: its panics are answers.
    static ASKED: Cell<bool> = const { Cell::new(false) };
}

/// Panics are printed as always, but for those of the original.
pub fn print_own_panics_only() {
    let usual = panic::take_hook();
    panic::set_hook(Box::new(move |what| {
        if !ASKED.get() {
            usual(what);
        }
    }));
}

/// What the original gives, or the panic in its place.
pub fn guarded<T>(call: impl FnOnce() -> Result<T, Refused>) -> Result<T, Refused> {
    ASKED.set(true);
    let answer = panic::catch_unwind(AssertUnwindSafe(call));
    ASKED.set(false);
    answer.unwrap_or(Err(refused(PANIC, [0; 3])))
}

pub fn decode_error(error: &DecodeError) -> Refused {
    match *error {
        DecodeError::UnexpectedEnd { offset, needed } => refused(1, [offset, needed, 0]),
        DecodeError::LengthExceedsBound { actual, maximum } => refused(2, [actual, maximum, 0]),
        DecodeError::TrailingBytes { remaining } => refused(3, [remaining, 0, 0]),
        DecodeError::InvalidValue { reason, .. } => refused(4, [width(reason), 0, 0]),
    }
}

fn width(reason: &str) -> usize {
    match reason {
        "noncanonical u16 encoding" => 16,
        "noncanonical u32 encoding" => 32,
        "noncanonical u64 encoding" => 64,
        other => panic!("not a reason of a compact size: {other}"),
    }
}

pub fn covenant_error(error: &CovenantError) -> Refused {
    match error {
        CovenantError::Decode(error) => decode_error(error),
        CovenantError::TooLarge { actual, maximum } => refused(5, [*actual, *maximum, 0]),
        CovenantError::InvalidName => refused(6, [0; 3]),
        CovenantError::InvalidNameState(reason) => refused(7, [state_reason(reason), 0, 0]),
        CovenantError::NonCanonicalNameState => refused(8, [0; 3]),
        CovenantError::NameStateHashMismatch => refused(9, [0; 3]),
        other => panic!("not an error of a covenant or a state: {other}"),
    }
}

fn state_reason(reason: &str) -> usize {
    match reason {
        "name exceeds 63 bytes" => 1,
        "resource data exceeds 512 bytes" => 2,
        "optional-field bitmap contains unknown bits" => 3,
        "owner index exceeds u32" => 4,
        "renewal count exceeds u32" => 5,
        "compact integer exceeds HSD's safe-integer range" => 6,
        other => panic!("not a reason of a name state: {other}"),
    }
}

fn covenant_answer(verdict: Refused, position: usize) -> CovenantAnswer {
    CovenantAnswer {
        stop: verdict.at(position),
        ..CovenantAnswer::default()
    }
}

/// A decoder that stands at a position; beyond the end, where the original can't stand, document 01's refusal.
pub fn decoder_at(bytes: &[u8], position: usize) -> Result<Decoder<'_>, Refused> {
    let mut decoder = Decoder::new(bytes);
    match decoder.read_slice(position) {
        Ok(_) => Ok(decoder),
        Err(_) => Err(refused(1, [position, position - bytes.len(), 0])),
    }
}

fn accepted(covenant: &Covenant, position: usize) -> CovenantAnswer {
    CovenantAnswer {
        stop: FlatStop::passed(position),
        kind: covenant.kind.as_u8(),
        count: covenant.items.len(),
        used: covenant.encoded_size().expect("it was read"),
    }
}

/// `decode_from_with_limit` at a position, or under the largest allowance `decode_from`; and the covenant where it is
/// accepted.
pub fn covenant_decode_from(
    bytes: &[u8],
    position: usize,
    limit: usize,
) -> (CovenantAnswer, Option<Covenant>) {
    let mut decoder = match decoder_at(bytes, position) {
        Ok(decoder) => decoder,
        Err(refused) => return (covenant_answer(refused, position), None),
    };
    let read = guarded(|| {
        let read = match limit {
            MAX_COVENANT_ENCODED_SIZE => Covenant::decode_from(&mut decoder),
            _ => Covenant::decode_from_with_limit(&mut decoder, limit),
        };
        read.map_err(|error| covenant_error(&error))
    });
    match read {
        Ok(covenant) => (accepted(&covenant, decoder.position()), Some(covenant)),
        Err(refused) => (covenant_answer(refused, decoder.position()), None),
    }
}

/// What is said of it without its items.
pub fn covenant_read(bytes: &[u8], position: usize, limit: usize) -> CovenantAnswer {
    covenant_decode_from(bytes, position, limit).0
}

/// `decode`, and the covenant where it is accepted. Its decoder is inside it: where it stands after a refusal is seen
/// by reading again.
pub fn covenant_decode(bytes: &[u8]) -> (CovenantAnswer, Option<Covenant>) {
    match guarded(|| Covenant::decode(bytes).map_err(|error| covenant_error(&error))) {
        Ok(covenant) => (accepted(&covenant, bytes.len()), Some(covenant)),
        Err(refused) => (covenant_answer(refused, stand(bytes)), None),
    }
}

fn stand(bytes: &[u8]) -> usize {
    if bytes.len() > MAX_COVENANT_ENCODED_SIZE {
        return 0;
    }
    let mut decoder = Decoder::new(bytes);
    // Refused or not, the decoder has moved; trailing bytes are found where it then stands.
    let _ = guarded(|| Covenant::decode_from(&mut decoder).map_err(|error| covenant_error(&error)));
    decoder.position()
}
