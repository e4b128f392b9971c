//! Writing a state, and what is told of one: its size, its class, its owner, its bitmap, what binds it, whether it is
//! null and whether it is another.

use super::build::{Record, state};
use super::original::{self, Whole};
use crate::kind::Kind;
use crate::oracle::{Refused, covenant_error, guarded, refused};
use crate::random::Random;
use crate::room::{Room, compare_write, size_answer};
use crate::tally::{Case, Tally};
use crate::wire::our_outpoint;
use turgamysk::entries::{self, OwnerAnswer};
use turgamysk::{Height, NameState, Outpoint};

/// The original is given names and resources up to this length; above it document 01 gives the same answer.
const LONGEST_BUILT: usize = 1 << 17;

#[derive(Default)]
pub struct Encode {
    record: Record,
    room: Room,
}

fn case(entry: &'static str, state: &NameState) -> Case {
    Case {
        entry,
        input: state.name[..state.name_length.min(63)].to_vec(),
        with: format!("{state:?}"),
    }
}

/// The bytes of the record, or the refusal before the room is looked at.
fn expected(state: &NameState) -> Result<Vec<u8>, Refused> {
    if state.name_length > LONGEST_BUILT {
        return Err(refused(5, [state.name_length, 63, 0]));
    }
    if state.resource_length > LONGEST_BUILT {
        if state.name_length > 63 {
            return Err(refused(5, [state.name_length, 63, 0]));
        }
        return Err(refused(5, [state.resource_length, 512, 0]));
    }
    let state = original::theirs(state);
    guarded(|| state.encode().map_err(|error| covenant_error(&error)))
}

fn is_built(state: &NameState) -> bool {
    state.name_length <= LONGEST_BUILT && state.resource_length <= LONGEST_BUILT
}

fn compare_size(tally: &mut Tally, state: &NameState, expected: &Result<Vec<u8>, Refused>) {
    let theirs = size_answer(expected);
    let ours = entries::name_state_encoded_size(state);
    tally.compare(theirs.verdict.number, &ours, &theirs, || {
        case("turgamysk_name_state_encoded_size", state)
    });
}

/// Document 01's class: "null, or held if the owner isn't null, else free".
fn compare_class(tally: &mut Tally, state: &NameState) {
    let theirs = original::theirs(state);
    let null = theirs.is_null();
    let class = match (null, theirs.owner_outpoint()) {
        (true, _) => 0,
        (false, Some(_)) => 1,
        (false, None) => 2,
    };
    let ours = (
        entries::name_state_is_null(state),
        entries::name_state_class(state),
    );
    tally.compare(0, &ours, &(null, class), || {
        case(
            "turgamysk_name_state_is_null, turgamysk_name_state_class",
            state,
        )
    });
}

fn compare_owner(tally: &mut Tally, state: &NameState) {
    let theirs = match original::theirs(state).owner_outpoint() {
        Some(outpoint) => OwnerAnswer {
            held: true,
            outpoint: our_outpoint(&outpoint),
        },
        None => OwnerAnswer {
            held: false,
            outpoint: Outpoint::ZEROS,
        },
    };
    let ours = entries::name_state_owner_outpoint(state);
    tally.compare(0, &ours, &theirs, || {
        case("turgamysk_name_state_owner_outpoint", state)
    });
}

fn compare_binding(tally: &mut Tally, state: &NameState) {
    let state_of_theirs = original::theirs(state);
    let theirs = guarded(|| {
        let bound = state_of_theirs.validate_key_binding();
        bound.map_err(|error| covenant_error(&error))
    });
    let theirs = theirs.map_or_else(|refused| refused.number, |()| 0);
    let ours = entries::name_state_validate_key_binding(state);
    tally.compare(theirs, &ours, &theirs, || {
        case("turgamysk_name_state_validate_key_binding", state)
    });
}

/// The original keeps its bitmap to itself: it is the one in the record that the original writes, after name, resource
/// and two heights.
fn compare_bitmap(tally: &mut Tally, state: &NameState, record: &[u8]) {
    let at = 1 + state.name_length + 2 + state.resource_length + 8;
    let theirs = u16::from_le_bytes([record[at], record[at + 1]]);
    let ours = entries::name_state_bitmap(state);
    tally.compare(0, &ours, &theirs, || {
        case("turgamysk_name_state_bitmap", state)
    });
}

fn compare_same(tally: &mut Tally, state: &NameState, other: &NameState) {
    let theirs = original::theirs(state) == original::theirs(other);
    let ours = entries::name_state_same(state, other);
    tally.compare(0, &ours, &theirs, || {
        let mut case = case("turgamysk_name_state_same", state);
        case.with += &format!(" and {other:?}");
        case
    });
}

fn compare_null(tally: &mut Tally, key: &[u8; 32]) {
    let theirs = hns_covenants::NameState::null(hns_primitives::NameHash::new(*key));
    let ours = Whole(entries::name_state_null(key));
    let theirs = Whole(original::ours(&theirs));
    tally.compare(0, &ours, &theirs, || Case {
        entry: "turgamysk_name_state_null",
        input: key.to_vec(),
        with: String::new(),
    });
}

/// A copy with at most one change, also in bytes that do not count.
fn altered(state: &NameState, random: &mut Random) -> NameState {
    let mut other = *state;
    match random.below(20) {
        0 => other.name_hash.0[random.below(32)] ^= 1,
        1 => other.name[random.below(63)] ^= 1,
        2 => other.name_length = random.below(66),
        3 => other.resource_data[random.below(512)] ^= 1,
        4 => other.resource_length = random.below(515),
        5 => other.height = Height(random.below(3) as u32),
        6 => other.renewal.0 ^= 1,
        7 => other.owner.index ^= 1,
        8 => other.owner.transaction_hash.0[random.below(32)] ^= 1,
        9 => other.value.0 ^= 1 << random.below(64),
        10 => other.highest.0 ^= 1 << random.below(64),
        11 => other.transfer.0 ^= 1,
        12 => other.revoked.0 ^= 1,
        13 => other.claimed.0 ^= 1,
        14 => other.renewals ^= 1 << random.below(32),
        15 => other.registered ^= true,
        16 => other.expired ^= true,
        17 => other.weak ^= true,
        _ => {}
    }
    other
}

impl Encode {
    fn compare(&mut self, tally: &mut Tally, random: &mut Random, state: &NameState) {
        let expected = expected(state);
        if !is_built(state) {
            tally.known("state-length");
        }
        compare_size(tally, state, &expected);
        compare_write(
            tally,
            &mut self.room,
            random,
            &expected,
            |dest| entries::name_state_encode(state, dest),
            || case("turgamysk_name_state_encode", state),
        );
        if let Ok(record) = &expected {
            compare_bitmap(tally, state, record);
        }
        if is_built(state) {
            compare_class(tally, state);
            compare_owner(tally, state);
            compare_binding(tally, state);
            compare_same(tally, state, &altered(state, random));
        }
    }
}

impl Kind for Encode {
    fn name(&self) -> &'static str {
        "state encode"
    }

    fn weight(&self) -> u64 {
        10
    }

    fn exhaustive(&mut self, tally: &mut Tally) {
        for byte in 0..=255 {
            compare_null(tally, &[byte; 32]);
        }
    }

    fn random(&mut self, random: &mut Random, tally: &mut Tally) {
        self.record.draw(random);
        let state = state(&self.record, random);
        self.compare(tally, random, &state);
    }
}
