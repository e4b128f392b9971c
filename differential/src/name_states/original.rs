//! The original's states in our form and back, and where its decoder stands.

use crate::oracle::{Refused, covenant_error, decode_error, guarded, refused};
use hns_covenants::{CovenantError, HSD_MAX_SAFE_INTEGER, MAX_NAME_STATE_SIZE};
use hns_encoding::Decoder;
use std::fmt;
use turgamysk::{Dollarydoos, Height, NameHash, NameState, Outpoint, TransactionHash};

/// A state compared field by field, bytes past its lengths included.
#[derive(Clone, Copy)]
pub struct Whole(pub NameState);

impl Whole {
    /// What stands beside a refusal.
    pub const ZEROS: Self = Self(NameState {
        name_hash: NameHash([0; 32]),
        name: [0; 63],
        name_length: 0,
        resource_data: [0; 512],
        resource_length: 0,
        height: Height(0),
        renewal: Height(0),
        owner: Outpoint::ZEROS,
        value: Dollarydoos(0),
        highest: Dollarydoos(0),
        transfer: Height(0),
        revoked: Height(0),
        claimed: Height(0),
        renewals: 0,
        registered: false,
        expired: false,
        weak: false,
    });
}

impl PartialEq for Whole {
    fn eq(&self, other: &Self) -> bool {
        let (a, b) = (&self.0, &other.0);
        a.name_hash == b.name_hash
            && a.name == b.name
            && a.name_length == b.name_length
            && a.resource_data == b.resource_data
            && a.resource_length == b.resource_length
            && (a.height, a.renewal) == (b.height, b.renewal)
            && a.owner == b.owner
            && (a.value, a.highest) == (b.value, b.highest)
            && (a.transfer, a.revoked, a.claimed) == (b.transfer, b.revoked, b.claimed)
            && a.renewals == b.renewals
            && (a.registered, a.expired, a.weak) == (b.registered, b.expired, b.weak)
    }
}

impl fmt::Debug for Whole {
    fn fmt(&self, formatter: &mut fmt::Formatter<'_>) -> fmt::Result {
        if *self == Self::ZEROS {
            return formatter.write_str("zeros");
        }
        self.0.fmt(formatter)
    }
}

fn put_text<const SIZE: usize>(text: &[u8]) -> [u8; SIZE] {
    let mut array = [0; SIZE];
    array[..text.len()].copy_from_slice(text);
    array
}

/// A state that the original read.
pub fn ours(state: &hns_covenants::NameState) -> NameState {
    NameState {
        name_hash: NameHash(state.name_hash.into_bytes()),
        name: put_text(&state.name),
        name_length: state.name.len(),
        resource_data: put_text(&state.resource_data),
        resource_length: state.resource_data.len(),
        height: Height(state.height.get()),
        renewal: Height(state.renewal.get()),
        owner: Outpoint {
            transaction_hash: TransactionHash(state.owner.transaction_hash.into_bytes()),
            index: state.owner.index,
        },
        value: Dollarydoos(state.value.get()),
        highest: Dollarydoos(state.highest.get()),
        transfer: Height(state.transfer.get()),
        revoked: Height(state.revoked.get()),
        claimed: Height(state.claimed.get()),
        renewals: state.renewals,
        registered: state.registered,
        expired: state.expired,
        weak: state.weak,
    }
}

/// So many bytes of an array, zeros past it.
fn text(array: &[u8], length: usize) -> Vec<u8> {
    let mut text = array[..length.min(array.len())].to_vec();
    text.resize(length, 0);
    text
}

/// Our state as one of the original.
pub fn theirs(state: &NameState) -> hns_covenants::NameState {
    let height = |height: Height| hns_primitives::Height::new(height.0);
    let amount = |amount: Dollarydoos| hns_primitives::Dollarydoos::new(amount.0);
    hns_covenants::NameState {
        name_hash: hns_primitives::NameHash::new(state.name_hash.0),
        name: text(&state.name, state.name_length),
        height: height(state.height),
        renewal: height(state.renewal),
        owner: hns_primitives::Outpoint {
            transaction_hash: hns_primitives::TransactionHash::new(state.owner.transaction_hash.0),
            index: state.owner.index,
        },
        value: amount(state.value),
        highest: amount(state.highest),
        resource_data: text(&state.resource_data, state.resource_length),
        transfer: height(state.transfer),
        revoked: height(state.revoked),
        claimed: height(state.claimed),
        renewals: state.renewals,
        registered: state.registered,
        expired: state.expired,
        weak: state.weak,
    }
}

/// `NameState::decode`, with the position where its decoder stands at the end.
pub fn decode(key: &[u8; 32], record: &[u8]) -> (Result<Whole, Refused>, usize) {
    let key = hns_primitives::NameHash::new(*key);
    let read = guarded(|| {
        hns_covenants::NameState::decode(key, record).map_err(|error| covenant_error(&error))
    });
    let (stopped, position) = stand(record);
    // A read that is walked here must stop as the original does; else the position would be another read's.
    if let Some(stopped) = stopped {
        assert_eq!(
            read.as_ref().err(),
            Some(&stopped),
            "the walk of {record:x?}"
        );
    }
    (read.map(|state| Whole(ours(&state))), position)
}

/// Walks a record with the original's decoder, which `NameState::decode` keeps to itself: where it stands, and why the
/// walk stopped.
fn stand(record: &[u8]) -> (Option<Refused>, usize) {
    if record.len() > MAX_NAME_STATE_SIZE {
        return (Some(refused(5, [record.len(), MAX_NAME_STATE_SIZE, 0])), 0);
    }
    let mut decoder = Decoder::new(record);
    let walked = walk(&mut decoder).map_err(|error| covenant_error(&error));
    let position = decoder.position();
    let finished = walked.and_then(|()| decoder.finish().map_err(|error| decode_error(&error)));
    (finished.err(), position)
}

fn walk(decoder: &mut Decoder<'_>) -> Result<(), CovenantError> {
    walk_text(
        usize::from(decoder.read_u8()?),
        63,
        "name exceeds 63 bytes",
        decoder,
    )?;
    let length = usize::from(decoder.read_u16_le()?);
    walk_text(length, 512, "resource data exceeds 512 bytes", decoder)?;
    decoder.read_u32_le()?;
    decoder.read_u32_le()?;
    let bits = decoder.read_u16_le()?;
    at_most(
        u64::from(bits),
        1023,
        "optional-field bitmap contains unknown bits",
    )?;
    walk_fields(decoder, bits)
}

fn walk_fields(decoder: &mut Decoder<'_>, bits: u16) -> Result<(), CovenantError> {
    let has = |bit: u16| bits & (1 << bit) != 0;
    if has(0) {
        decoder.read_array::<32>()?;
        let index = decoder.read_compact_size()?;
        at_most(index, u64::from(u32::MAX), "owner index exceeds u32")?;
    }
    for _ in [1, 2].into_iter().filter(|&bit| has(bit)) {
        let amount = decoder.read_compact_size()?;
        at_most(
            amount,
            HSD_MAX_SAFE_INTEGER,
            "compact integer exceeds HSD's safe-integer range",
        )?;
    }
    for _ in [3, 4, 5].into_iter().filter(|&bit| has(bit)) {
        decoder.read_u32_le()?;
    }
    if has(6) {
        let renewals = decoder.read_compact_size()?;
        at_most(renewals, u64::from(u32::MAX), "renewal count exceeds u32")?;
    }
    Ok(())
}

fn walk_text(
    length: usize,
    maximum: u64,
    reason: &'static str,
    decoder: &mut Decoder<'_>,
) -> Result<(), CovenantError> {
    at_most(length as u64, maximum, reason)?;
    decoder.read_slice(length)?;
    Ok(())
}

fn at_most(value: u64, maximum: u64, reason: &'static str) -> Result<(), CovenantError> {
    if value > maximum {
        return Err(CovenantError::InvalidNameState(reason));
    }
    Ok(())
}
