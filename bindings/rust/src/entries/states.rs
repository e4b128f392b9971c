use super::{Bytes32, FlatStop, WriteAnswer};
use crate::name_state::NameState;
use crate::primitives::Outpoint;

/// A state that was read, or the refusal and a state of zeros.
#[repr(C)]
#[derive(Clone, Copy, Debug)]
pub struct StateAnswer {
    /// Whether it was read, and where the reader then stands.
    pub stop: FlatStop,
    /// The state.
    pub state: NameState,
}

/// The owner of a state, or that there is none and an outpoint of zeros.
#[repr(C)]
#[derive(Clone, Copy, Debug, Eq, PartialEq)]
pub struct OwnerAnswer {
    /// Whether there is one.
    pub held: bool,
    /// Its outpoint.
    pub outpoint: Outpoint,
}

mod c {
    use super::*;

    unsafe extern "C" {
        pub fn turgamysk_validate_name(name: *const u8, length: usize) -> u8;
        pub fn turgamysk_hash_name(name: *const u8, length: usize, digest: *mut u8) -> u8;
        pub fn turgamysk_blind_bid(value: u64, nonce: *const u8, digest: *mut u8);
        pub fn turgamysk_name_state_decode(
            key: *const u8,
            bytes: *const u8,
            length: usize,
        ) -> StateAnswer;
        pub fn turgamysk_name_state_encode(
            state: NameState,
            dest: *mut u8,
            dest_length: usize,
        ) -> WriteAnswer;
        pub fn turgamysk_name_state_encoded_size(state: NameState) -> WriteAnswer;
        pub fn turgamysk_name_state_class(state: NameState) -> u8;
        pub fn turgamysk_name_state_owner_outpoint(state: NameState) -> OwnerAnswer;
        pub fn turgamysk_name_state_bitmap(state: NameState) -> u16;
        pub fn turgamysk_name_state_validate_key_binding(state: NameState) -> u8;
        pub fn turgamysk_name_state_is_null(state: NameState) -> bool;
        pub fn turgamysk_name_state_null(key: *const u8) -> NameState;
        pub fn turgamysk_name_state_same(state: NameState, other: NameState) -> bool;
    }
}

/// Whether the bytes are a name: 0, or 6.
pub fn validate_name(name: &[u8]) -> u8 {
    unsafe { c::turgamysk_validate_name(name.as_ptr(), name.len()) }
}

/// The hash of a name into `digest`: 0; or 6, and zeros.
pub fn hash_name(name: &[u8], digest: &mut Bytes32) -> u8 {
    unsafe { c::turgamysk_hash_name(name.as_ptr(), name.len(), digest.as_mut_ptr()) }
}

/// The commitment of a bid, into `digest`.
pub fn blind_bid(value: u64, nonce: &Bytes32, digest: &mut Bytes32) {
    unsafe { c::turgamysk_blind_bid(value, nonce.as_ptr(), digest.as_mut_ptr()) }
}

/// The state whose record is all of the bytes, under a key.
pub fn name_state_decode(key: &Bytes32, bytes: &[u8]) -> StateAnswer {
    unsafe { c::turgamysk_name_state_decode(key.as_ptr(), bytes.as_ptr(), bytes.len()) }
}

/// The record of a state, into the first bytes of `dest`: all of it, or nothing.
pub fn name_state_encode(state: &NameState, dest: &mut [u8]) -> WriteAnswer {
    unsafe { c::turgamysk_name_state_encode(*state, dest.as_mut_ptr(), dest.len()) }
}

/// How many bytes the record of a state takes, or why it is not written.
pub fn name_state_encoded_size(state: &NameState) -> WriteAnswer {
    unsafe { c::turgamysk_name_state_encoded_size(*state) }
}

/// 0 for a null state, 1 for one with an owner, 2 for the others.
pub fn name_state_class(state: &NameState) -> u8 {
    unsafe { c::turgamysk_name_state_class(*state) }
}

/// The owner of a state, unless it is the null outpoint.
pub fn name_state_owner_outpoint(state: &NameState) -> OwnerAnswer {
    unsafe { c::turgamysk_name_state_owner_outpoint(*state) }
}

/// Which fields the record of a state shows, from bit 0 for the owner on.
pub fn name_state_bitmap(state: &NameState) -> u16 {
    unsafe { c::turgamysk_name_state_bitmap(*state) }
}

/// Whether the key of a state is the hash of its name, or the state is null: 0; or 6, or 9.
pub fn name_state_validate_key_binding(state: &NameState) -> u8 {
    unsafe { c::turgamysk_name_state_validate_key_binding(*state) }
}

/// Whether all but the key and the name is zero, empty, unset or the null outpoint.
pub fn name_state_is_null(state: &NameState) -> bool {
    unsafe { c::turgamysk_name_state_is_null(*state) }
}

/// The null state of a key, with no name.
pub fn name_state_null(key: &Bytes32) -> NameState {
    unsafe { c::turgamysk_name_state_null(key.as_ptr()) }
}

/// Whether two states are the same; bytes past their lengths are not compared.
pub fn name_state_same(state: &NameState, other: &NameState) -> bool {
    unsafe { c::turgamysk_name_state_same(*state, *other) }
}
