//! Name states and their codec.

use crate::entries;
use crate::primitives::{Dollarydoos, Height, NameHash, Outpoint};
use crate::refusal::{Refusal, Stop};

/// What the name report says of a state.
#[derive(Clone, Copy, Debug, Eq, Hash, PartialEq)]
pub enum Class {
    /// Every field but key and name is zero, empty, unset or the null outpoint.
    Null,
    /// The owner is not the null outpoint.
    Held,
    /// Neither.
    Free,
}

/// The state of a name, which carries its name and resource bytes inside itself.
///
/// The name is the first `name_length` bytes of `name`, the resource the first `resource_length` of `resource_data`.
/// What stands after them is ignored, by `==` too; bytes past an array count as zeros, and the writer refuses such a
/// length.
#[repr(C)]
#[derive(Clone, Copy, Debug)]
pub struct NameState {
    /// The key.
    pub name_hash: NameHash,
    /// The name's bytes,
    pub name: [u8; NameState::MAX_NAME_SIZE],
    /// and how many they are.
    pub name_length: usize,
    /// The resource's bytes,
    pub resource_data: [u8; NameState::MAX_RESOURCE_SIZE],
    /// and how many they are.
    pub resource_length: usize,
    /// Where the auction or claim began.
    pub height: Height,
    /// The last renewal.
    pub renewal: Height,
    /// The current owner, or the null outpoint.
    pub owner: Outpoint,
    /// The value locked.
    pub value: Dollarydoos,
    /// The highest bid.
    pub highest: Dollarydoos,
    /// Where a transfer began, or zero.
    pub transfer: Height,
    /// Where the name was revoked, or zero.
    pub revoked: Height,
    /// Where it was claimed, or zero.
    pub claimed: Height,
    /// How often it was renewed.
    pub renewals: u32,
    /// Whether it was registered.
    pub registered: bool,
    /// Whether it expired.
    pub expired: bool,
    /// Whether the claim's proof was weak.
    pub weak: bool,
}

impl NameState {
    /// The most bytes of a name.
    pub const MAX_NAME_SIZE: usize = 63;
    /// The most bytes of a resource.
    pub const MAX_RESOURCE_SIZE: usize = 512;
    /// The most bytes of a record.
    pub const MAX_SIZE: usize = 668;
    /// The largest amount, 2^53 - 1.
    pub const MAX_SAFE_INTEGER: u64 = (1 << 53) - 1;

    /// The null state of a key, with no name.
    ///
    /// ```
    /// use turgamysk::{Class, NameHash, NameState};
    ///
    /// let state = NameState::null(&NameHash([7; 32]));
    /// assert!(state.is_null());
    /// assert_eq!((state.class(), state.encoded_size()), (Class::Null, Ok(13)));
    /// ```
    pub fn null(name_hash: &NameHash) -> Self {
        entries::name_state_null(&name_hash.0)
    }

    /// The state whose record is all of the bytes, under its key.
    ///
    /// ```
    /// use turgamysk::{NameHash, NameState, Refusal};
    ///
    /// let state = NameState::decode(&NameHash([7; 32]), &[0; 13]).unwrap();
    /// assert!(state.is_null());
    ///
    /// let stop = NameState::decode(&NameHash([7; 32]), &[0; 14]).unwrap_err();
    /// assert_eq!(stop.refusal, Refusal::TrailingBytes { remaining: 1 });
    /// assert_eq!(stop.position, 13);
    /// ```
    pub fn decode(name_hash: &NameHash, record: &[u8]) -> Result<Self, Stop> {
        let answer = entries::name_state_decode(&name_hash.0, record);
        answer.stop.result().map(|()| answer.state)
    }

    /// Writes the record into the first bytes of `dest` and tells how many they are; on a refusal nothing is written.
    ///
    /// ```
    /// use turgamysk::{NameHash, NameState, Refusal};
    ///
    /// let state = NameState::null(&NameHash([7; 32]));
    /// let mut record = [0xee; 13];
    /// assert_eq!(state.encode(&mut record), Ok(13));
    /// assert_eq!(record, [0; 13]);
    /// assert_eq!(state.encode(&mut record[..12]), Err(Refusal::NoRoom { needed: 13 }));
    /// ```
    pub fn encode(&self, dest: &mut [u8]) -> Result<usize, Refusal> {
        entries::name_state_encode(self, dest).result()
    }

    /// How many bytes [`NameState::encode`] writes, or why it does not, room apart.
    pub fn encoded_size(&self) -> Result<usize, Refusal> {
        entries::name_state_encoded_size(self).result()
    }

    /// Whether every field but key and name is zero, empty, unset or the null outpoint.
    pub fn is_null(&self) -> bool {
        entries::name_state_is_null(self)
    }

    /// Null, held or free.
    pub fn class(&self) -> Class {
        match entries::name_state_class(self) {
            0 => Class::Null,
            1 => Class::Held,
            _ => Class::Free,
        }
    }

    /// The current owner; none where it is the null outpoint.
    pub fn owner_outpoint(&self) -> Option<Outpoint> {
        let answer = entries::name_state_owner_outpoint(self);
        answer.held.then_some(answer.outpoint)
    }

    /// Which fields the record shows, by bit: 0 owner, 1 value, 2 highest, 3 transfer, 4 revoked, 5 claimed,
    /// 6 renewals, 7 registered, 8 expired, 9 weak.
    pub fn bitmap(&self) -> u16 {
        entries::name_state_bitmap(self)
    }

    /// Whether the key is the hash of the name, unless the state is null: [`Refusal::InvalidName`] where the name is no
    /// name, [`Refusal::NameStateHashMismatch`] where the key is not its hash.
    ///
    /// ```
    /// use turgamysk::{Height, NameHash, NameState, Refusal};
    ///
    /// let mut state = NameState::null(&NameHash([7; 32]));
    /// assert_eq!(state.validate_key_binding(), Ok(()));
    /// state.height = Height(1);
    /// assert_eq!(state.validate_key_binding(), Err(Refusal::InvalidName {}));
    /// (state.name[0], state.name_length) = (b'a', 1);
    /// assert_eq!(state.validate_key_binding(), Err(Refusal::NameStateHashMismatch {}));
    /// ```
    pub fn validate_key_binding(&self) -> Result<(), Refusal> {
        match entries::name_state_validate_key_binding(self) {
            0 => Ok(()),
            number => Err(Refusal::of_answer(number, [0; 3])),
        }
    }

    /// The name; none where its length is above the array's.
    pub fn name(&self) -> Option<&[u8]> {
        self.name.get(..self.name_length)
    }

    /// The resource; none where its length is above the array's.
    pub fn resource_data(&self) -> Option<&[u8]> {
        self.resource_data.get(..self.resource_length)
    }
}

impl PartialEq for NameState {
    fn eq(&self, other: &Self) -> bool {
        entries::name_state_same(self, other)
    }
}

impl Eq for NameState {}
