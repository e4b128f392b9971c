//! Names and name states: every function with short, long, empty and hostile arguments.

use turgamysk::entries::{self, OwnerAnswer};
use turgamysk::{
    Class, Dollarydoos, Height, NameHash, NameState, Outpoint, Refusal, Stop, TransactionHash,
    blake2b_256_value_nonce, blind_bid, hash_name, sha3_256, validate_name,
};

/// A state that can be written: the name `a` under its hash.
fn held() -> NameState {
    let mut state = NameState::null(&hash_name(b"a").unwrap());
    state.name[0] = b'a';
    state.name_length = 1;
    state.owner = Outpoint {
        transaction_hash: TransactionHash([1; 32]),
        index: 2,
    };
    state
}

#[test]
fn names_of_every_length() {
    for length in 0..300 {
        let name = vec![b'z'; length];
        let is_name = (1..=63).contains(&length);
        assert_eq!(validate_name(&name), is_name, "{length}");
        let expected = if is_name {
            Ok(NameHash(sha3_256(&name)))
        } else {
            Err(Refusal::InvalidName {})
        };
        assert_eq!(hash_name(&name), expected, "{length}");
    }
}

#[test]
fn reserved_words_and_marks() {
    for word in [
        "example",
        "invalid",
        "local",
        "localhost",
        "test",
        "-a",
        "a-",
        "_a",
        "a_",
        "-",
        "_",
        "A",
        "a b",
        "\0",
    ] {
        assert!(!validate_name(word.as_bytes()), "{word}");
    }
    for name in ["examples", "tes", "a-b", "a_b", "a--b", "0", "9z"] {
        assert!(validate_name(name.as_bytes()), "{name}");
    }
}

#[test]
fn commitments_are_hashes_of_value_and_nonce() {
    for value in [0, 1, u64::MAX] {
        assert_eq!(
            blind_bid(Dollarydoos(value), &[9; 32]),
            blake2b_256_value_nonce(value, &[9; 32])
        );
    }
}

fn refused(record: &[u8]) -> (Refusal, usize) {
    let stop = NameState::decode(&NameHash([0; 32]), record).unwrap_err();
    (stop.refusal, stop.position)
}

#[test]
fn every_beginning_of_a_null_record_is_refused() {
    let starts = [0, 1, 1, 3, 3, 3, 3, 7, 7, 7, 7, 11, 11];
    for (length, start) in starts.into_iter().enumerate() {
        let end = [0, 1, 3, 7, 11, 13]
            .into_iter()
            .find(|end| *end > length)
            .unwrap();
        let refusal = Refusal::UnexpectedEnd {
            offset: start,
            needed: end - length,
        };
        assert_eq!(refused(&vec![0; length]), (refusal, start), "{length}");
    }
}

#[test]
fn records_are_refused_in_the_order_of_their_fields() {
    assert_eq!(refused(&[64]), (Refusal::InvalidNameState { reason: 1 }, 1));
    assert_eq!(
        refused(&[0, 1, 2]),
        (Refusal::InvalidNameState { reason: 2 }, 3)
    );
    let mut record = [0; 13];
    record[12] = 4;
    assert_eq!(
        refused(&record),
        (Refusal::InvalidNameState { reason: 3 }, 13)
    );
    record[12] = 0;
    record[3] = 1;
    assert_eq!(refused(&record), (Refusal::InvalidName {}, 13));
    assert_eq!(
        refused(&[0; 14]),
        (Refusal::TrailingBytes { remaining: 1 }, 13)
    );
    assert_eq!(
        refused(&[0; 669]),
        (
            Refusal::TooLarge {
                actual: 669,
                maximum: 668
            },
            0
        )
    );
}

#[test]
fn a_zero_that_is_shown_is_not_canonical() {
    let mut record = [0; 14];
    record[11] = 2;
    assert_eq!(refused(&record), (Refusal::NonCanonicalNameState {}, 14));
}

#[test]
fn a_null_state_has_any_name_and_key() {
    let mut record = [0; 14];
    record[..2].copy_from_slice(&[1, b'A']);
    let state = NameState::decode(&NameHash([3; 32]), &record).unwrap();
    assert!(state.is_null());
    assert_eq!(
        (state.name(), state.resource_data()),
        (Some(&b"A"[..]), Some(&[][..]))
    );
    assert_eq!(state.class(), Class::Null);
}

#[test]
fn a_state_comes_back_from_its_record() {
    let state = held();
    let mut record = [0xee; 668];
    let size = state.encode(&mut record).unwrap();
    assert_eq!(state.encoded_size(), Ok(size));
    assert!(record[size..].iter().all(|byte| *byte == 0xee));
    assert_eq!(
        NameState::decode(&state.name_hash, &record[..size]),
        Ok(state)
    );
    assert_eq!((state.class(), state.is_null()), (Class::Held, false));
    let other = NameState::decode(&NameHash([0; 32]), &record[..size]);
    assert_eq!(
        other,
        Err(Stop {
            refusal: Refusal::NameStateHashMismatch {},
            position: size
        })
    );
}

#[test]
fn a_write_takes_all_its_room_or_none() {
    let state = held();
    let size = state.encoded_size().unwrap();
    for room in 0..size {
        let mut dest = vec![0xee; room];
        assert_eq!(
            state.encode(&mut dest),
            Err(Refusal::NoRoom { needed: size })
        );
        assert!(dest.iter().all(|byte| *byte == 0xee));
    }
    assert_eq!(state.encode(&mut vec![0; size]), Ok(size));
}

#[test]
fn hostile_lengths_are_refused() {
    for length in [64, 65, 1 << 32, usize::MAX] {
        let mut state = held();
        state.name_length = length;
        let refusal = Refusal::TooLarge {
            actual: length,
            maximum: 63,
        };
        assert_eq!(
            (state.encode(&mut [0; 668]), state.encoded_size()),
            (Err(refusal), Err(refusal))
        );
        assert_eq!(state.name(), None);
        assert_eq!(
            (state.class(), state.is_null(), state == state),
            (Class::Held, false, true)
        );
    }
    for length in [513, 65_536, usize::MAX] {
        let mut state = held();
        state.resource_length = length;
        let refusal = Refusal::TooLarge {
            actual: length,
            maximum: 512,
        };
        assert_eq!(
            (state.encode(&mut [0; 668]), state.encoded_size()),
            (Err(refusal), Err(refusal))
        );
        assert_eq!(state.resource_data(), None);
    }
}

#[test]
fn amounts_above_the_safe_integers_are_refused() {
    for amount in [1 << 53, u64::MAX] {
        let mut state = held();
        state.highest = Dollarydoos(amount);
        assert_eq!(
            state.encoded_size(),
            Err(Refusal::InvalidNameState { reason: 6 })
        );
        (state.value, state.highest) = (state.highest, Dollarydoos(0));
        assert_eq!(
            state.encode(&mut []),
            Err(Refusal::InvalidNameState { reason: 6 })
        );
    }
}

#[test]
fn states_are_compared_without_what_stands_behind_their_lengths() {
    let state = held();
    let mut other = state;
    other.name[1] = 9;
    other.resource_data[0] = 9;
    assert_eq!(state, other);
    other.height = Height(1);
    assert_ne!(state, other);
}

#[test]
fn a_free_state_has_no_owner_and_is_not_null() {
    let mut state = held();
    state.owner = Outpoint::NULL;
    assert_eq!(state.class(), Class::Null);
    state.height = Height(1);
    assert_eq!(state.class(), Class::Free);
}

#[test]
fn the_owner_is_told_unless_it_is_null() {
    let mut state = held();
    assert_eq!(state.owner_outpoint(), Some(state.owner));
    state.owner = Outpoint::ZEROS;
    assert_eq!(state.owner_outpoint(), Some(Outpoint::ZEROS));
    state.owner = Outpoint::NULL;
    assert_eq!(state.owner_outpoint(), None);
    let none = OwnerAnswer {
        held: false,
        outpoint: Outpoint::ZEROS,
    };
    assert_eq!(entries::name_state_owner_outpoint(&state), none);
}

#[test]
fn the_bitmap_has_a_bit_for_each_field_shown() {
    let changes: [fn(&mut NameState); 10] = [
        |state| state.owner = Outpoint::ZEROS,
        |state| state.value = Dollarydoos(u64::MAX),
        |state| state.highest = Dollarydoos(1),
        |state| state.transfer = Height(u32::MAX),
        |state| state.revoked = Height(1),
        |state| state.claimed = Height(1),
        |state| state.renewals = u32::MAX,
        |state| state.registered = true,
        |state| state.expired = true,
        |state| state.weak = true,
    ];
    let mut all = NameState::null(&NameHash([0; 32]));
    (all.height, all.renewal) = (Height(1), Height(1));
    (all.name_length, all.resource_length) = (usize::MAX, usize::MAX);
    assert_eq!(all.bitmap(), 0);
    for (bit, change) in changes.into_iter().enumerate() {
        let mut one = NameState::null(&NameHash([0; 32]));
        change(&mut one);
        change(&mut all);
        assert_eq!((one.bitmap(), all.bitmap()), (1 << bit, (2 << bit) - 1));
    }
}

#[test]
fn a_key_is_bound_to_its_name() {
    let mut state = held();
    assert_eq!(state.validate_key_binding(), Ok(()));
    state.name_hash.0[31] ^= 1;
    let other_key = Err(Refusal::NameStateHashMismatch {});
    assert_eq!(state.validate_key_binding(), other_key);
    state.owner = Outpoint::NULL;
    assert_eq!(state.validate_key_binding(), Ok(()));
}

#[test]
fn a_name_that_is_none_is_refused_before_the_key() {
    for length in [0, 64, 65, 1 << 32, usize::MAX] {
        let mut state = held();
        state.name = [b'a'; 63];
        state.name_length = length;
        let no_name = Err(Refusal::InvalidName {});
        assert_eq!(state.validate_key_binding(), no_name, "{length}");
        state.owner = Outpoint::NULL;
        assert_eq!(state.validate_key_binding(), Ok(()), "{length}");
    }
    let mut longest = held();
    longest.name = [b'a'; 63];
    longest.name_length = 63;
    longest.name_hash = hash_name(&[b'a'; 63]).unwrap();
    assert_eq!(longest.validate_key_binding(), Ok(()));
}
