//! Names and name states, against the original's `NameState`, `hash_name` and `blind_bid`.

use crate::bytes::message;
use crate::task::{Heading, Label, Task};
use crate::timing::Side;
use hns_covenants::{NameState, blind_bid, hash_name};
use hns_primitives::{Dollarydoos, Height, Outpoint, TransactionHash};
use std::hint::black_box;
use turgamysk::entries::{self, Bytes32};

const LABEL: &str = "12-byte name, 200 resource bytes, owner, value, highest";

const NAMES: [&[u8]; 10] = [
    b"a",
    b"twelve-bytes",
    b"0_9",
    b"-a",
    b"a_",
    b"",
    b"Upper",
    b"localhost",
    b"sixty-three-bytes-of-a-name-which-is-the-longest-that-is-allowed",
    b"sixty-three-bytes-of-a-name-which-is-the-longest-that-is-allowe",
];

fn bytes_32() -> Bytes32 {
    message(32).try_into().expect("32 bytes")
}

fn held() -> NameState {
    let name = b"twelve-bytes";
    let mut state = NameState::null(hash_name(name).expect("a name"));
    state.name = name.to_vec();
    state.resource_data = message(200);
    state.height = Height::new(123_456);
    state.renewal = Height::new(130_000);
    state.owner = Outpoint {
        transaction_hash: TransactionHash::new(bytes_32()),
        index: 1,
    };
    state.value = Dollarydoos::new(5_000_000);
    state.highest = Dollarydoos::new(7_500_000_000);
    state
}

/// Every field is there, and the texts are as long as they may be.
fn full() -> NameState {
    let mut state = held();
    state.name = NAMES[9].to_vec();
    state.name_hash = hash_name(&state.name).expect("a name");
    state.resource_data = message(512);
    state.transfer = Height::new(1);
    state.revoked = Height::new(2);
    state.claimed = Height::new(3);
    state.renewals = u32::MAX;
    state.registered = true;
    state.expired = true;
    state.weak = true;
    state
}

fn encoded(state: &NameState) -> Vec<u8> {
    state.encode().expect("writable")
}

fn same(ours: &turgamysk::NameState, theirs: &NameState) {
    assert_eq!(ours.name_hash.0, theirs.name_hash.into_bytes());
    assert_eq!(ours.name[..ours.name_length], theirs.name[..]);
    assert_eq!(
        ours.resource_data[..ours.resource_length],
        theirs.resource_data[..]
    );
    let ours_heights = [ours.height, ours.renewal, ours.transfer, ours.revoked];
    let heights = [
        theirs.height,
        theirs.renewal,
        theirs.transfer,
        theirs.revoked,
    ];
    assert_eq!(
        ours_heights.map(|height| height.0),
        heights.map(Height::get)
    );
    assert_eq!(ours.claimed.0, theirs.claimed.get());
    let owner = theirs.owner.transaction_hash.into_bytes();
    assert_eq!(ours.owner.transaction_hash.0, owner);
    assert_eq!(ours.owner.index, theirs.owner.index);
    assert_eq!(ours.value.0, theirs.value.get());
    assert_eq!(ours.highest.0, theirs.highest.get());
    assert_eq!(ours.renewals, theirs.renewals);
    assert_eq!(
        [ours.registered, ours.expired, ours.weak],
        [theirs.registered, theirs.expired, theirs.weak]
    );
}

/// Both sides read and write the states alike, refuse every beginning of a record, and accept or refuse alike a record
/// with one bit of one byte changed, for each byte; ours refuses another key by 9.
pub fn agree() {
    for state in [held(), full(), NameState::null(held().name_hash)] {
        let key = state.name_hash.into_bytes();
        let bytes = encoded(&state);
        let read = entries::name_state_decode(&key, &bytes);
        assert_eq!((read.stop.number, read.stop.position), (0, bytes.len()));
        same(&read.state, &state);
        let mut written = vec![0; bytes.len()];
        let answer = entries::name_state_encode(&read.state, &mut written);
        assert_eq!((answer.verdict.number, answer.written), (0, bytes.len()));
        assert_eq!(written, bytes);
        let short = entries::name_state_encode(&read.state, &mut written[1..]);
        assert_eq!(
            (short.verdict.number, short.verdict.first),
            (29, bytes.len())
        );
        for cut in 0..bytes.len() {
            assert!(NameState::decode(state.name_hash, &bytes[..cut]).is_err());
            assert_ne!(
                entries::name_state_decode(&key, &bytes[..cut]).stop.number,
                0
            );
        }
        for place in 0..bytes.len() {
            let mut changed = bytes.clone();
            changed[place] ^= 1 << (place % 8);
            let ours = entries::name_state_decode(&key, &changed);
            match NameState::decode(state.name_hash, &changed) {
                Ok(theirs) => same(&ours.state, &theirs),
                Err(_) => assert_ne!(ours.stop.number, 0),
            }
        }
    }
    let bytes = encoded(&held());
    assert_eq!(
        entries::name_state_decode(&bytes_32(), &bytes).stop.number,
        9
    );
}

pub fn agree_on_hashes() {
    for name in NAMES {
        let mut ours = [1; 32];
        let number = entries::hash_name(name, &mut ours);
        match hash_name(name) {
            Ok(theirs) => assert_eq!((number, ours), (0, theirs.into_bytes())),
            Err(_) => assert_eq!((number, ours), (6, [0; 32])),
        }
    }
    let nonce = bytes_32();
    for value in [0, 1, 255, 5_000_000, 1 << 63, u64::MAX] {
        let mut ours = [0; 32];
        entries::blind_bid(value, &nonce, &mut ours);
        assert_eq!(ours, blind_bid(value, &nonce));
    }
}

pub fn decoding(task: &mut dyn Task) {
    let (key, bytes) = (held().name_hash, encoded(&held()));
    let our_key = key.into_bytes();
    let ours = Side::new("turgamysk", || {
        black_box(&entries::name_state_decode(
            black_box(&our_key),
            black_box(&bytes),
        ));
    });
    let theirs = Side::new("hns-rs decode", || {
        black_box(&NameState::decode(black_box(key), black_box(&bytes)));
    });
    task.table(Heading::new("Decoding a name state", "state", &[1.8]));
    task.row(LABEL.into(), vec![ours, theirs]);
}

pub fn encoding(task: &mut dyn Task) {
    let state = held();
    let bytes = encoded(&state);
    let our_state = entries::name_state_decode(state.name_hash.as_bytes(), &bytes).state;
    let mut written = vec![0; bytes.len()];
    let ours = Side::new("turgamysk", || {
        black_box(entries::name_state_encode(
            black_box(&our_state),
            black_box(&mut written),
        ));
    });
    let theirs = Side::new("hns-rs encode", || {
        black_box(&black_box(&state).encode());
    });
    task.table(Heading::new("Encoding a name state", "state", &[1.0]));
    task.row(LABEL.into(), vec![ours, theirs]);
}

pub fn hashing(task: &mut dyn Task) {
    task.table(Heading::new("Hashing a name", "bytes", &[1.0]));
    for name in [NAMES[0], NAMES[1], NAMES[9]] {
        let mut digest = [0; 32];
        let ours = Side::new("turgamysk", || {
            black_box(entries::hash_name(black_box(name), black_box(&mut digest)));
        });
        let theirs = Side::new("hns-rs hash_name", || {
            black_box(&hash_name(black_box(name)));
        });
        task.row(Label::Bytes(name.len()), vec![ours, theirs]);
    }
}

pub fn blinding(task: &mut dyn Task) {
    let nonce = bytes_32();
    let mut digest = [0; 32];
    let ours = Side::new("turgamysk", || {
        entries::blind_bid(
            black_box(5_000_000),
            black_box(&nonce),
            black_box(&mut digest),
        );
    });
    let theirs = Side::new("hns-rs blind_bid", || {
        black_box(&blind_bid(black_box(5_000_000), black_box(&nonce)));
    });
    task.table(Heading::new("Blinding a bid", "bytes", &[1.0]));
    task.row(Label::Bytes(40), vec![ours, theirs]);
}
