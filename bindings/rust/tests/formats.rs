//! The dumps of docs/FORMATS.md: each is read from the page and decoded, and what comes out is what the page says.

use turgamysk::{
    Class, Covenant, CovenantKind, Decoder, Directory, Dollarydoos, Height, NameState, Outpoint,
    TransactionHash, hash_name, input_at, judge_coins, judge_transaction, place_at,
    verify_covenant_links,
};

const PAGE: &str = include_str!("../../../docs/FORMATS.md");

/// The bytes of every dump below a heading of the page, up to the next heading.
fn dumps(heading: &str) -> Vec<Vec<u8>> {
    let sections: Vec<&str> = PAGE.split("\n## ").collect();
    let section = sections
        .iter()
        .find(|section| section.lines().next() == Some(heading))
        .expect("the page has the heading");
    section.split("```hex\n").skip(1).map(bytes).collect()
}

/// The bytes of a dump: two hex digits each, with what stands after `#` left out.
fn bytes(dump: &str) -> Vec<u8> {
    let (dump, _) = dump.split_once("```").expect("the dump ends");
    dump.lines()
        .flat_map(|line| line.split('#').next().unwrap_or("").split_whitespace())
        .map(|digits| u8::from_str_radix(digits, 16).expect("a byte in hex"))
        .collect()
}

fn one(heading: &str) -> Vec<u8> {
    let mut all = dumps(heading);
    assert_eq!(all.len(), 1, "one dump below {heading}");
    all.remove(0)
}

/// The two sheets of the page: the transaction, and its coins.
fn sheets() -> (Vec<u8>, Vec<u8>) {
    let mut all = dumps("Sheets");
    assert_eq!(all.len(), 2, "two dumps below Sheets");
    let coins = all.remove(1);
    (all.remove(0), coins)
}

fn outpoint() -> Outpoint {
    Outpoint {
        transaction_hash: TransactionHash([0x22; 32]),
        index: 5,
    }
}

#[test]
fn no_dump_is_left_out() {
    assert_eq!(PAGE.matches("```hex\n").count(), 5);
}

#[test]
fn the_compact_size() {
    let dump = one("Compact size");
    let mut decoder = Decoder::new(&dump);
    assert_eq!(decoder.read_compact_size(), Ok(515));
    assert_eq!(decoder.finish(), Ok(()));
}

#[test]
fn the_covenant() {
    let dump = one("Covenant");
    let mut directory = Directory::new();
    let covenant = Covenant::decode(&dump, &mut directory).expect("accepted");
    assert_eq!(covenant.kind, CovenantKind::BID);
    assert_eq!(covenant.item(0), Some(&[0xde, 0xad, 0xbe, 0xef][..]));
    assert_eq!(covenant.item(1), Some(&[][..]));
    assert_eq!(covenant.item(2), None);
}

#[test]
fn the_record() {
    let dump = one("Name-state record");
    let key = hash_name(b"alice").expect("a name");
    let state = NameState::decode(&key, &dump).expect("accepted");
    assert_eq!(state.name(), Some(&b"alice"[..]));
    assert_eq!(state.resource_data(), Some(&[0xaa, 0xbb][..]));
    assert_eq!(state.height, Height(100));
    assert_eq!(state.renewal, Height(200));
    assert_eq!(state.bitmap(), 0x83);
    let owner = Outpoint {
        transaction_hash: TransactionHash([0x11; 32]),
        index: 7,
    };
    assert_eq!(state.owner_outpoint(), Some(owner));
    assert_eq!(state.value, Dollarydoos(1_000));
    assert!(state.registered && !state.expired && !state.weak);
    assert_eq!(state.class(), Class::Held);
}

#[test]
fn the_transaction_sheet() {
    let (transaction, _) = sheets();
    let counts = judge_transaction(&transaction).expect("accepted");
    assert_eq!((counts.inputs, counts.outputs), (1, 1));
    let mut decoder = Decoder::new(&transaction);
    assert!(decoder.read_slice(4).is_ok());
    assert_eq!(input_at(&mut decoder), Ok(outpoint()));
    let place = place_at(&mut decoder, 0).expect("an output");
    assert_eq!(place.value, Dollarydoos(1_000));
    assert_eq!((place.version, place.size), (0, 20));
    assert_eq!(
        &transaction[place.start..place.start + place.size],
        &[0x33; 20]
    );
    assert_eq!(place.kind, CovenantKind::NONE);
    assert_eq!(decoder.finish(), Ok(()));
}

#[test]
fn the_coin_sheet() {
    let (_, coins) = sheets();
    assert_eq!(judge_coins(&coins), Ok(1));
    let mut decoder = Decoder::new(&coins);
    assert!(decoder.read_slice(4).is_ok());
    assert_eq!(input_at(&mut decoder), Ok(outpoint()));
    let place = place_at(&mut decoder, 1).expect("an output");
    assert_eq!(place.value, Dollarydoos(2_000));
    assert_eq!(&coins[place.start..place.start + place.size], &[0x44; 20]);
    assert_eq!(place.kind, CovenantKind::OPEN);
    assert_eq!(decoder.finish(), Ok(()));
}

#[test]
fn the_pair() {
    let (transaction, coins) = sheets();
    let summary = verify_covenant_links(&transaction, &coins).expect("accepted");
    assert_eq!(summary.inputs_checked, 1);
    assert_eq!(summary.linked_outputs, 0);
    assert_eq!(summary.name_inputs, 1);
}
