//! The constants of bindings/c/turgamysk.h: where the crate has the same, it is the same.

use std::collections::BTreeMap;
use std::mem::size_of;
use turgamysk::{Class, Covenant, CovenantKind, Directory, NameHash, NameState, Outpoint, Refusal};

const HEADER: &str = include_str!("../../c/turgamysk.h");

/// The header's numbers whose names begin so, by what follows.
fn constants(prefix: &str) -> BTreeMap<String, u64> {
    HEADER
        .lines()
        .filter_map(|line| {
            line.strip_prefix("#define TURGAMYSK_")?
                .strip_prefix(prefix)
        })
        .filter_map(|line| {
            let (name, number) = line.split_once(' ')?;
            Some((name.to_string(), number.parse().ok()?))
        })
        .collect()
}

fn named<const N: usize>(pairs: [(&str, u64); N]) -> BTreeMap<String, u64> {
    pairs
        .map(|(name, number)| (name.to_string(), number))
        .into()
}

/// `UnexpectedEnd` as UNEXPECTED_END.
fn in_capitals(name: &str) -> String {
    let mut capitals = String::new();
    for (place, letter) in name.char_indices() {
        if place > 0 && letter.is_uppercase() {
            capitals.push('_');
        }
        capitals.push(letter.to_ascii_uppercase());
    }
    capitals
}

#[test]
fn the_refusals() {
    let table = (1..=u8::MAX)
        .filter_map(|number| Refusal::from_parts(number, [0; 3]))
        .map(|refusal| (in_capitals(refusal.name()), u64::from(refusal.number())))
        .collect();
    assert_eq!(constants("REFUSAL_"), table);
}

/// The choices that a rule of the table lists, as `1 name over 63, 2 resource over 512`.
fn choices(number: u8) -> BTreeMap<String, u64> {
    let refusal = Refusal::from_parts(number, [0; 3]).expect("a row of the table");
    let rule = refusal.rule();
    let list = rule.split_once(": ").map_or(rule, |(_, list)| list);
    list.split(", ")
        .map(|choice| {
            let (number, words) = choice.split_once(' ').expect("a number and its words");
            let words = words.trim_end_matches(|letter: char| !letter.is_alphabetic());
            let name = words.replace(' ', "_").to_uppercase();
            (name, number.parse().expect("a number"))
        })
        .collect()
}

#[test]
fn what_two_of_them_carry() {
    assert_eq!(constants("REASON_"), choices(7));
    assert_eq!(constants("FIELD_"), choices(15));
}

#[test]
fn the_kinds() {
    let kinds = [
        ("NONE", CovenantKind::NONE),
        ("CLAIM", CovenantKind::CLAIM),
        ("OPEN", CovenantKind::OPEN),
        ("BID", CovenantKind::BID),
        ("REVEAL", CovenantKind::REVEAL),
        ("REDEEM", CovenantKind::REDEEM),
        ("REGISTER", CovenantKind::REGISTER),
        ("UPDATE", CovenantKind::UPDATE),
        ("RENEW", CovenantKind::RENEW),
        ("TRANSFER", CovenantKind::TRANSFER),
        ("FINALIZE", CovenantKind::FINALIZE),
        ("REVOKE", CovenantKind::REVOKE),
    ];
    let kinds = kinds.map(|(name, kind)| (name, u64::from(kind.0)));
    assert_eq!(constants("KIND_"), named(kinds));
}

#[test]
fn the_classes() {
    let classes = [
        ("NULL", Class::Null),
        ("HELD", Class::Held),
        ("FREE", Class::Free),
    ];
    let classes = classes.map(|(name, class)| (name, class as u64));
    assert_eq!(constants("CLASS_"), named(classes));
}

#[test]
fn the_limits() {
    let header = constants("");
    for (name, ours) in [
        ("MAX_ITEMS", Covenant::MAX_ITEMS),
        ("MAX_ITEM_SIZE", Covenant::MAX_ITEM_SIZE),
        ("MAX_COVENANT_SIZE", Covenant::MAX_ENCODED_SIZE),
        ("DIRECTORY_SIZE", Directory::new().starts.len()),
        ("MAX_NAME_SIZE", NameState::MAX_NAME_SIZE),
        ("MAX_RESOURCE_SIZE", NameState::MAX_RESOURCE_SIZE),
        ("MAX_RECORD_SIZE", NameState::MAX_SIZE),
        ("HASH_SIZE", size_of::<NameHash>()),
        ("OUTPOINT_SIZE", Outpoint::NULL.encode().len()),
    ] {
        assert_eq!(header.get(name), Some(&(ours as u64)), "{name}");
    }
    let largest = header.get("MAX_SAFE_INTEGER");
    assert_eq!(largest, Some(&NameState::MAX_SAFE_INTEGER));
}
