//! The cases that are recorded: chosen ones, and random ones of which each class of answers keeps some.

use super::{Book, Record, Records, entry};
use crate::covenants::build::{self, compact_forms, put_covenant};
use crate::name_states::build::{Record as Fields, key};
use crate::name_states::original;
use crate::names::{RESERVED, put_name};
use crate::oracle::{self, covenant_error, guarded};
use crate::random::Random;
use crate::sheets::build::{self as sheets, Sheets, fault};
use crate::sheets::judge::damage_one;
use crate::sheets::verify;
use turgamysk::entries::{CovenantAnswer, Verdict};
use turgamysk::{NameState, Outpoint};

/// So many random cases are drawn of each kind.
const DRAWN: usize = 100_000;
/// Longer arguments are rarely kept.
const SHORT: usize = 300;

pub fn offer_all(book: &mut Book) {
    covenants(&mut book.covenants, &mut Random::new(1));
    states(&mut book.states, &mut Random::new(2));
    links(&mut book.links, &mut Random::new(3));
    names(&mut book.names, &mut Random::new(4));
}

/// The number and what it carries, and the numbers after these.
fn numbers(verdict: Verdict, others: &[usize]) -> Vec<u64> {
    let Verdict {
        number,
        first,
        second,
        third,
    } = verdict;
    let number = usize::from(number);
    let all = [&[number, first, second, third], others].concat();
    all.into_iter().map(|value| value as u64).collect()
}

/// What tells refusals apart: the number, and one thing more.
fn class(verdict: Verdict, other: usize) -> u64 {
    u64::from(verdict.number) << 32 | (other as u64 & 0xffff_ffff)
}

// ---- covenants

fn covenant_numbers(answer: &CovenantAnswer) -> Vec<u64> {
    let others = [
        answer.stop.position,
        answer.kind.into(),
        answer.count,
        answer.used,
    ];
    numbers(answer.stop.verdict(), &others)
}

fn offer_covenant(
    records: &mut Records,
    entry: u8,
    argument: Vec<u8>,
    answer: &CovenantAnswer,
    enough: usize,
) {
    let is_long = argument.len() > SHORT;
    let enough = if is_long { 2 } else { enough };
    let record = Record {
        entry,
        argument,
        numbers: covenant_numbers(answer),
        bytes: Vec::new(),
    };
    records.offer(
        class(answer.stop.verdict(), is_long.into()),
        enough,
        &record,
    );
}

/// A covenant that is the whole input.
fn decode(records: &mut Records, bytes: &[u8], enough: usize) {
    let (answer, _) = oracle::covenant_decode(bytes);
    offer_covenant(records, entry::COVENANT, bytes.to_vec(), &answer, enough);
}

/// A covenant at a position, which is not beyond the end: there the original can't stand.
fn read(records: &mut Records, bytes: &[u8], position: usize, limit: usize, enough: usize) {
    let answer = oracle::covenant_read(bytes, position, limit);
    let mut argument = (limit as u64).to_le_bytes().to_vec();
    argument.extend_from_slice(&(position as u64).to_le_bytes());
    argument.extend_from_slice(bytes);
    offer_covenant(records, entry::COVENANT_WITHIN, argument, &answer, enough);
}

fn covenants(records: &mut Records, random: &mut Random) {
    for bytes in [
        &[0, 0][..],
        &[0, 0, 0],
        &[3],
        &[3, 1, 2, 0xaa],
        &[0, 0xfd, 0xe9, 3],
    ] {
        decode(records, bytes, 100);
    }
    read(records, &[0, 0xfd, 0xe8, 3], 0, 2, 100);
    let mut place = 0;
    compact_forms(|bytes| {
        place += 1;
        if place % 11 == 0 {
            decode(records, bytes, 40);
            read(records, bytes, 0, place % 20, 40);
        }
    });
    for _ in 0..DRAWN {
        covenant(records, random);
    }
}

fn covenant(records: &mut Records, random: &mut Random) {
    let mut bytes = vec![random.byte(); random.below(6)];
    let start = bytes.len();
    put_covenant(&mut bytes, random);
    let size = bytes.len() - start;
    if random.once_in(2) {
        build::damage(&mut bytes, start, random);
    }
    if bytes.len() > 2500 {
        return;
    }
    let limit = random.of(&[
        0,
        1,
        2,
        3,
        size.saturating_sub(1),
        size,
        1_000_009,
        usize::MAX,
    ]);
    let start = start.min(bytes.len());
    read(records, &bytes, start, limit, 84);
    decode(records, &bytes[start..], 74);
}

// ---- states

/// What the name report prints of a state: 0 null, 1 held, 2 free.
fn class_of(state: &hns_covenants::NameState) -> usize {
    match (state.is_null(), state.owner_outpoint()) {
        (true, _) => 0,
        (false, Some(_)) => 1,
        (false, None) => 2,
    }
}

/// The numbers after the class, and the bytes after them: every field of a state.
fn fields(state: &NameState) -> (Vec<u64>, Vec<u8>) {
    let numbers = vec![
        state.name_length as u64,
        state.resource_length as u64,
        state.height.0.into(),
        state.renewal.0.into(),
        state.value.0,
        state.highest.0,
        state.transfer.0.into(),
        state.revoked.0.into(),
        state.claimed.0.into(),
        state.renewals.into(),
        state.owner.index.into(),
        state.registered.into(),
        state.expired.into(),
        state.weak.into(),
    ];
    let bytes = [
        &state.owner.transaction_hash.0[..],
        &state.name,
        &state.resource_data,
    ];
    (numbers, bytes.concat())
}

fn state(records: &mut Records, key: &[u8; 32], bytes: &[u8]) {
    let (read, position) = original::decode(key, bytes);
    let (refusal, shown, (more, texts)) = match read {
        Ok(whole) => (
            Verdict::ACCEPTED,
            class_of(&original::theirs(&whole.0)),
            fields(&whole.0),
        ),
        Err(refused) => (refused, 0, (vec![0; 2], Vec::new())),
    };
    let record = Record {
        entry: entry::STATE,
        argument: [&key[..], bytes].concat(),
        numbers: [numbers(refusal, &[position, shown]), more].concat(),
        bytes: texts,
    };
    let is_long = bytes.len() > SHORT;
    let (other, enough) = match refusal.number {
        _ if is_long => (1000, 6),
        0 => (shown, 60),
        1 => (refusal.first.min(60), 2),
        4 | 7 => (refusal.first, 16),
        _ => (0, 44),
    };
    records.offer(class(refusal, other), enough, &record);
}

fn states(records: &mut Records, random: &mut Random) {
    state(records, &[0; 32], &[0; 13]);
    let mut named = [0; 14];
    named[..2].copy_from_slice(&[1, 0x41]);
    state(records, &[7; 32], &named);
    let mut shown = [0; 14];
    shown[11] = 2;
    state(records, &[0; 32], &shown);
    let mut fields = Fields::default();
    let mut bytes = Vec::new();
    for _ in 0..DRAWN {
        fields.draw(random);
        bytes.clear();
        fields.put(&mut bytes);
        match random.below(8) {
            0 | 1 => build::damage(&mut bytes, 0, random),
            2 => bytes.resize(random.of(&[667, 668, 669, 670, 700]), 0),
            _ => {}
        }
        let key = key(&fields.name, random);
        state(records, &key, &bytes);
    }
}

// ---- links

/// The 36 bytes of `Outpoint::encode`.
fn encoded(outpoint: Outpoint) -> Vec<u8> {
    let mut encoded = outpoint.transaction_hash.0.to_vec();
    encoded.extend_from_slice(&outpoint.index.to_le_bytes());
    encoded
}

/// A pair of sheets in a class of its answer's; nothing where the original panics.
fn both(records: &mut Records, pair: &Sheets, class: impl Fn(Verdict, u8) -> u64, enough: usize) {
    let verified = verify::answer(pair);
    if verified.panicked {
        return;
    }
    let answer = verified.answer;
    let length = u32::try_from(pair.transaction.len()).expect("a sheet is short");
    let others = [
        answer.side.into(),
        answer.inputs_checked,
        answer.linked_outputs,
        answer.name_inputs,
    ];
    let record = Record {
        entry: entry::LINKS,
        argument: [&length.to_le_bytes()[..], &pair.transaction, &pair.coins].concat(),
        numbers: numbers(answer.stop.verdict(), &others),
        bytes: [answer.expected, answer.actual].map(encoded).concat(),
    };
    records.offer(class(answer.stop.verdict(), answer.side), enough, &record);
}

/// Rows whose ends are their own: a bid's commitment, a claim that can't redeem, a transfer's address.
const OWN_ENDS: [(u8, u8); 3] = [(3, 4), (1, 5), (9, 10)];

/// Every kind with every kind, right and with every single fault, and without a partner: each different answer once,
/// and all of the rows with ends of their own.
fn rows(records: &mut Records, random: &mut Random) {
    let mut pair = Sheets::default();
    for spent in 0..=12 {
        for created in 0..=12 {
            for fault in 0..=fault::COUNT {
                let faults = (1 << fault) & ((1 << fault::COUNT) - 1);
                let one = sheets::pair(spent, created, faults, random);
                pair.lay(&[one], 1, &[]);
                let is_own = OWN_ENDS.contains(&(spent, created));
                let kinds = usize::from(spent) << 8 | usize::from(created) << 4;
                let row = |verdict: Verdict| match verdict.number {
                    _ if is_own => (fault as usize) << 12 | kinds,
                    10 | 12 => usize::from(spent) << 8,
                    _ => kinds | verdict.second,
                };
                both(records, &pair, |v, _| class(v, 1 << 20 | row(v)), 1);
            }
        }
        let one = sheets::pair(spent, 0, 0, random);
        pair.lay(&[one], 0, &[]);
        both(
            records,
            &pair,
            |v, _| class(v, 2 << 20 | usize::from(spent)),
            1,
        );
    }
}

/// Inputs and coins that differ in number.
fn counts(records: &mut Records, random: &mut Random) {
    let pairs = [(); 3].map(|()| sheets::pair(0, 0, 0, random));
    for inputs in 0..=3 {
        for coins in 0..=3 {
            let (mut pair, mut other) = (Sheets::default(), Sheets::default());
            pair.lay(&pairs[..inputs], inputs, &[]);
            other.lay(&pairs[..coins], 0, &[]);
            pair.coins = other.coins;
            both(records, &pair, |v, _| class(v, 3 << 20), 16);
        }
    }
}

fn links(records: &mut Records, random: &mut Random) {
    let empty = Sheets {
        transaction: vec![0x10, 0, 0, 0],
        coins: vec![0x14, 0, 0, 0],
    };
    both(records, &empty, |v, _| class(v, 0), 1);
    let mut alone = empty;
    alone.transaction = [&[0x10, 0, 0, 0x40][..], &[0; 10], &[4, 0]].concat();
    both(records, &alone, |v, _| class(v, 0), 1);
    rows(records, random);
    counts(records, random);
    let mut pair = Sheets::default();
    for _ in 0..DRAWN {
        sheets::draw(&mut pair, random);
        if random.once_in(3) {
            damage_one(&mut pair, random);
        }
        if pair.transaction.len() + pair.coins.len() > 850 {
            continue;
        }
        // Refusals of a sheet by its side, those of a rule by the input.
        let enough = match verify::answer(&pair).answer.stop.number {
            0 => 34,
            1..=5 | 27 => 12,
            _ => 3,
        };
        let place = |verdict: Verdict, side: u8| match verdict.number {
            0..=5 | 27 => usize::from(side),
            15 => verdict.second << 2 | verdict.first & 3,
            _ => verdict.first & 3,
        };
        both(
            records,
            &pair,
            |v, side| class(v, 4 << 20 | place(v, side)),
            enough,
        );
    }
}

// ---- names and commitments

fn name(records: &mut Records, name: &[u8], class: u64, enough: usize) {
    let hash = guarded(|| hns_covenants::hash_name(name).map_err(|error| covenant_error(&error)));
    let (number, hash) = match hash {
        Ok(hash) => (0, hash.into_bytes()),
        Err(refused) => (refused.number, [0; 32]),
    };
    let record = Record {
        entry: entry::NAME,
        argument: name.to_vec(),
        numbers: vec![number.into()],
        bytes: hash.to_vec(),
    };
    records.offer(class << 8 | u64::from(number), enough, &record);
}

fn blind(records: &mut Records, value: u64, nonce: &[u8; 32]) {
    let record = Record {
        entry: entry::BLIND,
        argument: [&value.to_le_bytes()[..], nonce].concat(),
        numbers: Vec::new(),
        bytes: hns_covenants::blind_bid(value, nonce).to_vec(),
    };
    records.offer(0, usize::MAX, &record);
}

fn names(records: &mut Records, random: &mut Random) {
    for byte in 0..=255 {
        name(records, &[byte], 0, 256);
    }
    for length in 0..=70 {
        name(records, &vec![b'a'; length], 1, 100);
    }
    for word in RESERVED {
        for (before, after) in [
            ("", ""),
            ("a", ""),
            ("", "0"),
            ("-", ""),
            ("", "_"),
            ("a-", "_b"),
        ] {
            name(
                records,
                &[before.as_bytes(), word, after.as_bytes()].concat(),
                2,
                100,
            );
        }
        name(records, &word[1..], 2, 100);
    }
    let mut drawn = Vec::new();
    for _ in 0..DRAWN {
        let length = random.of(&[1, 2, 3, 8, 20, 62, 63, 64]);
        drawn.clear();
        put_name(&mut drawn, length, random);
        name(records, &drawn, 3, 150);
    }
    for bit in 0..64 {
        blind(records, 1 << bit, &random.bytes32());
    }
    for value in [0, u64::MAX] {
        for byte in [0, 0xff] {
            blind(records, value, &[byte; 32]);
        }
    }
    for _ in 0..64 {
        blind(records, random.any_size(), &random.bytes32());
    }
}
