//! Pairs of sheets that keep the link rules, or break them at chosen places.

use crate::covenants::build::{put_compact, put_covenant};
use crate::random::Random;

/// What may be wrong with an input, its coin and its output. A set of these makes a pair; an empty one is right in
/// every row.
pub mod fault {
    pub const SPENT_NAME_GONE: u32 = 1 << 0;
    pub const SPENT_NAME_SHORT: u32 = 1 << 1;
    pub const CREATED_NAME_GONE: u32 = 1 << 2;
    pub const CREATED_NAME_LONG: u32 = 1 << 3;
    pub const NAMES_DIFFER: u32 = 1 << 4;
    pub const SPENT_START_GONE: u32 = 1 << 5;
    pub const SPENT_START_SHORT: u32 = 1 << 6;
    pub const CREATED_START_GONE: u32 = 1 << 7;
    pub const CREATED_START_LONG: u32 = 1 << 8;
    pub const STARTS_DIFFER: u32 = 1 << 9;
    pub const CREATED_THIRD_GONE: u32 = 1 << 10;
    pub const CREATED_THIRD_SHORT: u32 = 1 << 11;
    pub const SPENT_THIRD_GONE: u32 = 1 << 12;
    pub const SPENT_THIRD_EMPTY: u32 = 1 << 13;
    pub const SPENT_THIRD_LONG: u32 = 1 << 14;
    pub const SPENT_FOURTH_GONE: u32 = 1 << 15;
    pub const SPENT_FOURTH_LONG: u32 = 1 << 16;
    pub const SPENT_FOURTH_DIFFERS: u32 = 1 << 17;
    pub const VALUE_ABOVE: u32 = 1 << 18;
    pub const VALUE_BELOW: u32 = 1 << 19;
    pub const VERSION_DIFFERS: u32 = 1 << 20;
    pub const HASH_DIFFERS: u32 = 1 << 21;
    pub const HASH_LONGER: u32 = 1 << 22;
    pub const HASH_EMPTY: u32 = 1 << 23;
    pub const OUTPOINT_HASH: u32 = 1 << 24;
    pub const OUTPOINT_INDEX: u32 = 1 << 25;
    pub const NULL_INPUT: u32 = 1 << 26;
    pub const COUNT: u32 = 27;
}

const BID: u8 = 3;

/// What stands on an output or a coin.
#[derive(Clone, Debug, Default)]
pub struct Piece {
    pub value: u64,
    pub version: u8,
    pub hash: Vec<u8>,
    pub kind: u8,
    pub items: Vec<Vec<u8>>,
    /// The covenant's bytes, in place of its kind and items.
    pub wild: Option<Vec<u8>>,
}

#[derive(Clone, Debug)]
pub struct Pair {
    pub input: [u8; 36],
    pub outpoint: [u8; 36],
    pub coin: Piece,
    pub output: Piece,
}

/// An input with its coin and its output, with the faults of a set. All drawn numbers are from `random`.
pub fn pair(spent: u8, created: u8, faults: u32, random: &mut Random) -> Pair {
    let has = |fault: u32| faults & fault != 0;
    let mut pair = right(spent, created, random);
    if has(fault::VALUE_ABOVE) {
        pair.output.value += 1;
    }
    if has(fault::VALUE_BELOW) {
        pair.output.value -= 2;
    }
    break_address(&mut pair.output, faults);
    pair.coin.items[3] = fourth(spent, &pair.output);
    break_outpoint(&mut pair, faults);
    break_spent(&mut pair.coin.items, faults);
    break_created(&mut pair.output.items, faults);
    pair
}

/// A pair with nothing wrong but, perhaps, its kinds.
fn right(spent: u8, created: u8, random: &mut Random) -> Pair {
    let (name, start) = (random.bytes32().to_vec(), random.byte());
    let start = vec![start, 1, 2, 3];
    let mut outpoint = [0; 36];
    random.fill(&mut outpoint);
    let output = Piece {
        value: random.any_size() / 2 + 2,
        version: random.below(32) as u8,
        hash: random.bytes32()[..random.of(&[20, 32])].to_vec(),
        kind: created,
        items: vec![name.clone(), start.clone(), random.bytes32().to_vec()],
        wild: None,
    };
    let third = vec![output.version];
    let coin = Piece {
        kind: spent,
        items: vec![name, start, third, Vec::new()],
        ..output.clone()
    };
    Pair {
        input: outpoint,
        outpoint,
        coin,
        output,
    }
}

/// The spent covenant's fourth item: a Bid's commitment, else a Transfer's address hash.
fn fourth(spent: u8, output: &Piece) -> Vec<u8> {
    if spent == BID {
        let nonce = output.items[2][..].try_into().expect("32 bytes");
        return hns_covenants::blind_bid(output.value, nonce).to_vec();
    }
    output.hash.clone()
}

fn break_address(output: &mut Piece, faults: u32) {
    if faults & fault::VERSION_DIFFERS != 0 {
        output.version ^= 1;
    }
    if faults & fault::HASH_DIFFERS != 0 {
        output.hash[7] ^= 1;
    }
    if faults & fault::HASH_LONGER != 0 {
        output.hash.push(0);
    }
    if faults & fault::HASH_EMPTY != 0 {
        output.hash.clear();
    }
}

fn break_outpoint(pair: &mut Pair, faults: u32) {
    if faults & fault::NULL_INPUT != 0 {
        pair.input = [0; 36];
        pair.input[32..].fill(0xff);
        pair.outpoint = pair.input;
    }
    if faults & fault::OUTPOINT_HASH != 0 {
        pair.outpoint[3] ^= 1;
    }
    if faults & fault::OUTPOINT_INDEX != 0 {
        pair.outpoint[35] ^= 1;
    }
}

fn break_spent(items: &mut Vec<Vec<u8>>, faults: u32) {
    let has = |fault: u32| faults & fault != 0;
    if has(fault::NAMES_DIFFER) {
        items[0][31] ^= 1;
    }
    if has(fault::SPENT_NAME_SHORT) {
        items[0].pop();
    }
    if has(fault::STARTS_DIFFER) {
        items[1][3] ^= 1;
    }
    if has(fault::SPENT_START_SHORT) {
        items[1].pop();
    }
    if has(fault::SPENT_THIRD_EMPTY) {
        items[2].clear();
    }
    if has(fault::SPENT_THIRD_LONG) {
        items[2].extend([0, 0]);
    }
    if has(fault::SPENT_FOURTH_LONG) {
        items[3].push(0);
    }
    if has(fault::SPENT_FOURTH_DIFFERS)
        && let Some(byte) = items[3].first_mut()
    {
        *byte ^= 0x80;
    }
    let gone = [
        (fault::SPENT_FOURTH_GONE, 3),
        (fault::SPENT_THIRD_GONE, 2),
        (fault::SPENT_START_GONE, 1),
        (fault::SPENT_NAME_GONE, 0),
    ];
    truncate(items, faults, &gone);
}

fn break_created(items: &mut Vec<Vec<u8>>, faults: u32) {
    let has = |fault: u32| faults & fault != 0;
    if has(fault::CREATED_NAME_LONG) {
        items[0].push(0);
    }
    if has(fault::CREATED_START_LONG) {
        items[1].push(0);
    }
    if has(fault::CREATED_THIRD_SHORT) {
        items[2].pop();
    }
    let gone = [
        (fault::CREATED_THIRD_GONE, 2),
        (fault::CREATED_START_GONE, 1),
        (fault::CREATED_NAME_GONE, 0),
    ];
    truncate(items, faults, &gone);
}

/// An item that is gone takes those after it along.
fn truncate(items: &mut Vec<Vec<u8>>, faults: u32, gone: &[(u32, usize)]) {
    for (fault, left) in gone {
        if faults & fault != 0 {
            items.truncate(*left);
        }
    }
}

/// "Head: version 4 bits = 1; side 2 bits (0 transaction, 1 coins); inputs or coins 10; outputs 10 (0 on coins); spare
/// 6 = 0."
pub fn put_head(sheet: &mut Vec<u8>, side: u32, first: usize, outputs: usize) {
    let head = 1 << 28 | side << 26 | (first as u32) << 16 | (outputs as u32) << 6;
    sheet.extend_from_slice(&head.to_be_bytes());
}

pub fn put_piece(sheet: &mut Vec<u8>, piece: &Piece) {
    sheet.extend_from_slice(&piece.value.to_be_bytes());
    sheet.push(piece.version);
    sheet.push(piece.hash.len() as u8);
    sheet.extend_from_slice(&piece.hash);
    if let Some(covenant) = &piece.wild {
        sheet.extend_from_slice(covenant);
        return;
    }
    sheet.push(piece.kind);
    put_compact(sheet, piece.items.len() as u64, 1);
    for item in &piece.items {
        put_compact(sheet, item.len() as u64, 1);
        sheet.extend_from_slice(item);
    }
}

/// Two sheets.
#[derive(Clone, Debug, Default)]
pub struct Sheets {
    pub transaction: Vec<u8>,
    pub coins: Vec<u8>,
}

impl Sheets {
    /// Inputs and coins of the pairs, and the outputs of the first of them; after these the others.
    pub fn lay(&mut self, pairs: &[Pair], partners: usize, others: &[Piece]) {
        self.transaction.clear();
        self.coins.clear();
        let outputs = partners + others.len();
        put_head(&mut self.transaction, 0, pairs.len(), outputs);
        put_head(&mut self.coins, 1, pairs.len(), 0);
        for pair in pairs {
            self.transaction.extend_from_slice(&pair.input);
            self.coins.extend_from_slice(&pair.outpoint);
            put_piece(&mut self.coins, &pair.coin);
        }
        for pair in &pairs[..partners] {
            put_piece(&mut self.transaction, &pair.output);
        }
        for other in others {
            put_piece(&mut self.transaction, other);
        }
    }
}

/// The transitions that pass.
const ROWS: [(u8, u8); 34] = [
    (0, 0),
    (0, 2),
    (0, 3),
    (2, 0),
    (2, 2),
    (2, 3),
    (5, 0),
    (5, 2),
    (5, 3),
    (3, 4),
    (3, 4),
    (3, 4),
    (1, 6),
    (4, 6),
    (4, 5),
    (6, 7),
    (6, 8),
    (6, 9),
    (6, 11),
    (7, 7),
    (7, 9),
    (8, 8),
    (8, 11),
    (8, 9),
    (9, 7),
    (9, 8),
    (9, 11),
    (9, 10),
    (9, 10),
    (10, 7),
    (10, 8),
    (10, 9),
    (12, 0),
    (255, 12),
];

fn kinds(random: &mut Random) -> (u8, u8) {
    match random.below(16) {
        0 => (random.byte(), random.byte()),
        1..=4 => (random.below(13) as u8, random.below(13) as u8),
        _ => random.of(&ROWS),
    }
}

/// Few faults, mostly none, so that a later pair is reached.
fn faults(random: &mut Random) -> u32 {
    match random.below(8) {
        0..=4 => 0,
        5 | 6 => 1 << random.below(fault::COUNT as usize),
        _ => 1 << random.below(fault::COUNT as usize) | 1 << random.below(fault::COUNT as usize),
    }
}

/// A covenant of any form, on one of two records.
fn make_wild(pair: &mut Pair, random: &mut Random) {
    let mut covenant = Vec::new();
    put_covenant(&mut covenant, random);
    let piece = if random.once_in(2) {
        &mut pair.coin
    } else {
        &mut pair.output
    };
    piece.wild = Some(covenant);
}

/// A pair of sheets: most keep the rules up to some pair or to the end.
pub fn draw(sheets: &mut Sheets, random: &mut Random) {
    let count = random.below(5);
    let mut pairs: Vec<Pair> = (0..count)
        .map(|_| {
            let (spent, created) = kinds(random);
            pair(spent, created, faults(random), random)
        })
        .collect();
    if let Some(last) = pairs.last_mut()
        && random.once_in(8)
    {
        make_wild(last, random);
    }
    let partners = if random.once_in(8) {
        random.below(count + 1)
    } else {
        count
    };
    let others: Vec<Piece> = (0..random.below(3))
        .map(|_| {
            let kind = random.of(&[0, 0, 1, 2, 3, 4, 5, 6, 11, 12, 200]);
            pair(0, kind, 0, random).output
        })
        .collect();
    // Outputs after a missing partner would become partners themselves.
    let others = if partners < count { &[][..] } else { &others };
    sheets.lay(&pairs, partners, others);
}
