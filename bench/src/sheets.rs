//! Pairs of sheets that keep the link rules, with items as long as they commonly are.

use crate::bytes::message;
use hns_covenants::{CovenantKind, blind_bid};
use turgamysk_differential::random::Random;
use turgamysk_differential::sheets::build::{Pair, Piece, Sheets};

/// A resource as it commonly is.
pub const RESOURCE: usize = 200;

/// The most pairs of sheets that grow. Their resources then take 16 MiB, none of them more than an item may have.
const MOST_PAIRS: usize = 32;

const NAME: &[u8] = b"twelve-bytes";

/// Both sides of a transition: the coin's covenant and the output's.
struct Transition {
    spent: (CovenantKind, Vec<Vec<u8>>),
    created: (CovenantKind, Vec<Vec<u8>>),
}

fn name_and_start(random: &mut Random) -> [Vec<u8>; 2] {
    [random.bytes32().to_vec(), vec![random.byte(), 1, 2, 0]]
}

fn bid_to_reveal(value: u64, random: &mut Random) -> Transition {
    let [name_hash, start] = name_and_start(random);
    let nonce = random.bytes32();
    let commitment = blind_bid(value, &nonce).to_vec();
    let bid = vec![name_hash.clone(), start.clone(), NAME.to_vec(), commitment];
    let reveal = vec![name_hash, start, nonce.to_vec()];
    Transition {
        spent: (CovenantKind::Bid, bid),
        created: (CovenantKind::Reveal, reveal),
    }
}

fn register_to_update(resource: usize, random: &mut Random) -> Transition {
    let [name_hash, start] = name_and_start(random);
    let block_hash = random.bytes32().to_vec();
    let register = vec![
        name_hash.clone(),
        start.clone(),
        message(resource),
        block_hash,
    ];
    let update = vec![name_hash, start, message(resource)];
    Transition {
        spent: (CovenantKind::Register, register),
        created: (CovenantKind::Update, update),
    }
}

fn piece(value: u64, hash: &[u8], covenant: (CovenantKind, Vec<Vec<u8>>)) -> Piece {
    let (kind, items) = covenant;
    Piece {
        value,
        hash: hash.to_vec(),
        kind: kind.as_u8(),
        items,
        ..Piece::default()
    }
}

/// Every second pair is a Bid to Reveal, the first one too; the others are a Register to Update.
fn pair(index: usize, resource: usize, random: &mut Random) -> Pair {
    let mut outpoint = [0; 36];
    random.fill(&mut outpoint);
    let (value, hash) = (5_000_000 + index as u64, &random.bytes32()[..20]);
    let transition = if index.is_multiple_of(2) {
        bid_to_reveal(value, random)
    } else {
        register_to_update(resource, random)
    };
    Pair {
        input: outpoint,
        outpoint,
        coin: piece(value, hash, transition.spent),
        output: piece(value, hash, transition.created),
    }
}

/// As many inputs as outputs, with resources of `resource` bytes.
pub fn sheets(pairs: usize, resource: usize) -> Sheets {
    let mut random = Random::new(pairs as u64);
    let pairs: Vec<Pair> = (0..pairs)
        .map(|index| pair(index, resource, &mut random))
        .collect();
    let mut sheets = Sheets::default();
    sheets.lay(&pairs, pairs.len(), &[]);
    sheets
}

pub fn size(sheets: &Sheets) -> usize {
    sheets.transaction.len() + sheets.coins.len()
}

/// Two sheets of about `bytes` bytes together: as many pairs as that takes, and from `MOST_PAIRS` on longer resources.
pub fn of_size(bytes: usize) -> Sheets {
    let two = size(&sheets(2, RESOURCE));
    let pairs = (2 * bytes / two).clamp(1, MOST_PAIRS);
    let laid = sheets(pairs, RESOURCE);
    if pairs < MOST_PAIRS {
        return laid;
    }
    // Each second pair has a resource on either sheet.
    sheets(pairs, RESOURCE + (bytes - size(&laid)) / (pairs / 2 * 2))
}
