//! States around every boundary, and the fields of their records one by one.

use crate::covenants::build::put_compact;
use crate::names::{LETTERS, RESERVED, put_name};
use crate::random::Random;
use turgamysk::{Dollarydoos, Height, NameHash, NameState, Outpoint, TransactionHash};

const INDEXES: [u64; 12] = [
    0,
    1,
    252,
    253,
    65_535,
    65_536,
    u32::MAX as u64 - 1,
    u32::MAX as u64,
    u32::MAX as u64 + 1,
    1 << 53,
    u64::MAX - 1,
    u64::MAX,
];
const AMOUNTS: [u64; 12] = [
    0,
    1,
    252,
    253,
    65_535,
    65_536,
    u32::MAX as u64,
    u32::MAX as u64 + 1,
    (1 << 53) - 2,
    (1 << 53) - 1,
    1 << 53,
    u64::MAX,
];
const FORMS: [usize; 4] = [1, 3, 5, 9];

/// The fields of a record, which need not agree with each other.
#[derive(Clone, Debug, Default)]
pub struct Record {
    pub name_length: u8,
    pub name: Vec<u8>,
    pub resource_length: u16,
    pub resource: Vec<u8>,
    pub height: u32,
    pub renewal: u32,
    pub bits: u16,
    pub owner: [u8; 32],
    pub index: u64,
    pub amounts: [u64; 2],
    pub times: [u32; 3],
    pub renewals: u64,
    /// The bytes that each compact size takes at least.
    pub forms: [usize; 4],
}

impl Record {
    /// The bytes, with the fields that the bitmap tells of.
    pub fn put(&self, bytes: &mut Vec<u8>) {
        bytes.push(self.name_length);
        bytes.extend_from_slice(&self.name);
        bytes.extend_from_slice(&self.resource_length.to_le_bytes());
        bytes.extend_from_slice(&self.resource);
        bytes.extend_from_slice(&self.height.to_le_bytes());
        bytes.extend_from_slice(&self.renewal.to_le_bytes());
        bytes.extend_from_slice(&self.bits.to_le_bytes());
        self.put_fields(bytes);
    }

    fn put_fields(&self, bytes: &mut Vec<u8>) {
        let has = |bit: usize| self.bits & (1 << bit) != 0;
        if has(0) {
            bytes.extend_from_slice(&self.owner);
            put_compact(bytes, self.index, self.forms[0]);
        }
        for (place, amount) in self.amounts.iter().enumerate() {
            if has(1 + place) {
                put_compact(bytes, *amount, self.forms[1 + place]);
            }
        }
        for (place, time) in self.times.iter().enumerate() {
            if has(3 + place) {
                bytes.extend_from_slice(&time.to_le_bytes());
            }
        }
        if has(6) {
            put_compact(bytes, self.renewals, self.forms[3]);
        }
    }

    /// Draws all fields anew.
    pub fn draw(&mut self, random: &mut Random) {
        self.draw_name(random);
        self.draw_resource(random);
        self.height = time(random);
        self.renewal = time(random);
        self.bits = bits(random);
        self.owner = hash(random);
        self.index = number(random, &INDEXES);
        self.amounts = [(); 2].map(|()| number(random, &AMOUNTS));
        self.times = [(); 3].map(|()| time(random));
        self.renewals = number(random, &INDEXES);
        self.forms = [(); 4].map(|()| form(random));
    }

    fn draw_name(&mut self, random: &mut Random) {
        self.name.clear();
        draw_name(&mut self.name, random);
        self.name_length = self.name.len() as u8;
        if random.once_in(64) {
            let any = random.byte();
            self.name_length = random.of(&[62, 63, 64, 65, 255, any]);
        }
    }

    fn draw_resource(&mut self, random: &mut Random) {
        let length = match random.below(64) {
            0 => random.of(&[511, 512, 513]),
            1..=20 => random.below(30),
            _ => 0,
        };
        self.resource.clear();
        self.resource.resize(length, random.byte());
        self.resource_length = length as u16;
        if random.once_in(64) {
            self.resource_length = random.of(&[511, 512, 513, 65_535]);
        }
    }
}

fn draw_name(name: &mut Vec<u8>, random: &mut Random) {
    match random.below(32) {
        0..=1 => {}
        2 => name.extend_from_slice(random.of(&RESERVED)),
        3 => put_name(name, random.between(62, 64), random),
        4..=8 => put_name(name, random.between(1, 8), random),
        _ => {
            let length = random.between(1, 12);
            name.extend((0..length).map(|_| random.of(LETTERS)));
        }
    }
}

fn form(random: &mut Random) -> usize {
    if random.once_in(100) {
        return random.of(&FORMS);
    }
    1
}

fn bits(random: &mut Random) -> u16 {
    match random.below(32) {
        0 => random.number() as u16,
        1..=8 => 0,
        9..=12 => 1 << random.below(10),
        _ => random.below(1024) as u16,
    }
}

fn hash(random: &mut Random) -> [u8; 32] {
    if random.once_in(6) {
        return [0; 32];
    }
    random.bytes32()
}

/// Mostly small and not zero, else one of the edges.
fn number(random: &mut Random, edges: &[u64]) -> u64 {
    if random.once_in(4) {
        return random.of(edges);
    }
    random.between(1, 1000) as u64
}

fn time(random: &mut Random) -> u32 {
    match random.below(16) {
        0 | 1 => 0,
        2 => u32::MAX,
        _ => random.between(1, 300_000) as u32,
    }
}

/// The hash of a name, or what is not one.
pub fn key(name: &[u8], random: &mut Random) -> [u8; 32] {
    let mut key = match hns_covenants::hash_name(name) {
        Ok(hash) => hash.into_bytes(),
        Err(_) => random.bytes32(),
    };
    if random.once_in(16) {
        key[random.below(32)] ^= 1 << random.below(8);
    }
    key
}

/// An array with a text in it, and other bytes after it.
fn array<const SIZE: usize>(text: &[u8], random: &mut Random) -> [u8; SIZE] {
    let mut array = [if random.once_in(2) { 0 } else { random.byte() }; SIZE];
    let length = text.len().min(SIZE);
    array[..length].copy_from_slice(&text[..length]);
    array
}

/// A length as it is, or one that the array does not have.
fn length(own: usize, random: &mut Random) -> usize {
    match random.below(128) {
        0 => random.of(&[62, 63, 64, 65, 255, 256]),
        1 => random.of(&[511, 512, 513, 65_535, 65_536]),
        2 => usize::MAX - random.below(2),
        _ => own,
    }
}

/// A state to be written, such as a reader gives back or not.
pub fn state(record: &Record, random: &mut Random) -> NameState {
    let has = |bit: u16| record.bits & (1 << bit) != 0;
    let kept = |bit: u16, number: u64| if has(bit) { number } else { 0 };
    let time = |place: u16| Height(kept(3 + place, record.times[usize::from(place)].into()) as u32);
    let null = !has(0) || random.once_in(16);
    let nothing = random.once_in(6);
    NameState {
        name_hash: NameHash(key(&record.name, random)),
        name: array(&record.name, random),
        name_length: length(record.name.len(), random),
        resource_data: array(&record.resource, random),
        resource_length: length(record.resource.len(), random),
        height: Height(if nothing { 0 } else { record.height }),
        renewal: Height(if nothing { 0 } else { record.renewal }),
        owner: if null {
            Outpoint::NULL
        } else {
            Outpoint {
                transaction_hash: TransactionHash(record.owner),
                index: record.index as u32,
            }
        },
        value: Dollarydoos(kept(1, record.amounts[0])),
        highest: Dollarydoos(kept(2, record.amounts[1])),
        transfer: time(0),
        revoked: time(1),
        claimed: time(2),
        renewals: kept(6, record.renewals) as u32,
        registered: has(7),
        expired: has(8),
        weak: has(9),
    }
}
