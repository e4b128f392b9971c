//! Writes at an offset of a lent destination, and what is told of an outpoint.

use super::{SIZES, our_outpoint};
use crate::kind::Kind;
use crate::oracle::refused;
use crate::random::Random;
use crate::tally::{Case, Tally};
use hns_encoding::Encoder;
use hns_primitives::TransactionHash;
use turgamysk::entries::{self, WriteAnswer};

#[derive(Default)]
pub struct Writes {
    value: Vec<u8>,
    dest: Vec<u8>,
    expected: Vec<u8>,
}

/// What a put of these bytes at an offset does: "29 is given exactly when .. the destination is shorter".
fn put(dest: &mut [u8], at: usize, bytes: &[u8]) -> WriteAnswer {
    let end = at.checked_add(bytes.len());
    match end.and_then(|end| dest.get_mut(at..end)) {
        Some(place) => {
            place.copy_from_slice(bytes);
            WriteAnswer {
                written: bytes.len(),
                ..WriteAnswer::default()
            }
        }
        None => WriteAnswer {
            verdict: refused(29, [bytes.len(), 0, 0]),
            written: 0,
        },
    }
}

impl Writes {
    /// Compares one put at an offset of a destination of a length and a pattern.
    fn compare(
        &mut self,
        tally: &mut Tally,
        entry: &'static str,
        (length, at, pattern): (usize, usize, u8),
        write: impl FnOnce(&mut Encoder),
        call: impl FnOnce(&mut [u8]) -> WriteAnswer,
    ) {
        let mut encoder = Encoder::new();
        write(&mut encoder);
        let bytes = encoder.into_bytes();
        for buffer in [&mut self.dest, &mut self.expected] {
            buffer.clear();
            buffer.resize(length, pattern);
        }
        let theirs = put(&mut self.expected, at, &bytes);
        if theirs.verdict.number == 29 {
            tally.known("no-room");
        }
        let ours = call(&mut self.dest);
        let left = self.dest == self.expected;
        tally.compare(
            theirs.verdict.number,
            &(ours, left),
            &(theirs, true),
            || Case {
                entry,
                input: bytes,
                with: format!("at {at} of {length} bytes, then {:02x?}", self.dest),
            },
        );
    }

    fn compare_all(&mut self, tally: &mut Tally, room: (usize, usize, u8), value: u64) {
        let at = room.1;
        self.compare(
            tally,
            "turgamysk_put_u8",
            room,
            |encoder| encoder.put_u8(value as u8),
            |dest| entries::put_u8(dest, at, value as u8),
        );
        self.compare(
            tally,
            "turgamysk_put_u16_le",
            room,
            |encoder| encoder.put_u16_le(value as u16),
            |dest| entries::put_u16_le(dest, at, value as u16),
        );
        self.compare(
            tally,
            "turgamysk_put_u32_le",
            room,
            |encoder| encoder.put_u32_le(value as u32),
            |dest| entries::put_u32_le(dest, at, value as u32),
        );
        self.compare(
            tally,
            "turgamysk_put_u64_le",
            room,
            |encoder| encoder.put_u64_le(value),
            |dest| entries::put_u64_le(dest, at, value),
        );
        self.compare(
            tally,
            "turgamysk_put_compact_size",
            room,
            |encoder| encoder.put_compact_size(value),
            |dest| entries::put_compact_size(dest, at, value),
        );
    }

    fn compare_bytes(&mut self, tally: &mut Tally, room: (usize, usize, u8)) {
        let at = room.1;
        let value = std::mem::take(&mut self.value);
        self.compare(
            tally,
            "turgamysk_put_bytes",
            room,
            |encoder| encoder.put_bytes(&value),
            |dest| entries::put_bytes(dest, at, &value),
        );
        self.compare(
            tally,
            "turgamysk_put_varbytes",
            room,
            |encoder| encoder.put_varbytes(&value),
            |dest| entries::put_varbytes(dest, at, &value),
        );
        self.value = value;
    }
}

fn compare_width(tally: &mut Tally, value: u64) {
    let mut encoder = Encoder::new();
    encoder.put_compact_size(value);
    let theirs = encoder.into_bytes().len();
    let ours = entries::compact_size_len(value);
    tally.compare(0, &ours, &theirs, || Case {
        entry: "turgamysk_compact_size_len",
        input: value.to_le_bytes().to_vec(),
        with: String::new(),
    });
}

/// The encoding of an outpoint, whether it is null, and whether it is another.
fn compare_outpoint(tally: &mut Tally, random: &mut Random) {
    let draw = |random: &mut Random| hns_primitives::Outpoint {
        transaction_hash: TransactionHash::new(random.of(&[[0; 32], [1; 32], [0xff; 32]])),
        index: random.of(&[0, 1, u32::MAX - 1, u32::MAX]),
    };
    let mut outpoint = draw(random);
    let other = draw(random);
    if random.once_in(4) {
        outpoint.transaction_hash = TransactionHash::new(random.bytes32());
    }
    let mut encoded = [0xa5; 36];
    entries::outpoint_encode(our_outpoint(&outpoint), &mut encoded);
    let ours = (
        encoded,
        entries::outpoint_is_null(our_outpoint(&outpoint)),
        entries::outpoint_same(our_outpoint(&outpoint), our_outpoint(&other)),
    );
    let theirs = (outpoint.encode(), outpoint.is_null(), outpoint == other);
    tally.compare(0, &ours, &theirs, || Case {
        entry: "turgamysk_outpoint_encode, turgamysk_outpoint_is_null, turgamysk_outpoint_same",
        input: outpoint.encode().to_vec(),
        with: format!("{other:?}"),
    });
}

impl Kind for Writes {
    fn name(&self) -> &'static str {
        "wire writes"
    }

    fn weight(&self) -> u64 {
        4
    }

    fn exhaustive(&mut self, tally: &mut Tally) {
        for bit in 0..64 {
            for value in [(1 << bit) - 1, 1 << bit, (1 << bit) + 1] {
                for at in 0..12 {
                    self.compare_all(tally, (11, at, 0xee), value);
                }
                compare_width(tally, value);
            }
        }
        for value in 0..=70_000 {
            compare_width(tally, value);
        }
    }

    fn random(&mut self, random: &mut Random, tally: &mut Tally) {
        let length = random.below(40);
        let at = match random.below(16) {
            0 => random.of(&SIZES),
            _ => random.below(length + 3),
        };
        let room = (length, at, random.byte());
        let value = random.any_size();
        self.compare_all(tally, room, value);
        compare_width(tally, value);
        let bytes = match random.below(64) {
            0 => random.of(&[252, 253, 254, 65_535, 65_536]),
            _ => random.below(45),
        };
        self.value.clear();
        self.value.resize(bytes, random.byte());
        let room = (bytes + random.below(12), random.below(8), room.2);
        self.compare_bytes(tally, room);
        compare_outpoint(tally, random);
    }
}
