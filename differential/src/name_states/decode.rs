//! `NameState::decode`.

use super::build::{Record, key};
use super::original::{self, Whole};
use crate::covenants::build::damage;
use crate::kind::{Kind, short_inputs};
use crate::oracle::Refused;
use crate::random::Random;
use crate::tally::{Case, Tally};
use turgamysk::entries::{self, Verdict};

#[derive(Default)]
pub struct Decode {
    bytes: Vec<u8>,
    record: Record,
}

type Answer = (Result<Whole, Refused>, usize);

/// Our answer, and whether its unused parts are zeros: the state of a refusal, what an accepted record's refusal would
/// carry.
fn ours(key: &[u8; 32], record: &[u8]) -> (Answer, bool) {
    let answer = entries::name_state_decode(key, record);
    let state = Whole(answer.state);
    let (verdict, position) = (answer.stop.verdict(), answer.stop.position);
    if verdict.number == 0 {
        return ((Ok(state), position), verdict == Verdict::ACCEPTED);
    }
    ((Err(verdict), position), state == Whole::ZEROS)
}

fn compare(tally: &mut Tally, key: &[u8; 32], record: &[u8]) {
    let ours = ours(key, record);
    let theirs = original::decode(key, record);
    let number = theirs
        .0
        .as_ref()
        .map_or_else(|refused| refused.number, |_| 0);
    tally.compare(number, &ours, &(theirs, true), || Case {
        entry: "turgamysk_name_state_decode",
        input: record.to_vec(),
        with: format!("key {key:x?}; true: unused parts are zeros"),
    });
}

/// A record whose optional fields are all zeros, or none of them.
fn body(record: &mut Record, bits: u16, set: bool) {
    record.bits = bits;
    record.owner = [if set { 7 } else { 0 }; 32];
    record.index = if set { 3 } else { u64::from(u32::MAX) };
    record.amounts = [u64::from(set); 2];
    record.times = [u32::from(set); 3];
    record.renewals = u64::from(set);
}

impl Decode {
    fn compare_record(&mut self, tally: &mut Tally, key: &[u8; 32]) {
        self.bytes.clear();
        self.record.put(&mut self.bytes);
        compare(tally, key, &self.bytes);
    }

    /// Every bitmap over bodies that have its fields, or other bytes.
    fn bitmaps(&mut self, tally: &mut Tally) {
        let key = hns_covenants::hash_name(b"a").expect("a name").into_bytes();
        for bits in 0..=u16::MAX {
            for (name, set) in [("a", true), ("a", false), ("", true), ("", false)] {
                self.record.name = name.as_bytes().to_vec();
                self.record.name_length = name.len() as u8;
                body(&mut self.record, bits, set);
                self.compare_record(tally, &key);
            }
            for filling in [0, 1, 0xfd, 0xff] {
                self.bytes.resize(80, 0);
                self.bytes[13..].fill(filling);
                self.bytes[..13].fill(0);
                self.bytes[11..13].copy_from_slice(&bits.to_le_bytes());
                compare(tally, &key, &self.bytes);
            }
        }
    }

    /// Every length of a name and of a resource, over bytes that have room for them or not.
    fn heads(&mut self, tally: &mut Tally) {
        for length in [
            0, 1, 12, 13, 63, 64, 75, 76, 77, 255, 300, 667, 668, 669, 700,
        ] {
            for filling in [0, b'a'] {
                self.bytes.clear();
                self.bytes.resize(length, filling);
                self.first_bytes(tally);
            }
        }
        for resource in 0..=u16::MAX {
            self.bytes.clear();
            self.bytes.resize(length_for(resource), 0);
            self.bytes[1..3].copy_from_slice(&resource.to_le_bytes());
            compare(tally, &[0; 32], &self.bytes);
        }
    }

    fn first_bytes(&mut self, tally: &mut Tally) {
        for first in 0..=255 {
            if let Some(byte) = self.bytes.first_mut() {
                *byte = first;
            }
            compare(tally, &[0; 32], &self.bytes);
        }
    }

    /// Every beginning of a record, and every byte of it changed.
    fn beginnings(&mut self, tally: &mut Tally) {
        let key = hns_covenants::hash_name(b"a").expect("a name").into_bytes();
        self.record.name = b"a".to_vec();
        self.record.name_length = 1;
        body(&mut self.record, 1023, true);
        self.bytes.clear();
        self.record.put(&mut self.bytes);
        for cut in 0..self.bytes.len() {
            compare(tally, &key, &self.bytes[..cut]);
            let kept = self.bytes[cut];
            for byte in 0..=255 {
                self.bytes[cut] = byte;
                compare(tally, &key, &self.bytes);
            }
            self.bytes[cut] = kept;
        }
    }
}

/// Long enough for a resource of so many bytes, where it may be so long.
fn length_for(resource: u16) -> usize {
    13 + usize::from(resource).min(600)
}

impl Kind for Decode {
    fn name(&self) -> &'static str {
        "state decode"
    }

    fn weight(&self) -> u64 {
        15
    }

    fn exhaustive(&mut self, tally: &mut Tally) {
        short_inputs(2, |record| compare(tally, &[0; 32], record));
        self.record = Record::default();
        self.bitmaps(tally);
        self.heads(tally);
        self.record = Record::default();
        self.beginnings(tally);
    }

    fn random(&mut self, random: &mut Random, tally: &mut Tally) {
        self.record.draw(random);
        if random.once_in(4) {
            self.empty(random);
        }
        self.bytes.clear();
        self.record.put(&mut self.bytes);
        match random.below(16) {
            0..=3 => damage(&mut self.bytes, 0, random),
            4 => self.bytes.resize(random.of(&[667, 668, 669, 670]), 0),
            5 => self.bytes.push(random.byte()),
            _ => {}
        }
        let key = key(&self.record.name, random);
        compare(tally, &key, &self.bytes);
    }
}

impl Decode {
    /// A null state, or nearly.
    fn empty(&mut self, random: &mut Random) {
        self.record.resource.clear();
        self.record.resource_length = 0;
        self.record.height = u32::from(random.once_in(8));
        self.record.renewal = u32::from(random.once_in(8));
        if random.once_in(2) {
            self.record.bits = 0;
        }
    }
}
