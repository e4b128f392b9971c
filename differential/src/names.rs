//! The name rule and the name hash.

use crate::hashes::digest_into;
use crate::kind::{Kind, short_inputs};
use crate::oracle::{covenant_error, guarded};
use crate::random::Random;
use crate::tally::{Case, Tally};
use turgamysk::entries;

pub const RESERVED: [&[u8]; 5] = [b"example", b"invalid", b"local", b"localhost", b"test"];
pub const LETTERS: &[u8; 36] = b"abcdefghijklmnopqrstuvwxyz0123456789";
/// Marks, which may stand inside a name, and the neighbours of the ranges of its letters.
const EDGES: &[u8; 12] = b"-_/:`{@[AZ\x00\xff";

#[derive(Default)]
pub struct Names {
    name: Vec<u8>,
}

fn compare(tally: &mut Tally, name: &[u8], pattern: u8) {
    let validated = guarded(|| Ok(hns_covenants::validate_name(name)));
    let valid = match validated {
        Ok(true) => 0,
        Ok(false) => 6,
        Err(panic) => panic.number,
    };
    let case = |entry| Case {
        entry,
        input: name.to_vec(),
        with: String::from_utf8_lossy(name).into_owned(),
    };
    tally.compare(valid, &entries::validate_name(name), &valid, || {
        case("turgamysk_validate_name")
    });
    let hash = guarded(|| hns_covenants::hash_name(name).map_err(|error| covenant_error(&error)));
    let mut number = 0;
    let ours = digest_into(pattern, |digest| number = entries::hash_name(name, digest));
    let (expected, bytes) = match hash {
        Ok(hash) => (0, hash.into_bytes()),
        Err(refused) => (refused.number, [0; 32]),
    };
    let theirs = digest_into(pattern, |digest| *digest = bytes);
    tally.compare(expected, &(number, ours), &(expected, theirs), || {
        case("turgamysk_hash_name")
    });
}

/// Every name that is one change of a byte, one insertion or one deletion away.
fn neighbours(word: &[u8], mut each: impl FnMut(&[u8])) {
    let mut name = word.to_vec();
    each(&name);
    for (place, own) in word.iter().enumerate() {
        name.remove(place);
        each(&name);
        for byte in 0..=255 {
            name.insert(place, byte);
            each(&name);
            name.remove(place);
        }
        name.insert(place, *own);
    }
    for place in 0..=word.len() {
        for byte in 0..=255 {
            name.insert(place, byte);
            each(&name);
            name.remove(place);
        }
    }
}

/// Letters of a name, and rarely other bytes.
pub fn put_name(name: &mut Vec<u8>, length: usize, random: &mut Random) {
    name.extend((0..length).map(|_| random.of(LETTERS)));
    if length > 0 && random.once_in(4) {
        let last = name.len() - 1;
        let inside = last - random.below(length);
        let place = random.of(&[last + 1 - length, last, inside]);
        name[place] = random.of(EDGES);
    }
}

impl Kind for Names {
    fn name(&self) -> &'static str {
        "names"
    }

    fn weight(&self) -> u64 {
        5
    }

    fn exhaustive(&mut self, tally: &mut Tally) {
        short_inputs(2, |name| compare(tally, name, 0));
        for word in RESERVED {
            neighbours(word, |name| compare(tally, name, 0xff));
        }
        for length in 0..=300 {
            for byte in *b"a9-_A\x00" {
                compare(tally, &vec![byte; length], 0x55);
            }
        }
    }

    fn random(&mut self, random: &mut Random, tally: &mut Tally) {
        let length = match random.below(16) {
            0..=7 => random.between(1, 12),
            8..=14 => random.between(60, 66),
            _ => random.below(200),
        };
        self.name.clear();
        put_name(&mut self.name, length, random);
        compare(tally, &self.name, random.byte());
    }
}
