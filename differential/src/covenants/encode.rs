//! Writing a covenant from a directory: against the original's `encode` where every item lies inside the source, else
//! by document 01's rule.

use super::build;
use crate::kind::Kind;
use crate::oracle::{self, Refused, covenant_error, guarded, refused};
use crate::random::Random;
use crate::room::{Room, compare_write, size_answer};
use crate::tally::{Case, Tally};
use hns_covenants::{Covenant, CovenantKind};
use turgamysk::{Directory, entries};

const LONGEST_SOURCE: usize = 1_000_020;
const MOST_ITEMS: usize = 1000;
/// The original is asked for counts up to this one; above it document 01 gives the same answer.
const MOST_BUILT: usize = 2000;
/// Starts and lengths near the ends of their type.
const HOSTILE: [usize; 9] = [
    usize::MAX,
    usize::MAX - 1,
    usize::MAX - 7,
    1 << 63,
    (1 << 63) - 1,
    1 << 32,
    1_000_000,
    1_000_001,
    0,
];
const LENGTHS: [usize; 12] = [0, 1, 4, 8, 32, 251, 252, 253, 254, 65_535, 65_536, 70_000];

pub struct Encode {
    source: Vec<u8>,
    room: Room,
    directory: Box<Directory>,
    items: Vec<Vec<u8>>,
}

impl Default for Encode {
    fn default() -> Self {
        let mut source = vec![0x5a; LONGEST_SOURCE];
        Random::new(0).fill(&mut source[..100_000]);
        Self {
            source,
            room: Room::default(),
            directory: Box::default(),
            items: Vec::new(),
        }
    }
}

/// "then the first item whose start plus length is above the source's length (30)".
fn first_outside(directory: &Directory, count: usize, source: usize) -> Option<usize> {
    (0..count).find(|&index| {
        let end = u128::try_from(directory.starts[index]).unwrap()
            + u128::try_from(directory.lengths[index]).unwrap();
        end > source as u128
    })
}

impl Encode {
    /// The bytes that are to be written, or the refusal before the room is looked at.
    fn expected(&mut self, kind: u8, source: usize, count: usize) -> Result<Vec<u8>, Refused> {
        if count > MOST_BUILT {
            return Err(refused(5, [count, MOST_ITEMS, 0]));
        }
        if count <= MOST_ITEMS
            && let Some(item) = first_outside(&self.directory, count, source)
        {
            return Err(refused(30, [item, 0, 0]));
        }
        self.take_items(count);
        let covenant = Covenant {
            kind: CovenantKind::from_u8(kind),
            items: std::mem::take(&mut self.items),
        };
        let written = guarded(|| covenant.encode().map_err(|error| covenant_error(&error)));
        self.items = covenant.items;
        written
    }

    /// The directory's items; empty ones where there are more than it has places.
    fn take_items(&mut self, count: usize) {
        self.items.resize_with(count, Vec::new);
        let directory = &self.directory;
        for (index, item) in self.items.iter_mut().enumerate() {
            item.clear();
            if count <= MOST_ITEMS {
                let start = directory.starts[index];
                item.extend_from_slice(&self.source[start..start + directory.lengths[index]]);
            }
        }
    }

    fn compare(&mut self, tally: &mut Tally, random: &mut Random, source: usize, count: usize) {
        let kind = build::kind(random);
        let expected = self.expected(kind, source, count);
        if matches!(expected, Err(Refused { number: 30, .. })) {
            tally.known("bad-item");
        }
        let Self {
            room,
            directory,
            source: bytes,
            ..
        } = self;
        let source = &bytes[..source];
        let case = |entry| Case {
            entry,
            input: source[..source.len().min(64)].to_vec(),
            with: format!(
                "kind {kind}, source of {} bytes, count {count}, starts {:?}, lengths {:?}",
                source.len(),
                &directory.starts[..count.min(6)],
                &directory.lengths[..count.min(6)],
            ),
        };
        let size = size_answer(&expected);
        let ours = entries::covenant_encoded_size(source, directory, count);
        tally.compare(size.verdict.number, &ours, &size, || {
            case("turgamysk_covenant_encoded_size")
        });
        compare_write(
            tally,
            room,
            random,
            &expected,
            |dest| entries::covenant_encode(dest, kind, source, directory, count),
            || case("turgamysk_covenant_encode"),
        );
    }

    fn draw_item(&mut self, random: &mut Random, index: usize, source: usize) {
        let length = match random.below(256) {
            0 => random.of(&LENGTHS),
            1 => random.of(&HOSTILE),
            _ => random.below(40),
        };
        let start = match random.below(128) {
            0 => random.of(&HOSTILE),
            1 => source.wrapping_sub(length).wrapping_add(random.below(2)),
            _ => random.below(source.saturating_sub(length) + 1),
        };
        self.directory.starts[index] = start;
        self.directory.lengths[index] = length;
    }

    /// Few items in a short source; what follows them is left as it was, and must not matter.
    fn few(&mut self, random: &mut Random, tally: &mut Tally) {
        let source = random.below(400);
        let count = random.below(6);
        for index in 0..count {
            self.draw_item(random, index, source);
        }
        self.compare(tally, random, source, count);
    }

    /// Many items, around the largest count; above it the places are all inside.
    fn many(&mut self, random: &mut Random, tally: &mut Tally) {
        let source = random.below(400);
        for index in 0..MOST_ITEMS {
            let length = random.below(source.min(3) + 1);
            self.directory.starts[index] = random.below(source - length + 1);
            self.directory.lengths[index] = length;
        }
        if random.once_in(4) {
            let index = random.below(MOST_ITEMS);
            self.draw_item(random, index, source);
        }
        let count = random.of(&[251, 252, 253, 254, 998, 999, 1000, 1001, 1002, usize::MAX]);
        self.compare(tally, random, source, count);
    }

    /// Long items, around the largest length and the largest size.
    fn long(&mut self, random: &mut Random, tally: &mut Tally) {
        let count = random.between(1, 5);
        for index in 0..count {
            let length = match random.below(3) {
                0 => random.between(999_990, 1_000_009),
                1 => random.of(&LENGTHS),
                _ => 0,
            };
            self.directory.lengths[index] = length;
            self.directory.starts[index] = random.below(LONGEST_SOURCE - length + 1);
        }
        self.compare(tally, random, LONGEST_SOURCE, count);
    }
}

/// A kind of the original that is not its byte's kind is written as that byte, and reads back as another value. Ours
/// has only the byte.
fn compare_kinds(tally: &mut Tally) {
    for byte in 0..=255 {
        let covenant = Covenant {
            kind: CovenantKind::Unknown(byte),
            items: Vec::new(),
        };
        let bytes = covenant.encode().expect("no items");
        let again = Covenant::decode(&bytes).expect("it was written");
        if again != covenant {
            tally.known("Unknown(3)");
        }
        let theirs = oracle::covenant_read(&bytes, 0, usize::MAX);
        let ours = entries::covenant_read(&bytes, 0, usize::MAX);
        tally.compare(0, &ours, &theirs, || Case {
            entry: "turgamysk_covenant_read of an unknown kind",
            input: bytes.clone(),
            with: format!("{:?}", covenant.kind),
        });
    }
}

impl Kind for Encode {
    fn name(&self) -> &'static str {
        "covenant encode"
    }

    fn weight(&self) -> u64 {
        15
    }

    fn exhaustive(&mut self, tally: &mut Tally) {
        compare_kinds(tally);
    }

    fn random(&mut self, random: &mut Random, tally: &mut Tally) {
        match random.below(4096) {
            0 => self.long(random, tally),
            1..=20 => self.many(random, tally),
            _ => self.few(random, tally),
        }
    }
}
