//! Single items: of a directory, also of a hostile one, and found without a directory.

use super::build;
use crate::kind::{Kind, short_inputs};
use crate::oracle::{Refused, covenant_error, decode_error, decoder_at, guarded, refused};
use crate::random::Random;
use crate::tally::{Case, Tally};
use hns_covenants::{Covenant, CovenantKind};
use hns_encoding::Decoder;
use turgamysk::Directory;
use turgamysk::entries::{self, ItemAnswer, ViewAnswer};

const LARGEST: usize = 1_000_009;

#[derive(Default)]
pub struct Items {
    bytes: Vec<u8>,
    directory: Box<Directory>,
}

/// What the five entries say of one item.
#[derive(Debug, PartialEq)]
struct Said {
    place: ViewAnswer,
    numbers: [ItemAnswer; 3],
    hash: (bool, [u8; 32]),
}

fn ours(source: &[u8], directory: &Directory, count: usize, index: usize) -> Said {
    let mut hash = [0xa5; 32];
    Said {
        place: entries::covenant_item(source, directory, count, index),
        numbers: [
            entries::covenant_item_u8(source, directory, count, index),
            entries::covenant_item_u32(source, directory, count, index),
            entries::covenant_item_u64(source, directory, count, index),
        ],
        hash: (
            entries::covenant_item_name_hash(source, directory, count, index, &mut hash),
            hash,
        ),
    }
}

fn number(value: Option<u64>) -> ItemAnswer {
    ItemAnswer {
        exists: value.is_some(),
        value: value.unwrap_or(0),
    }
}

fn place(spot: Option<(usize, usize)>) -> ViewAnswer {
    spot.map_or_else(ViewAnswer::default, |(offset, length)| ViewAnswer {
        exists: true,
        offset,
        length,
    })
}

/// "An item past the count or the 1,000th, or outside the source, is absent."
fn spot(
    source: &[u8],
    directory: &Directory,
    count: usize,
    index: usize,
) -> Option<(usize, usize)> {
    if index >= count {
        return None;
    }
    let start = *directory.starts.get(index)?;
    let length = *directory.lengths.get(index)?;
    (start.checked_add(length)? <= source.len()).then_some((start, length))
}

/// What the original says of the item at a place of the source: it is asked as a covenant of that item alone.
fn theirs(source: &[u8], spot: Option<(usize, usize)>, tally: &mut Tally) -> Said {
    let items = spot.map(|(start, length)| source[start..start + length].to_vec());
    let covenant = Covenant {
        kind: CovenantKind::None,
        items: items.into_iter().collect(),
    };
    let mut byte = guarded(|| Ok(covenant.item_u8(0)));
    if byte.is_err() && covenant.item(0) == Some(&[]) {
        tally.known("item_u8-empty");
        // This is what ours must say there.
        byte = Ok(None);
    }
    let byte = match byte {
        Ok(byte) => number(byte.map(u64::from)),
        Err(panic) => ItemAnswer {
            exists: true,
            value: u64::from(panic.number),
        },
    };
    let hash = covenant.item_name_hash(0).map(|hash| hash.into_bytes());
    Said {
        place: place(spot),
        numbers: [
            byte,
            number(covenant.item_u32(0).map(u64::from)),
            number(covenant.item_u64(0)),
        ],
        hash: (hash.is_some(), hash.unwrap_or([0; 32])),
    }
}

fn compare_item(
    tally: &mut Tally,
    source: &[u8],
    directory: &Directory,
    count: usize,
    index: usize,
) {
    let spot = spot(source, directory, count, index);
    let theirs = theirs(source, spot, tally);
    let ours = ours(source, directory, count, index);
    tally.compare(0, &ours, &theirs, || Case {
        entry: "turgamysk_covenant_item, _u8, _u32, _u64, _name_hash",
        input: source.to_vec(),
        with: format!("count {count}, index {index}, spot {spot:?}"),
    });
}

/// The item of a covenant, looked for as the original reads: its head, and items up to this one, under 1,000,009.
fn seek(bytes: &[u8], position: usize, index: usize) -> Result<(usize, usize), Refused> {
    let mut decoder = decoder_at(bytes, position)?;
    decoder.read_u8().map_err(|error| decode_error(&error))?;
    let count = size(&mut decoder, 1000)?;
    if index >= count {
        return Err(refused(0, [0; 3]));
    }
    for _ in 0..index {
        item(&mut decoder, position)?;
    }
    item(&mut decoder, position)
}

fn size(decoder: &mut Decoder, maximum: usize) -> Result<usize, Refused> {
    decoder
        .read_compact_usize(maximum, "")
        .map_err(|error| decode_error(&error))
}

fn item(decoder: &mut Decoder, start: usize) -> Result<(usize, usize), Refused> {
    let length = size(decoder, 1_000_000)?;
    let begins = decoder.position();
    if begins - start + length > LARGEST {
        return Err(refused(5, [begins - start + length, LARGEST, 0]));
    }
    decoder
        .read_slice(length)
        .map_err(|error| decode_error(&error))?;
    Ok((begins, length))
}

fn compare_find(tally: &mut Tally, bytes: &[u8], position: usize, index: usize) {
    let sought = seek(bytes, position, index);
    let ours = entries::covenant_find(bytes, position, index);
    let number = sought.as_ref().map_or_else(|refused| refused.number, |_| 0);
    tally.compare(number, &ours, &place(sought.ok()), || Case {
        entry: "turgamysk_covenant_find",
        input: bytes.to_vec(),
        with: format!("position {position}, index {index}"),
    });
    compare_read(tally, bytes, position, index, sought.ok());
}

/// Where the original reads the whole covenant, the item that was sought is the one it has.
fn compare_read(
    tally: &mut Tally,
    bytes: &[u8],
    position: usize,
    index: usize,
    sought: Option<(usize, usize)>,
) {
    let Ok(mut decoder) = decoder_at(bytes, position) else {
        return;
    };
    let read =
        guarded(|| Covenant::decode_from(&mut decoder).map_err(|error| covenant_error(&error)));
    if let Ok(covenant) = read {
        let sought = sought.map(|(start, length)| &bytes[start..start + length]);
        tally.compare(0, &sought, &covenant.item(index), || Case {
            entry: "item of a covenant that was read",
            input: bytes.to_vec(),
            with: format!("position {position}, index {index}"),
        });
    }
}

fn compare_kinds(tally: &mut Tally) {
    for byte in 0..=255 {
        let kind = CovenantKind::from_u8(byte);
        let theirs = (kind.is_name(), kind.is_linked(), kind.is_unspendable());
        let ours = (
            entries::is_name(byte),
            entries::is_linked(byte),
            entries::is_unspendable(byte),
        );
        tally.compare(0, &ours, &theirs, || Case {
            entry: "turgamysk_is_name, turgamysk_is_linked, turgamysk_is_unspendable",
            input: vec![byte],
            with: String::new(),
        });
    }
}

const HOSTILE: [usize; 6] = [usize::MAX, usize::MAX - 1, 1 << 63, 1 << 32, 1000, 0];
const WIDTHS: [usize; 9] = [0, 1, 2, 4, 5, 8, 31, 32, 33];

impl Items {
    /// Places of all kinds, of which one is looked at.
    fn directory_item(&mut self, random: &mut Random, tally: &mut Tally) {
        let index = match random.below(8) {
            0 => random.of(&[998, 999, 1000, 1001, usize::MAX]),
            _ => random.below(12),
        };
        let count = match random.below(8) {
            0 => random.of(&[0, 999, 1000, 1001, usize::MAX]),
            1 => index,
            _ => index.saturating_add(1 + random.below(3)),
        };
        if index < 1000 {
            let (start, length) = self.draw_spot(random);
            self.directory.starts[index] = start;
            self.directory.lengths[index] = length;
        }
        compare_item(tally, &self.bytes, &self.directory, count, index);
    }

    fn draw_spot(&self, random: &mut Random) -> (usize, usize) {
        let size = self.bytes.len();
        let length = match random.below(32) {
            0 => random.of(&HOSTILE),
            _ => random.of(&WIDTHS),
        };
        let start = match random.below(16) {
            0 => random.of(&HOSTILE),
            1 => size.wrapping_sub(length).wrapping_add(random.below(2)),
            _ => random.below(size.saturating_sub(length) + 1),
        };
        (start, length)
    }
}

impl Kind for Items {
    fn name(&self) -> &'static str {
        "covenant items"
    }

    fn weight(&self) -> u64 {
        10
    }

    fn exhaustive(&mut self, tally: &mut Tally) {
        compare_kinds(tally);
        short_inputs(2, |bytes| {
            for index in [0, 1, 2, 255, 999, 1000, usize::MAX] {
                compare_find(tally, bytes, 0, index);
            }
        });
    }

    fn random(&mut self, random: &mut Random, tally: &mut Tally) {
        self.bytes.clear();
        let start = random.below(4);
        self.bytes.resize(start, random.byte());
        build::put_covenant(&mut self.bytes, random);
        if random.once_in(3) {
            build::damage(&mut self.bytes, start, random);
        }
        let index = match random.below(32) {
            0 => random.of(&[252, 253, 998, 999, 1000, 1001, usize::MAX]),
            _ => random.below(5),
        };
        let position = match random.below(32) {
            0 => random.below(self.bytes.len() + 3),
            1 => usize::MAX - random.below(2),
            _ => start,
        };
        compare_find(tally, &self.bytes, position, index);
        self.directory_item(random, tally);
    }
}
