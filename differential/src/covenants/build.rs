//! Bytes of covenants: good ones around every boundary, and damaged copies of them.

use crate::random::Random;

const SMALL_COUNTS: [usize; 8] = [0, 1, 1, 2, 2, 3, 4, 5];
const EDGE_COUNTS: [u64; 13] = [
    251,
    252,
    253,
    254,
    999,
    1000,
    1001,
    65_535,
    65_536,
    u32::MAX as u64,
    u32::MAX as u64 + 1,
    u64::MAX - 1,
    u64::MAX,
];
const WIDTHS: [usize; 6] = [0, 1, 4, 8, 32, 20];
const EDGE_LENGTHS: [u64; 10] = [
    251,
    252,
    253,
    254,
    65_535,
    65_536,
    u32::MAX as u64,
    u32::MAX as u64 + 1,
    u64::MAX - 8,
    u64::MAX,
];
const LONG_LENGTHS: [u64; 8] = [
    999_990, 999_998, 999_999, 1_000_000, 1_000_001, 1_000_003, 1_000_004, 1_000_009,
];
const MARKS: [u8; 8] = [0, 1, 252, 253, 254, 255, 3, 128];
/// Items longer than this one are said to be there, but are mostly cut off, and always above the other.
const LAID: u64 = 70_000;
const LONGEST_LAID: u64 = 1_000_009;

/// The forms of a compact size, by their bytes.
const FORMS: [usize; 4] = [1, 3, 5, 9];

/// A compact size in its own form, or, where `form` is wider, in a longer one.
pub fn put_compact(bytes: &mut Vec<u8>, value: u64, form: usize) {
    match form.max(compact_width(value)) {
        1 => bytes.push(value as u8),
        3 => put_wide(bytes, 0xfd, &value.to_le_bytes()[..2]),
        5 => put_wide(bytes, 0xfe, &value.to_le_bytes()[..4]),
        _ => put_wide(bytes, 0xff, &value.to_le_bytes()),
    }
}

fn put_wide(bytes: &mut Vec<u8>, mark: u8, number: &[u8]) {
    bytes.push(mark);
    bytes.extend_from_slice(number);
}

pub fn compact_width(value: u64) -> usize {
    match value {
        0..=0xfc => 1,
        0xfd..=0xffff => 3,
        0x1_0000..=0xffff_ffff => 5,
        _ => 9,
    }
}

fn form(random: &mut Random) -> usize {
    if random.once_in(40) {
        return random.of(&FORMS);
    }
    1
}

pub fn kind(random: &mut Random) -> u8 {
    if random.once_in(8) {
        return random.byte();
    }
    random.below(13) as u8
}

fn count(random: &mut Random) -> u64 {
    match random.below(64) {
        0 => random.of(&EDGE_COUNTS),
        1..=3 => random.between(6, 40) as u64,
        _ => random.of(&SMALL_COUNTS) as u64,
    }
}

fn length(random: &mut Random) -> u64 {
    match random.below(256) {
        0 => random.of(&LONG_LENGTHS),
        1..=4 => random.of(&EDGE_LENGTHS),
        5..=31 => random.below(300) as u64,
        32..=150 => random.of(&WIDTHS) as u64,
        _ => random.below(9) as u64,
    }
}

fn put_item(bytes: &mut Vec<u8>, random: &mut Random) {
    let length = length(random);
    let form = form(random);
    put_compact(bytes, length, form);
    let is_laid = length <= LAID || (length <= LONGEST_LAID && random.once_in(16));
    let laid = if is_laid {
        length as usize
    } else {
        random.below(9)
    };
    put_filling(bytes, laid, random);
}

/// Bytes of an item; long ones are all alike.
fn put_filling(bytes: &mut Vec<u8>, length: usize, random: &mut Random) {
    let start = bytes.len();
    bytes.resize(start + length, random.byte());
    let drawn = length.min(40);
    random.fill(&mut bytes[start..start + drawn]);
}

/// A covenant after what stands in `bytes`. Its count and lengths may say more than there is.
pub fn put_covenant(bytes: &mut Vec<u8>, random: &mut Random) {
    bytes.push(kind(random));
    let count = count(random);
    let form = form(random);
    put_compact(bytes, count, form);
    if count > 40 {
        put_many(bytes, count, random);
    } else {
        (0..count).for_each(|_| put_item(bytes, random));
    }
}

/// As many empty or short items as the count says, or one less, or a few: most covenants of many items are empty ones.
fn put_many(bytes: &mut Vec<u8>, count: u64, random: &mut Random) {
    let laid = match random.below(4) {
        0 => random.below(4),
        1 => count.min(1001) as usize - 1,
        _ => count.min(1001) as usize,
    };
    if random.once_in(2) {
        bytes.resize(bytes.len() + laid, 0);
    } else {
        for _ in 0..laid {
            bytes.extend_from_slice(&[1, 0x77]);
        }
    }
}

const FORM_VALUES: [u64; 16] = [
    0,
    1,
    2,
    252,
    253,
    1000,
    1001,
    65_535,
    65_536,
    1_000_000,
    1_000_001,
    u32::MAX as u64,
    u32::MAX as u64 + 1,
    1 << 53,
    u64::MAX - 1,
    u64::MAX,
];

/// Every form of every edge of a compact size, as a count and as an item's length, and each beginning of these bytes.
pub fn compact_forms(mut each: impl FnMut(&[u8])) {
    for value in FORM_VALUES {
        for form in FORMS {
            for head in [&[7][..], &[7, 1], &[7, 2, 0], &[7, 3, 1, 0xaa]] {
                let mut bytes = head.to_vec();
                put_compact(&mut bytes, value, form);
                bytes.extend_from_slice(&[0; 4]);
                (0..=bytes.len()).for_each(|cut| each(&bytes[..cut]));
            }
        }
    }
}

/// Covenants around the largest size: a long item, with empty ones before and after it.
pub fn around_largest(mut each: impl FnMut(&[u8])) {
    let mut bytes = Vec::new();
    for length in (999_996..=1_000_001).chain([65_535, 65_536]) {
        for (before, behind) in [
            (0, 0),
            (0, 1),
            (0, 2),
            (0, 3),
            (1, 1),
            (3, 0),
            (2, 5),
            (6, 0),
        ] {
            bytes.clear();
            bytes.extend_from_slice(&[0, before + 1 + behind]);
            bytes.resize(bytes.len() + usize::from(before), 0);
            put_compact(&mut bytes, length, 1);
            bytes.resize(bytes.len() + length as usize + usize::from(behind), 0);
            each(&bytes);
            bytes.push(0);
            each(&bytes);
            bytes.truncate(bytes.len() - 2);
            each(&bytes);
        }
    }
}

/// Changes a copy of good bytes: bits, single bytes, cuts, insertions and deletions, mostly near `from`, where the
/// marks stand.
pub fn damage(bytes: &mut Vec<u8>, from: usize, random: &mut Random) {
    for _ in 0..random.between(1, 3) {
        let place = place(bytes.len(), from, random);
        match random.below(5) {
            0 => bytes.truncate(place),
            1 => bytes.insert(place, random.of(&MARKS)),
            2 if place < bytes.len() => bytes[place] ^= 1 << random.below(8),
            3 if place < bytes.len() => bytes[place] = random.of(&MARKS),
            4 if place < bytes.len() => {
                bytes.remove(place);
            }
            _ => bytes.push(random.byte()),
        }
    }
}

fn place(length: usize, from: usize, random: &mut Random) -> usize {
    let rest = length.saturating_sub(from);
    let reach = if random.once_in(2) {
        rest.min(12)
    } else {
        rest
    };
    (from + random.below(reach + 1)).min(length)
}
