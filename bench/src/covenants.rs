//! Covenants, against the original's `Covenant`.

use crate::bytes::message;
use crate::task::{Heading, Task};
use crate::timing::Side;
use hns_covenants::{Covenant, CovenantKind};
use std::hint::black_box;
use turgamysk::Directory;
use turgamysk::entries;

/// A Register with a name hash, a start height, a resource of 200 bytes and a block hash.
pub fn register() -> Covenant {
    Covenant {
        kind: CovenantKind::Register,
        items: [32, 4, 200, 32].map(message).to_vec(),
    }
}

/// So many items of `length` bytes each.
fn alike(count: usize, length: usize) -> Covenant {
    Covenant {
        kind: CovenantKind::None,
        items: vec![message(length); count],
    }
}

/// The rows of each table.
fn cases() -> [(&'static str, Covenant); 4] {
    [
        ("32 + 4 + 200 + 32 bytes", register()),
        ("1,000 empty", alike(1000, 0)),
        ("1,000 of one byte", alike(1000, 1)),
        ("one of 900,000 bytes", alike(1, 900_000)),
    ]
}

pub fn encoded(covenant: &Covenant) -> Vec<u8> {
    covenant.encode().expect("within the limits")
}

fn decoded(bytes: &[u8]) -> Directory {
    let mut directory = Directory::new();
    let answer = entries::covenant_decode(bytes, &mut directory);
    assert_eq!(answer.stop.number, 0);
    directory
}

/// Both sides read and write the covenants alike, and refuse each beginning of the shortest one.
pub fn agree() {
    for (_, covenant) in cases() {
        let bytes = encoded(&covenant);
        let read = entries::covenant_read(&bytes, 0, usize::MAX);
        assert_eq!((read.stop.number, read.kind), (0, covenant.kind.as_u8()));
        assert_eq!((read.count, read.used), (covenant.items.len(), bytes.len()));
        let directory = decoded(&bytes);
        for (index, item) in covenant.items.iter().enumerate() {
            let start = directory.starts[index];
            assert_eq!(&bytes[start..start + directory.lengths[index]], &item[..]);
        }
        let mut written = vec![0; bytes.len()];
        let count = covenant.items.len();
        let answer = entries::covenant_encode(&mut written, read.kind, &bytes, &directory, count);
        assert_eq!((answer.verdict.number, answer.written), (0, bytes.len()));
        assert_eq!(written, bytes);
    }
    largest();
    let bytes = encoded(&register());
    for cut in 0..bytes.len() {
        assert!(Covenant::decode(&bytes[..cut]).is_err());
        let read = entries::covenant_read(&bytes[..cut], 0, usize::MAX);
        assert_eq!(read.stop.number, 1);
    }
}

/// Document 01's sample: three items of 1,000,000, 0, 0 fill 1,000,009; a fourth empty item is 5. Both sides say so.
fn largest() {
    let mut covenant = Covenant {
        kind: CovenantKind::None,
        items: vec![vec![7; 1_000_000], Vec::new(), Vec::new()],
    };
    let bytes = encoded(&covenant);
    assert_eq!(bytes.len(), 1_000_009);
    let read = entries::covenant_read(&bytes, 0, usize::MAX);
    let counts = (read.stop.number, read.count, read.used);
    assert_eq!(counts, (0, 3, 1_000_009));
    let mut directory = Directory::new();
    directory.lengths[0] = 1_000_000;
    let mut written = vec![0; 1_000_010];
    let source = &covenant.items[0];
    let three = entries::covenant_encode(&mut written, 0, source, &directory, 3);
    assert_eq!((three.verdict.number, three.written), (0, 1_000_009));
    assert_eq!(&written[..1_000_009], &bytes[..]);
    let four = entries::covenant_encode(&mut written, 0, source, &directory, 4).verdict;
    let refused = (four.number, four.first, four.second);
    assert_eq!(refused, (5, 1_000_010, 1_000_009));
    covenant.items.push(Vec::new());
    assert!(covenant.encode().is_err());
}

fn original(bytes: &[u8]) -> Side<'_> {
    Side::new("hns-rs decode", move || {
        black_box(Covenant::decode(black_box(bytes)).is_ok());
    })
}

pub fn accepting(task: &mut dyn Task) {
    let title = "Accepting a covenant, without a directory";
    task.table(Heading::new(title, "items", &[3.0]));
    for (label, covenant) in cases() {
        let bytes = encoded(&covenant);
        let ours = Side::new("turgamysk", || {
            black_box(entries::covenant_read(black_box(&bytes), 0, usize::MAX));
        });
        task.row(label.into(), vec![ours, original(&bytes)]);
    }
}

pub fn directory(task: &mut dyn Task) {
    let title = "Decoding a covenant into its directory";
    task.table(Heading::new(title, "items", &[4.0]));
    for (label, covenant) in cases() {
        let bytes = encoded(&covenant);
        let mut directory = Directory::new();
        let ours = Side::new("turgamysk", || {
            let directory = black_box(&mut directory);
            black_box(entries::covenant_decode(black_box(&bytes), directory));
        });
        task.row(label.into(), vec![ours, original(&bytes)]);
    }
}

pub fn encoding(task: &mut dyn Task) {
    task.table(Heading::new("Encoding a covenant", "items", &[1.0]));
    for (label, covenant) in cases() {
        let bytes = encoded(&covenant);
        let directory = decoded(&bytes);
        let mut written = vec![0; bytes.len()];
        let (kind, count) = (covenant.kind.as_u8(), covenant.items.len());
        let ours = Side::new("turgamysk", || {
            black_box(entries::covenant_encode(
                black_box(&mut written),
                black_box(kind),
                black_box(&bytes),
                black_box(&directory),
                black_box(count),
            ));
        });
        let theirs = Side::new("hns-rs encode", || {
            black_box(black_box(&covenant).encode().is_ok());
        });
        task.row(label.into(), vec![ours, theirs]);
    }
}
