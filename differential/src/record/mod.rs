//! Answers of the original, written down for a program that has no Rust beside it. README.md has the form of the files.

pub mod cases;

use std::collections::{BTreeMap, BTreeSet};

/// The entries, by their numbers in the files.
pub mod entry {
    pub const COVENANT: u8 = 1;
    pub const COVENANT_WITHIN: u8 = 2;
    pub const STATE: u8 = 3;
    pub const LINKS: u8 = 4;
    pub const NAME: u8 = 5;
    pub const BLIND: u8 = 6;
}

/// A file has fewer bytes than this.
const FULL: usize = 60_000;

/// A call and what the original answers: numbers of 8 bytes, the lowest first, and bytes after them.
#[derive(Clone, Debug)]
pub struct Record {
    pub entry: u8,
    pub argument: Vec<u8>,
    pub numbers: Vec<u64>,
    pub bytes: Vec<u8>,
}

fn put_part(file: &mut Vec<u8>, part: &[u8]) {
    let length = u32::try_from(part.len()).expect("a record is short");
    file.extend_from_slice(&length.to_le_bytes());
    file.extend_from_slice(part);
}

impl Record {
    fn put(&self, file: &mut Vec<u8>) {
        let mut answer: Vec<u8> = self.numbers.iter().flat_map(|n| n.to_le_bytes()).collect();
        answer.extend_from_slice(&self.bytes);
        file.push(self.entry);
        put_part(file, &self.argument);
        put_part(file, &answer);
    }
}

/// A file's bytes, and how many records they are.
#[derive(Clone, Debug, Default)]
pub struct File {
    pub bytes: Vec<u8>,
    pub count: usize,
}

/// Records of one kind, over as many files as they fill.
#[derive(Default)]
pub struct Records {
    pub files: Vec<File>,
    seen: BTreeSet<(u8, Vec<u8>)>,
    classes: BTreeMap<(u8, u64), usize>,
}

impl Records {
    /// The files by their names: numbered where there is more than one.
    fn named(&self, name: &str) -> Vec<(String, &File)> {
        if let [file] = &self.files[..] {
            return vec![(name.to_string(), file)];
        }
        let files = self.files.iter().zip(1..);
        files
            .map(|(file, number)| (format!("{name}_{number}"), file))
            .collect()
    }

    /// Keeps a record, unless its argument is known or there are enough of its class.
    pub fn offer(&mut self, class: u64, enough: usize, record: &Record) {
        let kept = self.classes.entry((record.entry, class)).or_default();
        if *kept >= enough || !self.seen.insert((record.entry, record.argument.clone())) {
            return;
        }
        *kept += 1;
        let mut bytes = Vec::new();
        record.put(&mut bytes);
        if self
            .files
            .last()
            .is_none_or(|file| file.bytes.len() + bytes.len() >= FULL)
        {
            self.files.push(File::default());
        }
        let file = self.files.last_mut().expect("one was pushed");
        file.bytes.extend_from_slice(&bytes);
        file.count += 1;
    }
}

/// All records, by the names of their files.
#[derive(Default)]
pub struct Book {
    pub covenants: Records,
    pub states: Records,
    pub links: Records,
    pub names: Records,
}

impl Book {
    /// The files by their names, in the order in which they are replayed.
    pub fn files(&self) -> Vec<(String, &File)> {
        [
            ("covenants", &self.covenants),
            ("states", &self.states),
            ("links", &self.links),
            ("names", &self.names),
        ]
        .into_iter()
        .flat_map(|(name, records)| records.named(name))
        .collect()
    }
}

#[cfg(test)]
mod tests {
    use super::{FULL, Record, Records, entry};

    fn record(argument: Vec<u8>) -> Record {
        Record {
            entry: entry::NAME,
            argument,
            numbers: vec![6],
            bytes: vec![9, 8],
        }
    }

    #[test]
    fn a_record_has_the_form_of_the_readme() {
        let mut records = Records::default();
        records.offer(0, 1, &record(vec![1, 2, 3]));
        let expected = [
            5, 3, 0, 0, 0, 1, 2, 3, 10, 0, 0, 0, 6, 0, 0, 0, 0, 0, 0, 0, 9, 8,
        ];
        assert_eq!(records.files[0].bytes, expected);
    }

    #[test]
    fn nothing_is_kept_twice_or_once_there_is_enough() {
        let mut records = Records::default();
        for argument in [1, 1, 2, 3] {
            records.offer(0, 2, &record(vec![argument]));
        }
        assert_eq!(records.files[0].count, 2);
    }

    #[test]
    fn a_full_file_is_followed_by_another() {
        let mut records = Records::default();
        for byte in 0..3 {
            records.offer(0, 3, &record(vec![byte; 29_000]));
        }
        let sizes: Vec<usize> = records.files.iter().map(|file| file.bytes.len()).collect();
        assert!(sizes.len() == 2 && sizes.iter().all(|size| *size < FULL));
    }
}
