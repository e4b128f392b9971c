//! A lent directory: filled with a pattern before a call, and held against the original's items after it.

use super::build::compact_width;
use hns_covenants::Covenant;
use turgamysk::Directory;

const PLACES: usize = 1000;
/// What stands in a directory before a call.
const POISON: usize = 0xa5a5_a5a5_a5a5_a5a5;
/// On the many short inputs only so many places are poisoned each time, others from case to case.
const WINDOW: usize = 40;

#[derive(Default)]
pub struct Lent {
    pub directory: Box<Directory>,
    expected: Box<Directory>,
    window: usize,
}

/// Where the original's items stand in the bytes that they were read from, from `start` on, by the forms that it
/// accepts.
fn lay_out(covenant: &Covenant, start: usize, directory: &mut Directory) {
    let mut start = start + 1 + compact_width(covenant.items.len() as u64);
    for (index, item) in covenant.items.iter().enumerate() {
        start += compact_width(item.len() as u64);
        directory.starts[index] = start;
        directory.lengths[index] = item.len();
        start += item.len();
    }
}

/// Whether the first places are as expected and the others zeros.
fn is_directory(directory: &Directory, expected: &Directory, count: usize) -> bool {
    let zeros = [0; PLACES];
    directory.starts[..count] == expected.starts[..count]
        && directory.lengths[..count] == expected.lengths[..count]
        && directory.starts[count..] == zeros[count..]
        && directory.lengths[count..] == zeros[count..]
}

/// The original's items stand where the directory says.
fn holds(bytes: &[u8], directory: &Directory, covenant: &Covenant) -> bool {
    covenant.items.iter().enumerate().all(|(index, item)| {
        let start = directory.starts[index];
        bytes.get(start..start + directory.lengths[index]) == Some(item)
    })
}

impl Lent {
    pub fn poison_all(&mut self) {
        self.directory.starts.fill(POISON);
        self.directory.lengths.fill(POISON);
    }

    pub fn poison_some(&mut self) {
        self.window = (self.window + WINDOW) % PLACES;
        let window = self.window..self.window + WINDOW;
        self.directory.starts[window.clone()].fill(POISON);
        self.directory.lengths[window].fill(POISON);
    }

    /// Whether the directory is that of the covenant that begins at `start`, or zeros where there is none.
    pub fn is_filled(&mut self, bytes: &[u8], start: usize, covenant: Option<&Covenant>) -> bool {
        let Some(covenant) = covenant else {
            return is_directory(&self.directory, &self.directory, 0);
        };
        lay_out(covenant, start, &mut self.expected);
        is_directory(&self.directory, &self.expected, covenant.items.len())
            && holds(bytes, &self.directory, covenant)
    }
}
