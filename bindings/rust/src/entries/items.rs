use super::{Bytes32, FlatStop, ViewAnswer};
use crate::covenant::Directory;

/// A covenant of a run, or how the run ended. Unused parts are zeros.
#[repr(C)]
#[derive(Clone, Copy, Debug, Default, Eq, PartialEq)]
pub struct StepAnswer {
    /// Whether the next covenant is refused; and the position after it, or where the reader stands after the refusal.
    pub stop: FlatStop,
    /// Whether no bytes were left.
    pub ended: bool,
    /// The covenant's kind.
    pub kind: u8,
    /// How many items it has.
    pub count: usize,
    /// The bytes used up from the allowance.
    pub used: usize,
    /// How many covenants there were up to here.
    pub covenants: usize,
}

/// How a run ended, and how many covenants it had.
#[repr(C)]
#[derive(Clone, Copy, Debug, Default, Eq, PartialEq)]
pub struct RunAnswer {
    /// What stopped it, if it did not end with its bytes, and where the reader then stands.
    pub stop: FlatStop,
    /// How many covenants there were.
    pub covenants: usize,
}

/// The number that an item spells, where it has the width; else zeros.
#[repr(C)]
#[derive(Clone, Copy, Debug, Default, Eq, PartialEq)]
pub struct ItemAnswer {
    /// Whether there is an item of the width.
    pub exists: bool,
    /// Its number.
    pub value: u64,
}

impl ItemAnswer {
    pub(crate) fn value(self) -> Option<u64> {
        self.exists.then_some(self.value)
    }
}

mod c {
    use super::*;

    unsafe extern "C" {
        pub fn turgamysk_covenant_run_next(
            source: *const u8,
            length: usize,
            position: usize,
            count: usize,
        ) -> StepAnswer;
        pub fn turgamysk_covenant_run_next_with_limit(
            source: *const u8,
            length: usize,
            limit: usize,
            position: usize,
            count: usize,
        ) -> StepAnswer;
        pub fn turgamysk_covenant_read_run(source: *const u8, length: usize) -> RunAnswer;
        pub fn turgamysk_covenant_read_run_with_limit(
            source: *const u8,
            length: usize,
            limit: usize,
        ) -> RunAnswer;
        pub fn turgamysk_covenant_import_archive(source: *const u8, length: usize) -> RunAnswer;
        pub fn turgamysk_covenant_find(
            source: *const u8,
            length: usize,
            position: usize,
            index: usize,
        ) -> ViewAnswer;
        pub fn turgamysk_covenant_item(
            source: *const u8,
            length: usize,
            starts: *const usize,
            lens: *const usize,
            count: usize,
            index: usize,
        ) -> ViewAnswer;
        pub fn turgamysk_covenant_item_u8(
            source: *const u8,
            length: usize,
            starts: *const usize,
            lens: *const usize,
            count: usize,
            index: usize,
        ) -> ItemAnswer;
        pub fn turgamysk_covenant_item_u32(
            source: *const u8,
            length: usize,
            starts: *const usize,
            lens: *const usize,
            count: usize,
            index: usize,
        ) -> ItemAnswer;
        pub fn turgamysk_covenant_item_u64(
            source: *const u8,
            length: usize,
            starts: *const usize,
            lens: *const usize,
            count: usize,
            index: usize,
        ) -> ItemAnswer;
        pub fn turgamysk_covenant_item_name_hash(
            source: *const u8,
            length: usize,
            starts: *const usize,
            lens: *const usize,
            count: usize,
            index: usize,
            hash: *mut u8,
        ) -> bool;
        pub fn turgamysk_is_name(kind: u8) -> bool;
        pub fn turgamysk_is_linked(kind: u8) -> bool;
        pub fn turgamysk_is_unspendable(kind: u8) -> bool;
    }
}

/// The next covenant of a run, from `position` on and after `count` covenants, 1,000,009 bytes allowed for it.
pub fn covenant_run_next(source: &[u8], position: usize, count: usize) -> StepAnswer {
    unsafe { c::turgamysk_covenant_run_next(source.as_ptr(), source.len(), position, count) }
}

/// The same under an allowance of `limit` bytes.
pub fn covenant_run_next_with_limit(
    source: &[u8],
    limit: usize,
    position: usize,
    count: usize,
) -> StepAnswer {
    unsafe {
        c::turgamysk_covenant_run_next_with_limit(
            source.as_ptr(),
            source.len(),
            limit,
            position,
            count,
        )
    }
}

/// A whole run, read to its end, 1,000,009 bytes allowed for each covenant.
pub fn covenant_read_run(source: &[u8]) -> RunAnswer {
    unsafe { c::turgamysk_covenant_read_run(source.as_ptr(), source.len()) }
}

/// The same under an allowance of `limit` bytes for each covenant.
pub fn covenant_read_run_with_limit(source: &[u8], limit: usize) -> RunAnswer {
    unsafe { c::turgamysk_covenant_read_run_with_limit(source.as_ptr(), source.len(), limit) }
}

/// An archive, which is a run of covenants, read to its end, 1,000,009 bytes allowed for each covenant.
pub fn covenant_import_archive(source: &[u8]) -> RunAnswer {
    unsafe { c::turgamysk_covenant_import_archive(source.as_ptr(), source.len()) }
}

/// An item of the covenant at `position`, found without a directory.
pub fn covenant_find(source: &[u8], position: usize, index: usize) -> ViewAnswer {
    unsafe { c::turgamysk_covenant_find(source.as_ptr(), source.len(), position, index) }
}

/// Calls an entry over an item of a directory.
macro_rules! of_directory {
    ($entry:ident, $source:ident, $directory:ident, $count:ident, $index:ident $(, $more:expr)?) => {
        unsafe {
            c::$entry(
                $source.as_ptr(),
                $source.len(),
                $directory.starts.as_ptr(),
                $directory.lengths.as_ptr(),
                $count,
                $index,
                $($more)?
            )
        }
    };
}

/// Where an item of a directory stands in its source.
pub fn covenant_item(
    source: &[u8],
    directory: &Directory,
    count: usize,
    index: usize,
) -> ViewAnswer {
    of_directory!(turgamysk_covenant_item, source, directory, count, index)
}

/// An item of one byte.
pub fn covenant_item_u8(
    source: &[u8],
    directory: &Directory,
    count: usize,
    index: usize,
) -> ItemAnswer {
    of_directory!(turgamysk_covenant_item_u8, source, directory, count, index)
}

/// An item of four bytes, the lowest first.
pub fn covenant_item_u32(
    source: &[u8],
    directory: &Directory,
    count: usize,
    index: usize,
) -> ItemAnswer {
    of_directory!(turgamysk_covenant_item_u32, source, directory, count, index)
}

/// An item of eight bytes, the lowest first.
pub fn covenant_item_u64(
    source: &[u8],
    directory: &Directory,
    count: usize,
    index: usize,
) -> ItemAnswer {
    of_directory!(turgamysk_covenant_item_u64, source, directory, count, index)
}

/// An item of 32 bytes, into `hash`; else false, and zeros.
pub fn covenant_item_name_hash(
    source: &[u8],
    directory: &Directory,
    count: usize,
    index: usize,
    hash: &mut Bytes32,
) -> bool {
    of_directory!(
        turgamysk_covenant_item_name_hash,
        source,
        directory,
        count,
        index,
        hash.as_mut_ptr()
    )
}

/// Whether a kind is a known one but None.
pub fn is_name(kind: u8) -> bool {
    unsafe { c::turgamysk_is_name(kind) }
}

/// Whether a kind is one of Reveal to Revoke.
pub fn is_linked(kind: u8) -> bool {
    unsafe { c::turgamysk_is_linked(kind) }
}

/// Whether a kind is Revoke.
pub fn is_unspendable(kind: u8) -> bool {
    unsafe { c::turgamysk_is_unspendable(kind) }
}
