use super::{FlatStop, WriteAnswer};
use crate::covenant::Directory;

/// A covenant that was read, or the refusal. Unused parts are zeros.
#[repr(C)]
#[derive(Clone, Copy, Debug, Default, Eq, PartialEq)]
pub struct CovenantAnswer {
    /// Whether it was read, and where the reader then stands.
    pub stop: FlatStop,
    /// The covenant's kind.
    pub kind: u8,
    /// How many items it has.
    pub count: usize,
    /// The bytes used up from the allowance.
    pub used: usize,
}

mod c {
    use super::*;

    unsafe extern "C" {
        pub fn turgamysk_covenant_read(
            bytes: *const u8,
            length: usize,
            position: usize,
            limit: usize,
        ) -> CovenantAnswer;
        pub fn turgamysk_covenant_decode(
            bytes: *const u8,
            length: usize,
            starts: *mut usize,
            lens: *mut usize,
        ) -> CovenantAnswer;
        pub fn turgamysk_covenant_decode_from(
            bytes: *const u8,
            length: usize,
            position: usize,
            limit: usize,
            starts: *mut usize,
            lens: *mut usize,
        ) -> CovenantAnswer;
        pub fn turgamysk_covenant_encode(
            dest: *mut u8,
            dest_length: usize,
            kind: u8,
            source: *const u8,
            source_length: usize,
            starts: *const usize,
            lens: *const usize,
            count: usize,
        ) -> WriteAnswer;
        pub fn turgamysk_covenant_encoded_size(
            source: *const u8,
            length: usize,
            starts: *const usize,
            lens: *const usize,
            count: usize,
        ) -> WriteAnswer;
    }
}

/// The covenant at `position`, under an allowance of `limit` bytes.
pub fn covenant_read(bytes: &[u8], position: usize, limit: usize) -> CovenantAnswer {
    unsafe { c::turgamysk_covenant_read(bytes.as_ptr(), bytes.len(), position, limit) }
}

/// The covenant that is all of the bytes; its items go into the directory, with zeros after them, and zeros alone where
/// it is refused.
pub fn covenant_decode(bytes: &[u8], directory: &mut Directory) -> CovenantAnswer {
    let starts = directory.starts.as_mut_ptr();
    let lengths = directory.lengths.as_mut_ptr();
    unsafe { c::turgamysk_covenant_decode(bytes.as_ptr(), bytes.len(), starts, lengths) }
}

/// The covenant at `position`, under an allowance of `limit` bytes, with its directory as [`covenant_decode`] fills it.
pub fn covenant_decode_from(
    bytes: &[u8],
    position: usize,
    limit: usize,
    directory: &mut Directory,
) -> CovenantAnswer {
    let starts = directory.starts.as_mut_ptr();
    let lengths = directory.lengths.as_mut_ptr();
    unsafe {
        c::turgamysk_covenant_decode_from(
            bytes.as_ptr(),
            bytes.len(),
            position,
            limit,
            starts,
            lengths,
        )
    }
}

/// A covenant of `kind` with the first `count` items of a directory over `source`, into the first bytes of `dest`: all
/// of it, or nothing.
pub fn covenant_encode(
    dest: &mut [u8],
    kind: u8,
    source: &[u8],
    directory: &Directory,
    count: usize,
) -> WriteAnswer {
    unsafe {
        c::turgamysk_covenant_encode(
            dest.as_mut_ptr(),
            dest.len(),
            kind,
            source.as_ptr(),
            source.len(),
            directory.starts.as_ptr(),
            directory.lengths.as_ptr(),
            count,
        )
    }
}

/// How many bytes the covenant of those items takes, or why it is not written.
pub fn covenant_encoded_size(source: &[u8], directory: &Directory, count: usize) -> WriteAnswer {
    let starts = directory.starts.as_ptr();
    let lengths = directory.lengths.as_ptr();
    unsafe {
        c::turgamysk_covenant_encoded_size(source.as_ptr(), source.len(), starts, lengths, count)
    }
}
