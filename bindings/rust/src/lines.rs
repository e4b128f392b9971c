//! The lines that the report programs print.

use crate::entries;
use crate::refusal::Refusal;

/// Writes the line of the link report of two sheets, its newline with it, into the first bytes of `out` and tells how
/// many they are: at most 89. On a refusal nothing is written. That a sheet is refused is the line's to say; a sheet of
/// more than 32,768 bytes is refused by 28, as in the report.
///
/// ```
/// let mut out = [0; 89];
/// let size = turgamysk::link_line(&[0x10, 0, 0, 0], &[0x14, 0, 0, 0], &mut out).unwrap();
/// assert_eq!(&out[..size], b"links inputs=0 linked=0 names=0\n");
/// ```
pub fn link_line(transaction: &[u8], coins: &[u8], out: &mut [u8]) -> Result<usize, Refusal> {
    entries::link_line(transaction, coins, out).result()
}

/// Writes the line of the name report of a key of 32 bytes with its record, as [`link_line`] does: at most 64 bytes.
///
/// ```
/// let mut out = [0; 64];
/// let size = turgamysk::name_line(&[0; 32 + 13], &mut out).unwrap();
/// assert_eq!(&out[..size], b"state null name=0 bytes=13\n");
/// ```
pub fn name_line(file: &[u8], out: &mut [u8]) -> Result<usize, Refusal> {
    entries::name_line(file, out).result()
}
