//! Writes into lent bytes, as hns-encoding's `Encoder` has them: each from an offset on, all of it or nothing.
//!
//! Each tells how many bytes it wrote; [`Refusal::NoRoom`] carries how many there would have been.
//!
//! ```
//! use turgamysk::{Refusal, put};
//!
//! let mut dest = [0xee; 4];
//! assert_eq!(put::put_compact_size(&mut dest, 1, 253), Ok(3));
//! assert_eq!(dest, [0xee, 0xfd, 253, 0]);
//! assert_eq!(put::put_u16_le(&mut dest, 3, 1), Err(Refusal::NoRoom { needed: 2 }));
//! assert_eq!(put::compact_size_len(253), 3);
//! ```

use crate::entries;
use crate::refusal::Refusal;

/// One byte.
pub fn put_u8(dest: &mut [u8], at: usize, value: u8) -> Result<usize, Refusal> {
    entries::put_u8(dest, at, value).result()
}

/// Two bytes, the lowest first.
pub fn put_u16_le(dest: &mut [u8], at: usize, value: u16) -> Result<usize, Refusal> {
    entries::put_u16_le(dest, at, value).result()
}

/// Four bytes, the lowest first.
pub fn put_u32_le(dest: &mut [u8], at: usize, value: u32) -> Result<usize, Refusal> {
    entries::put_u32_le(dest, at, value).result()
}

/// Eight bytes, the lowest first.
pub fn put_u64_le(dest: &mut [u8], at: usize, value: u64) -> Result<usize, Refusal> {
    entries::put_u64_le(dest, at, value).result()
}

/// A compact size in its shortest form.
pub fn put_compact_size(dest: &mut [u8], at: usize, value: u64) -> Result<usize, Refusal> {
    entries::put_compact_size(dest, at, value).result()
}

/// Bytes.
pub fn put_bytes(dest: &mut [u8], at: usize, value: &[u8]) -> Result<usize, Refusal> {
    entries::put_bytes(dest, at, value).result()
}

/// Bytes after their length.
pub fn put_varbytes(dest: &mut [u8], at: usize, value: &[u8]) -> Result<usize, Refusal> {
    entries::put_varbytes(dest, at, value).result()
}

/// How many bytes a compact size takes.
pub fn compact_size_len(value: u64) -> usize {
    entries::compact_size_len(value)
}
