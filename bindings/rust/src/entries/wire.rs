use super::{Bytes32, FlatStop, WriteAnswer};
use crate::primitives::Outpoint;

/// A number that was read, or the refusal. Unused parts are zeros.
#[repr(C)]
#[derive(Clone, Copy, Debug, Default, Eq, PartialEq)]
pub struct NumberAnswer {
    /// Whether it was read, and where the reader then stands.
    pub stop: FlatStop,
    /// The number.
    pub value: u64,
}

/// Bytes that were read, or the refusal. Unused parts are zeros.
#[repr(C)]
#[derive(Clone, Copy, Debug, Default, Eq, PartialEq)]
pub struct SpanAnswer {
    /// Whether they were read, and where the reader then stands.
    pub stop: FlatStop,
    /// Where the bytes begin.
    pub start: usize,
    /// How many they are.
    pub length: usize,
}

/// An outpoint that was read, or the refusal and an outpoint of zeros.
#[repr(C)]
#[derive(Clone, Copy, Debug, Eq, PartialEq)]
pub struct OutpointAnswer {
    /// Whether it was read, and where the reader then stands.
    pub stop: FlatStop,
    /// The outpoint.
    pub outpoint: Outpoint,
}

/// Declares entries that read at a position, and makes them safe functions.
macro_rules! reads {
    ($($(#[$text:meta])* $name:ident = $entry:ident($($more:ident),*) -> $answer:ty;)*) => {
        mod reads {
            use super::*;

            unsafe extern "C" {
                $(
                    pub fn $entry(
                        source: *const u8,
                        length: usize,
                        position: usize,
                        $($more: usize),*
                    ) -> $answer;
                )*
            }
        }

        $(
            $(#[$text])*
            pub fn $name(source: &[u8], position: usize, $($more: usize),*) -> $answer {
                unsafe { reads::$entry(source.as_ptr(), source.len(), position, $($more),*) }
            }
        )*
    };
}

reads! {
    /// How many bytes stand after `position`.
    remaining = turgamysk_remaining() -> usize;
    /// The byte at `position`.
    read_u8 = turgamysk_read_u8() -> NumberAnswer;
    /// The number of two bytes there, the lowest first.
    read_u16_le = turgamysk_read_u16_le() -> NumberAnswer;
    /// The number of four bytes there, the lowest first.
    read_u32_le = turgamysk_read_u32_le() -> NumberAnswer;
    /// The number of eight bytes there, the lowest first.
    read_u64_le = turgamysk_read_u64_le() -> NumberAnswer;
    /// The compact size there.
    read_compact_size = turgamysk_read_compact_size() -> NumberAnswer;
    /// The compact size there, of at most `maximum`.
    read_compact_usize = turgamysk_read_compact_usize(maximum) -> NumberAnswer;
    /// The next `size` bytes.
    read_slice = turgamysk_read_slice(size) -> SpanAnswer;
    /// The next `size` bytes, of which there may be at most `maximum`.
    read_bounded = turgamysk_read_bounded(size, maximum) -> SpanAnswer;
    /// As many bytes as a compact size of at most `maximum` says.
    read_varbytes = turgamysk_read_varbytes(maximum) -> SpanAnswer;
    /// Whether no bytes stand after `position`.
    finish = turgamysk_finish() -> FlatStop;
    /// The outpoint in 36 bytes there.
    outpoint_decode = turgamysk_outpoint_decode() -> OutpointAnswer;
}

/// Declares entries that write a number at an offset, and makes them safe functions.
macro_rules! writes {
    ($($(#[$text:meta])* $name:ident = $entry:ident($kind:ty);)*) => {
        mod writes {
            use super::*;

            unsafe extern "C" {
                $(
                    pub fn $entry(
                        dest: *mut u8,
                        dest_length: usize,
                        at: usize,
                        value: $kind,
                    ) -> WriteAnswer;
                )*
            }
        }

        $(
            $(#[$text])*
            pub fn $name(dest: &mut [u8], at: usize, value: $kind) -> WriteAnswer {
                unsafe { writes::$entry(dest.as_mut_ptr(), dest.len(), at, value) }
            }
        )*
    };
}

writes! {
    /// A byte at `at`.
    put_u8 = turgamysk_put_u8(u8);
    /// A number in two bytes from `at` on, the lowest first.
    put_u16_le = turgamysk_put_u16_le(u16);
    /// A number in four bytes from `at` on, the lowest first.
    put_u32_le = turgamysk_put_u32_le(u32);
    /// A number in eight bytes from `at` on, the lowest first.
    put_u64_le = turgamysk_put_u64_le(u64);
    /// A compact size in its shortest form from `at` on.
    put_compact_size = turgamysk_put_compact_size(u64);
}

mod c {
    use super::*;

    unsafe extern "C" {
        pub fn turgamysk_read_array(
            source: *const u8,
            length: usize,
            position: usize,
            array: *mut u8,
        ) -> FlatStop;
        pub fn turgamysk_put_bytes(
            dest: *mut u8,
            dest_length: usize,
            at: usize,
            value: *const u8,
            length: usize,
        ) -> WriteAnswer;
        pub fn turgamysk_put_varbytes(
            dest: *mut u8,
            dest_length: usize,
            at: usize,
            value: *const u8,
            length: usize,
        ) -> WriteAnswer;
        pub fn turgamysk_compact_size_len(value: u64) -> usize;
        pub fn turgamysk_outpoint_encode(outpoint: Outpoint, encoded: *mut u8);
        pub fn turgamysk_outpoint_same(outpoint: Outpoint, other: Outpoint) -> bool;
        pub fn turgamysk_outpoint_is_null(outpoint: Outpoint) -> bool;
    }
}

/// The next 32 bytes, into `array`: zeros where they are refused.
pub fn read_array(source: &[u8], position: usize, array: &mut Bytes32) -> FlatStop {
    let array = array.as_mut_ptr();
    unsafe { c::turgamysk_read_array(source.as_ptr(), source.len(), position, array) }
}

/// Bytes from `at` on.
pub fn put_bytes(dest: &mut [u8], at: usize, value: &[u8]) -> WriteAnswer {
    let (start, length) = (value.as_ptr(), value.len());
    unsafe { c::turgamysk_put_bytes(dest.as_mut_ptr(), dest.len(), at, start, length) }
}

/// Bytes after their length from `at` on.
pub fn put_varbytes(dest: &mut [u8], at: usize, value: &[u8]) -> WriteAnswer {
    let (start, length) = (value.as_ptr(), value.len());
    unsafe { c::turgamysk_put_varbytes(dest.as_mut_ptr(), dest.len(), at, start, length) }
}

/// How many bytes a compact size takes.
pub fn compact_size_len(value: u64) -> usize {
    unsafe { c::turgamysk_compact_size_len(value) }
}

/// The 36 bytes of an outpoint, into `encoded`.
pub fn outpoint_encode(outpoint: Outpoint, encoded: &mut [u8; 36]) {
    unsafe { c::turgamysk_outpoint_encode(outpoint, encoded.as_mut_ptr()) }
}

/// Whether two outpoints are the same.
pub fn outpoint_same(outpoint: Outpoint, other: Outpoint) -> bool {
    unsafe { c::turgamysk_outpoint_same(outpoint, other) }
}

/// Whether an outpoint is the null one.
pub fn outpoint_is_null(outpoint: Outpoint) -> bool {
    unsafe { c::turgamysk_outpoint_is_null(outpoint) }
}
