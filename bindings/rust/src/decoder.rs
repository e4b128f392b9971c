//! Reads from lent bytes, as hns-encoding's `Decoder` has them.

use crate::entries::{self, NumberAnswer, SpanAnswer};
use crate::refusal::Stop;

/// Lent bytes and a position in them.
///
/// A refused read leaves the decoder where hns-rs' stands: an unfinished fixed read at its start, a noncanonical
/// compact size passed.
///
/// ```
/// use turgamysk::{Decoder, Refusal};
///
/// let mut decoder = Decoder::new(&[7, 0xfd, 0xfc, 0, 2, 0xaa]);
/// assert_eq!(decoder.read_u8(), Ok(7));
/// let stop = decoder.read_compact_size().unwrap_err();
/// assert_eq!(stop.refusal, Refusal::InvalidValue { width: 16 });
/// assert_eq!((stop.position, decoder.position()), (4, 4));
/// let stop = decoder.read_varbytes(100).unwrap_err();
/// assert_eq!(stop.refusal, Refusal::UnexpectedEnd { offset: 5, needed: 1 });
/// assert_eq!(decoder.remaining(), 1);
/// ```
#[derive(Clone, Copy, Debug)]
pub struct Decoder<'input> {
    input: &'input [u8],
    position: usize,
}

impl<'input> Decoder<'input> {
    /// At the beginning of the bytes.
    pub const fn new(input: &'input [u8]) -> Self {
        Self { input, position: 0 }
    }

    /// At any position, also beyond the end: there every read is refused by
    /// [`UnexpectedEnd`](crate::Refusal::UnexpectedEnd).
    pub const fn at(input: &'input [u8], position: usize) -> Self {
        Self { input, position }
    }

    /// The bytes.
    pub const fn input(&self) -> &'input [u8] {
        self.input
    }

    /// Where the next read begins.
    pub const fn position(&self) -> usize {
        self.position
    }

    /// How many bytes are left; none beyond the end.
    pub fn remaining(&self) -> usize {
        entries::remaining(self.input, self.position)
    }

    /// One byte.
    pub fn read_u8(&mut self) -> Result<u8, Stop> {
        let answer = entries::read_u8(self.input, self.position);
        self.number(answer).map(|value| value as u8)
    }

    /// Two bytes, the lowest first.
    pub fn read_u16_le(&mut self) -> Result<u16, Stop> {
        let answer = entries::read_u16_le(self.input, self.position);
        self.number(answer).map(|value| value as u16)
    }

    /// Four bytes, the lowest first.
    pub fn read_u32_le(&mut self) -> Result<u32, Stop> {
        let answer = entries::read_u32_le(self.input, self.position);
        self.number(answer).map(|value| value as u32)
    }

    /// Eight bytes, the lowest first.
    pub fn read_u64_le(&mut self) -> Result<u64, Stop> {
        let answer = entries::read_u64_le(self.input, self.position);
        self.number(answer)
    }

    /// A compact size; [`InvalidValue`](crate::Refusal::InvalidValue) in a longer form than it needs.
    pub fn read_compact_size(&mut self) -> Result<u64, Stop> {
        let answer = entries::read_compact_size(self.input, self.position);
        self.number(answer)
    }

    /// A compact size; [`LengthExceedsBound`](crate::Refusal::LengthExceedsBound) above `maximum`.
    pub fn read_compact_usize(&mut self, maximum: usize) -> Result<usize, Stop> {
        let answer = entries::read_compact_usize(self.input, self.position, maximum);
        self.number(answer).map(|value| value as usize)
    }

    /// The next `length` bytes.
    pub fn read_slice(&mut self, length: usize) -> Result<&'input [u8], Stop> {
        let answer = entries::read_slice(self.input, self.position, length);
        self.span(answer)
    }

    /// The next `length` bytes; [`LengthExceedsBound`](crate::Refusal::LengthExceedsBound) above `maximum`. It is
    /// `read_bounded_vec` of hns-rs.
    pub fn read_bounded(&mut self, length: usize, maximum: usize) -> Result<&'input [u8], Stop> {
        let answer = entries::read_bounded(self.input, self.position, length, maximum);
        self.span(answer)
    }

    /// As many bytes as a compact size of at most `maximum` says.
    pub fn read_varbytes(&mut self, maximum: usize) -> Result<&'input [u8], Stop> {
        let answer = entries::read_varbytes(self.input, self.position, maximum);
        self.span(answer)
    }

    /// The next 32 bytes.
    pub fn read_array(&mut self) -> Result<[u8; 32], Stop> {
        let mut array = [0; 32];
        let stop = entries::read_array(self.input, self.position, &mut array);
        self.position = stop.position;
        stop.result().map(|()| array)
    }

    /// Whether no bytes are left; [`TrailingBytes`](crate::Refusal::TrailingBytes) where some are.
    pub fn finish(self) -> Result<(), Stop> {
        entries::finish(self.input, self.position).result()
    }

    pub(crate) fn stand_at(&mut self, position: usize) {
        self.position = position;
    }

    fn number(&mut self, answer: NumberAnswer) -> Result<u64, Stop> {
        self.position = answer.stop.position;
        answer.stop.result().map(|()| answer.value)
    }

    fn span(&mut self, answer: SpanAnswer) -> Result<&'input [u8], Stop> {
        self.position = answer.stop.position;
        answer.stop.result()?;
        Ok(&self.input[answer.start..][..answer.length])
    }
}
