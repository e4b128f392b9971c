//! Amounts, heights, hashes and outpoints, each of its own kind as in hns-primitives.

use crate::decoder::Decoder;
use crate::entries::{self, AmountAnswer};
use crate::refusal::Stop;
use core::error::Error;
use core::fmt;

/// An amount in the smallest unit of Handshake's coin.
#[repr(transparent)]
#[derive(Clone, Copy, Debug, Default, Eq, Hash, Ord, PartialEq, PartialOrd)]
pub struct Dollarydoos(pub u64);

/// Why there is no sum or difference.
#[derive(Clone, Copy, Debug, Eq, Hash, PartialEq)]
pub enum ArithmeticError {
    /// The sum is 2^64 or more.
    Overflow,
    /// The difference is below 0.
    Underflow,
}

impl fmt::Display for ArithmeticError {
    fn fmt(&self, formatter: &mut fmt::Formatter<'_>) -> fmt::Result {
        formatter.write_str(match self {
            Self::Overflow => "numeric overflow",
            Self::Underflow => "numeric underflow",
        })
    }
}

impl Error for ArithmeticError {}

impl Dollarydoos {
    /// The sum.
    ///
    /// ```
    /// use turgamysk::{ArithmeticError, Dollarydoos};
    ///
    /// let one = Dollarydoos(1);
    /// assert_eq!(one.checked_add(one), Ok(Dollarydoos(2)));
    /// assert_eq!(one.checked_add(Dollarydoos(u64::MAX)), Err(ArithmeticError::Overflow));
    /// ```
    pub fn checked_add(self, other: Self) -> Result<Self, ArithmeticError> {
        Self::of_answer(entries::checked_add(self.0, other.0))
    }

    /// The difference.
    ///
    /// ```
    /// use turgamysk::{ArithmeticError, Dollarydoos};
    ///
    /// let one = Dollarydoos(1);
    /// assert_eq!(one.checked_sub(one), Ok(Dollarydoos(0)));
    /// assert_eq!(one.checked_sub(Dollarydoos(2)), Err(ArithmeticError::Underflow));
    /// ```
    pub fn checked_sub(self, other: Self) -> Result<Self, ArithmeticError> {
        Self::of_answer(entries::checked_sub(self.0, other.0))
    }

    fn of_answer(answer: AmountAnswer) -> Result<Self, ArithmeticError> {
        match answer.outcome {
            0 => Ok(Self(answer.value)),
            1 => Err(ArithmeticError::Overflow),
            _ => Err(ArithmeticError::Underflow),
        }
    }
}

/// A block height.
#[repr(transparent)]
#[derive(Clone, Copy, Debug, Default, Eq, Hash, Ord, PartialEq, PartialOrd)]
pub struct Height(pub u32);

/// The hash of a name, which is also the key of its state.
#[repr(transparent)]
#[derive(Clone, Copy, Debug, Default, Eq, Hash, Ord, PartialEq, PartialOrd)]
pub struct NameHash(pub [u8; 32]);

/// The hash of a transaction.
#[repr(transparent)]
#[derive(Clone, Copy, Debug, Default, Eq, Hash, Ord, PartialEq, PartialOrd)]
pub struct TransactionHash(pub [u8; 32]);

/// A transaction's output, by the transaction's hash and the output's number.
///
/// ```
/// use turgamysk::{Decoder, Outpoint};
///
/// let encoded = Outpoint::NULL.encode();
/// assert_eq!((encoded[0], encoded[35]), (0, 0xff));
/// let read = Outpoint::decode(&mut Decoder::new(&encoded)).unwrap();
/// assert!(read.is_null() && read == Outpoint::NULL);
/// ```
#[repr(C)]
#[derive(Clone, Copy, Debug, Eq, Hash, PartialEq)]
pub struct Outpoint {
    /// The hash of the transaction.
    pub transaction_hash: TransactionHash,
    /// Which of its outputs.
    pub index: u32,
}

impl Outpoint {
    /// 32 zero bytes with index 2^32 - 1.
    pub const NULL: Self = Self {
        transaction_hash: TransactionHash([0; 32]),
        index: u32::MAX,
    };

    /// What stands in an answer that has no outpoint.
    pub const ZEROS: Self = Self {
        transaction_hash: TransactionHash([0; 32]),
        index: 0,
    };

    /// Whether this is exactly [`Outpoint::NULL`].
    pub fn is_null(&self) -> bool {
        entries::outpoint_is_null(*self)
    }

    /// The hash, and then the index in four bytes, the lowest first.
    pub fn decode(decoder: &mut Decoder<'_>) -> Result<Self, Stop> {
        let answer = entries::outpoint_decode(decoder.input(), decoder.position());
        decoder.stand_at(answer.stop.position);
        answer.stop.result().map(|()| answer.outpoint)
    }

    /// The 36 bytes that [`Outpoint::decode`] reads.
    pub fn encode(self) -> [u8; 36] {
        let mut encoded = [0; 36];
        entries::outpoint_encode(self, &mut encoded);
        encoded
    }
}
