//! Document 01's table of refusals.

use core::error::Error;
use core::fmt;

/// Makes the enum of the table and what is told of each row: the row's number, its name and what it carries, in order.
macro_rules! table {
    ($($number:literal $name:ident { $($part:ident: $kind:ty),* } $rule:literal;)*) => {
        /// Why something was refused: a row of document 01's table, with what it carries.
        ///
        /// ```
        /// use turgamysk::Refusal;
        ///
        /// let refusal = Refusal::TooLarge { actual: 669, maximum: 668 };
        /// assert_eq!((refusal.number(), refusal.name()), (5, "TooLarge"));
        /// assert_eq!(refusal.carried(), [669, 668, 0]);
        /// assert_eq!(Refusal::from_parts(5, [669, 668, 0]), Some(refusal));
        /// ```
        #[derive(Clone, Copy, Debug, Eq, Hash, PartialEq)]
        pub enum Refusal {
            $(
                #[doc = concat!("Number ", $number, ". ", $rule, ".")]
                #[allow(missing_docs)]
                $name { $($part: $kind),* },
            )*
        }

        impl Refusal {
            /// The number in the table.
            pub const fn number(&self) -> u8 {
                match self {
                    $(Self::$name { .. } => $number,)*
                }
            }

            /// The name in the table.
            pub const fn name(&self) -> &'static str {
                match self {
                    $(Self::$name { .. } => stringify!($name),)*
                }
            }

            /// What it says, in the words of docs/REFUSALS.md.
            pub const fn rule(&self) -> &'static str {
                match self {
                    $(Self::$name { .. } => $rule,)*
                }
            }

            /// What it carries, in the table's order; zeros where it carries less.
            pub fn carried(&self) -> [usize; 3] {
                let mut carried = [0; 3];
                match *self {
                    $(Self::$name { $($part),* } => {
                        let parts: &[usize] = &[$(usize::from($part)),*];
                        carried[..parts.len()].copy_from_slice(parts);
                    })*
                }
                carried
            }

            /// The refusal of a number and of what it carries; none for a number that is not in the table, a part that
            /// is too wide for its field, or an unused part that is not zero.
            pub fn from_parts(number: u8, carried: [usize; 3]) -> Option<Self> {
                let mut parts = carried.into_iter();
                let refusal = match number {
                    $($number => Self::$name {
                        $($part: parts.next()?.try_into().ok()?),*
                    },)*
                    _ => return None,
                };
                parts.all(|part| part == 0).then_some(refusal)
            }
        }
    };
}

table! {
    1 UnexpectedEnd { offset: usize, needed: usize } "A fixed read or slice is cut off: where it begins, and how many bytes are missing. A cursor beyond its slice: its position, and how far beyond it is";
    2 LengthExceedsBound { actual: usize, maximum: usize } "A length is above its maximum; or a slice's end would pass 2^64 - 1, with actual 2^64 - 1 and the remaining length as maximum";
    3 TrailingBytes { remaining: usize } "Bytes are left where none may be";
    4 InvalidValue { width: u8 } "A compact size in a longer form than it needs: 16, 32 or 64 bits";
    5 TooLarge { actual: usize, maximum: usize } "More bytes or items than a covenant may have, or than its allowance; a record over 668 bytes; a name over 63 or a resource over 512 bytes to be written";
    6 InvalidName {} "The bytes are not a name";
    7 InvalidNameState { reason: u8 } "1 name over 63, 2 resource over 512, 3 unknown bits, 4 owner index, 5 renewal count, 6 safe integer";
    8 NonCanonicalNameState {} "The writer would not give the same bytes";
    9 NameStateHashMismatch {} "The key is not the name's hash";
    10 CoinbaseRequiresIssuanceVerifier {} "The first input is null";
    11 InputCountMismatch { transaction: usize, coins: usize } "Inputs and coins differ in number";
    12 CoinOutpointMismatch { input: usize } "A coin is not the one the input names; both outpoints stand beside the refusal in the verifier's answer";
    13 MissingLinkedOutput { input: usize, kind: u8 } "The spent kind needs a partner";
    14 InvalidTransition { input: usize, from: u8, to: u8 } "The partner's kind does not follow the spent one";
    15 MalformedCovenant { input: usize, field: u8 } "An item is absent or of another width: 1 spent name, 2 created name, 3 spent start, 4 created start, 5 reveal nonce, 6 bid commitment, 7 transfer version, 8 transfer hash";
    16 NameHashMismatch { input: usize } "Items 0 differ";
    17 StartHeightMismatch { input: usize } "Items 1 differ";
    18 BlindCommitmentMismatch { input: usize } "The bid's commitment is not the one of value and nonce";
    19 BidValueInflation { input: usize } "The revealed value is above the coin's";
    20 ClaimCannotRedeem { input: usize } "A Claim may not be redeemed";
    21 AddressMismatch { input: usize } "Coin and partner differ in address";
    22 LockedValueMismatch { input: usize } "Coin and partner differ in value";
    23 TransferDestinationMismatch { input: usize } "A Finalize goes to another address than the Transfer named";
    24 RevokedCoinSpent { input: usize } "A revoked name's coin may not be spent";
    25 UnknownCovenantCreatesName { input: usize, to: u8 } "A coin of an unknown kind may not have a partner of kind 1 to 11";
    26 UnpairedLinkedOutput { output: usize, kind: u8 } "An output of kind 4 to 11 may not stand past the inputs";
    27 SheetField { side: u8, offset: usize } "A fixed field of a sheet is wrong, and the byte where it begins";
    28 SheetTooLong { side: u8, length: usize } "A sheet is above its size";
    29 NoRoom { needed: usize } "All other checks passed, and the destination is shorter than the bytes to be written";
    30 BadItem { item: usize } "An item of a directory or table lies outside its source";
}

impl Refusal {
    /// The refusal of an answer that crossed the boundary, whose number the header says to be in the table.
    pub(crate) fn of_answer(number: u8, carried: [usize; 3]) -> Self {
        Self::from_parts(number, carried).expect("the header's promise: a row of the table")
    }
}

impl fmt::Display for Refusal {
    fn fmt(&self, formatter: &mut fmt::Formatter<'_>) -> fmt::Result {
        write!(
            formatter,
            "refused {}, {self:?}: {}",
            self.number(),
            self.rule()
        )
    }
}

impl Error for Refusal {}

/// A refused read: the refusal, and the position where the reader then stands.
#[derive(Clone, Copy, Debug, Eq, Hash, PartialEq)]
pub struct Stop {
    /// Why.
    pub refusal: Refusal,
    /// Where the reader stands: an unfinished fixed read stays at its start, a noncanonical compact size has been
    /// passed.
    pub position: usize,
}

impl fmt::Display for Stop {
    fn fmt(&self, formatter: &mut fmt::Formatter<'_>) -> fmt::Result {
        write!(formatter, "{} at position {}", self.refusal, self.position)
    }
}

impl Error for Stop {}

#[cfg(test)]
mod tests {
    use super::Refusal;

    #[test]
    fn every_row_comes_back_from_its_parts() {
        for number in 1..=30 {
            let refusal = Refusal::from_parts(number, [1, 0, 0])
                .or_else(|| Refusal::from_parts(number, [0, 0, 0]))
                .unwrap();
            assert_eq!(refusal.number(), number);
            let again = Refusal::from_parts(number, refusal.carried());
            assert_eq!(again, Some(refusal));
        }
    }

    #[test]
    fn no_other_number_is_a_row() {
        for number in [0].into_iter().chain(31..=255) {
            assert_eq!(Refusal::from_parts(number, [0; 3]), None);
        }
    }

    #[test]
    fn parts_that_do_not_fit_give_no_refusal() {
        assert_eq!(Refusal::from_parts(4, [256, 0, 0]), None);
        assert_eq!(Refusal::from_parts(6, [1, 0, 0]), None);
        assert_eq!(Refusal::from_parts(5, [1, 2, 3]), None);
    }
}
