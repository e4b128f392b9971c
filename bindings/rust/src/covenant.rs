//! The covenant codec.

use crate::decoder::Decoder;
use crate::entries::{self, CovenantAnswer};
use crate::primitives::NameHash;
use crate::refusal::{Refusal, Stop};

/// A covenant's kind, which is its byte: hns-rs' `Unknown(3)` can't be formed.
///
/// ```
/// use turgamysk::CovenantKind;
///
/// assert_eq!(CovenantKind::TRANSFER, CovenantKind(9));
/// assert!(CovenantKind::CLAIM.is_name() && !CovenantKind::CLAIM.is_linked());
/// assert!(!CovenantKind(12).is_name());
/// ```
#[derive(Clone, Copy, Debug, Eq, Hash, PartialEq)]
pub struct CovenantKind(pub u8);

macro_rules! kinds {
    ($($name:ident $byte:literal),*) => {
        impl CovenantKind {
            $(
                #[doc = concat!("Kind ", $byte, ".")]
                pub const $name: Self = Self($byte);
            )*
        }
    };
}

kinds! {
    NONE 0, CLAIM 1, OPEN 2, BID 3, REVEAL 4, REDEEM 5, REGISTER 6, UPDATE 7, RENEW 8, TRANSFER 9, FINALIZE 10, REVOKE 11
}

impl CovenantKind {
    /// Whether it is one of the kinds 1 to 11.
    pub fn is_name(self) -> bool {
        entries::is_name(self.0)
    }

    /// Whether it is one of the kinds 4 to 11.
    pub fn is_linked(self) -> bool {
        entries::is_linked(self.0)
    }

    /// Whether it is kind 11.
    pub fn is_unspendable(self) -> bool {
        entries::is_unspendable(self.0)
    }
}

/// Where a covenant's items stand: the starts and lengths of at most 1,000 parts of a source.
#[derive(Clone, Debug, Eq, PartialEq)]
pub struct Directory {
    /// Where each item begins.
    pub starts: [usize; Covenant::MAX_ITEMS],
    /// How many bytes it has.
    pub lengths: [usize; Covenant::MAX_ITEMS],
}

impl Directory {
    /// Zeros, which [`Covenant::decode`] overwrites.
    pub const fn new() -> Self {
        Self {
            starts: [0; Covenant::MAX_ITEMS],
            lengths: [0; Covenant::MAX_ITEMS],
        }
    }
}

impl Default for Directory {
    fn default() -> Self {
        Self::new()
    }
}

/// What was read of a covenant without a directory.
#[derive(Clone, Copy, Debug, Eq, PartialEq)]
pub struct ReadCovenant {
    /// Its kind.
    pub kind: CovenantKind,
    /// How many items it has.
    pub count: usize,
    /// The bytes used up from the allowance: its encoded size.
    pub used: usize,
}

/// A covenant: its kind, and its items as parts of the source that the first `count` places of the directory name.
///
/// The directory may name anything; what lies outside the source is absent to the readers and refused by the writer.
#[derive(Clone, Copy, Debug)]
pub struct Covenant<'lent> {
    /// Its kind.
    pub kind: CovenantKind,
    /// The bytes that the items are parts of.
    pub source: &'lent [u8],
    /// Where the items stand in them.
    pub directory: &'lent Directory,
    /// How many items there are.
    pub count: usize,
}

impl<'lent> Covenant<'lent> {
    /// The most items.
    pub const MAX_ITEMS: usize = 1000;
    /// The most bytes of an item.
    pub const MAX_ITEM_SIZE: usize = 1_000_000;
    /// The most bytes of a covenant.
    pub const MAX_ENCODED_SIZE: usize = 1_000_009;

    /// The covenant that is all of the bytes. Its items go into the lent directory, with zeros after them; zeros alone
    /// where it is refused.
    ///
    /// ```
    /// use turgamysk::{Covenant, Directory, Refusal};
    ///
    /// let mut directory = Directory::new();
    /// let covenant = Covenant::decode(&[9, 1, 1, 5], &mut directory).unwrap();
    /// assert_eq!((covenant.count, covenant.item_u8(0)), (1, Some(5)));
    ///
    /// let stop = Covenant::decode(&[0, 0, 0], &mut directory).unwrap_err();
    /// assert_eq!(stop.refusal, Refusal::TrailingBytes { remaining: 1 });
    /// ```
    pub fn decode(bytes: &'lent [u8], directory: &'lent mut Directory) -> Result<Self, Stop> {
        let read = accepted(&entries::covenant_decode(bytes, directory))?;
        Ok(Self {
            kind: read.kind,
            source: bytes,
            directory,
            count: read.count,
        })
    }

    /// The covenant where the decoder stands, under the largest allowance, with its directory as [`Covenant::decode`]
    /// fills it; the decoder moves on.
    pub fn decode_from<'input: 'lent>(
        decoder: &mut Decoder<'input>,
        directory: &'lent mut Directory,
    ) -> Result<Self, Stop> {
        Self::decode_from_with_limit(decoder, Self::MAX_ENCODED_SIZE, directory)
    }

    /// The covenant where the decoder stands, under an allowance of `limit` bytes. The decoder moves on, to where it
    /// stands after a refusal too.
    ///
    /// ```
    /// use turgamysk::{Covenant, Decoder, Directory};
    ///
    /// let mut directory = Directory::new();
    /// let mut decoder = Decoder::at(&[0xff, 9, 1, 1, 5, 0xff], 1);
    /// let covenant = Covenant::decode_from_with_limit(&mut decoder, 4, &mut directory).unwrap();
    /// assert_eq!((covenant.count, covenant.item_u8(0)), (1, Some(5)));
    /// assert_eq!(decoder.position(), 5);
    /// ```
    pub fn decode_from_with_limit<'input: 'lent>(
        decoder: &mut Decoder<'input>,
        limit: usize,
        directory: &'lent mut Directory,
    ) -> Result<Self, Stop> {
        let source = decoder.input();
        let answer = entries::covenant_decode_from(source, decoder.position(), limit, directory);
        decoder.stand_at(answer.stop.position);
        let read = accepted(&answer)?;
        Ok(Self {
            kind: read.kind,
            source,
            directory,
            count: read.count,
        })
    }

    /// [`Covenant::decode_from_with_limit`] without a directory: no item is remembered, and nothing is lent.
    ///
    /// ```
    /// use turgamysk::{Covenant, Decoder, Refusal};
    ///
    /// let mut decoder = Decoder::new(&[0, 0xfd, 0xe8, 3]);
    /// let stop = Covenant::read(&mut decoder, 2).unwrap_err();
    /// assert_eq!(stop.refusal, Refusal::TooLarge { actual: 4, maximum: 2 });
    /// assert_eq!(decoder.position(), 4);
    /// ```
    pub fn read(decoder: &mut Decoder<'_>, limit: usize) -> Result<ReadCovenant, Stop> {
        let answer = entries::covenant_read(decoder.input(), decoder.position(), limit);
        decoder.stand_at(answer.stop.position);
        accepted(&answer)
    }

    /// Writes the covenant into the first bytes of `dest` and tells how many they are; on a refusal nothing is written.
    ///
    /// ```
    /// use turgamysk::{Covenant, CovenantKind, Directory, Refusal};
    ///
    /// let mut directory = Directory::new();
    /// directory.lengths[0] = 2;
    /// let covenant = Covenant { kind: CovenantKind::OPEN, source: b"hi", directory: &directory, count: 1 };
    /// let mut dest = [0xee; 6];
    /// assert_eq!(covenant.encode(&mut dest), Ok(5));
    /// assert_eq!(dest, [2, 1, 2, b'h', b'i', 0xee]);
    /// assert_eq!(covenant.encode(&mut dest[..4]), Err(Refusal::NoRoom { needed: 5 }));
    /// ```
    pub fn encode(&self, dest: &mut [u8]) -> Result<usize, Refusal> {
        entries::covenant_encode(dest, self.kind.0, self.source, self.directory, self.count)
            .result()
    }

    /// How many bytes [`Covenant::encode`] writes, or why it does not, room apart.
    pub fn encoded_size(&self) -> Result<usize, Refusal> {
        entries::covenant_encoded_size(self.source, self.directory, self.count).result()
    }

    /// The bytes of an item; none past the count or the 1,000th, or where it lies outside the source.
    pub fn item(&self, index: usize) -> Option<&'lent [u8]> {
        entries::covenant_item(self.source, self.directory, self.count, index).within(self.source)
    }

    /// An item of one byte.
    pub fn item_u8(&self, index: usize) -> Option<u8> {
        let item = entries::covenant_item_u8(self.source, self.directory, self.count, index);
        item.value().map(|value| value as u8)
    }

    /// An item of four bytes, the lowest first.
    pub fn item_u32(&self, index: usize) -> Option<u32> {
        let item = entries::covenant_item_u32(self.source, self.directory, self.count, index);
        item.value().map(|value| value as u32)
    }

    /// An item of eight bytes, the lowest first.
    pub fn item_u64(&self, index: usize) -> Option<u64> {
        entries::covenant_item_u64(self.source, self.directory, self.count, index).value()
    }

    /// An item of 32 bytes.
    pub fn item_name_hash(&self, index: usize) -> Option<NameHash> {
        let (source, directory, count) = (self.source, self.directory, self.count);
        let mut hash = [0; 32];
        let exists = entries::covenant_item_name_hash(source, directory, count, index, &mut hash);
        exists.then_some(NameHash(hash))
    }

    /// An item of the covenant where a decoder stands, found without a directory. Nothing after the item is looked at.
    ///
    /// ```
    /// use turgamysk::{Covenant, Decoder};
    ///
    /// let decoder = Decoder::new(&[3, 2, 1, 0xaa, 2, 0xbb, 0xcc]);
    /// assert_eq!(Covenant::find(&decoder, 1), Some(&[0xbb, 0xcc][..]));
    /// assert_eq!(Covenant::find(&decoder, 2), None);
    /// ```
    pub fn find<'input>(decoder: &Decoder<'input>, index: usize) -> Option<&'input [u8]> {
        let input = decoder.input();
        entries::covenant_find(input, decoder.position(), index).within(input)
    }
}

fn accepted(answer: &CovenantAnswer) -> Result<ReadCovenant, Stop> {
    answer.stop.result()?;
    Ok(ReadCovenant {
        kind: CovenantKind(answer.kind),
        count: answer.count,
        used: answer.used,
    })
}
