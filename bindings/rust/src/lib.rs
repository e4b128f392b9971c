//! Turgamysk's C entries (`bindings/c/turgamysk.h`) as safe functions, under the names of hns-rs.
//!
//! Every function takes any bytes and numbers and either accepts them or gives a [`Refusal`], which is a row of
//! document 01's table. Nothing here allocates; where the C side fills a lent buffer, so does the function here.
//! Nothing panics as long as the archive keeps what the header says.
//!
//! ```
//! use turgamysk::{Covenant, CovenantKind, Directory, Refusal};
//!
//! let mut directory = Directory::new();
//! let covenant = Covenant::decode(&[3, 1, 2, 0xaa, 0xbb], &mut directory).unwrap();
//! assert_eq!(covenant.kind, CovenantKind::BID);
//! assert_eq!(covenant.item(0), Some(&[0xaa, 0xbb][..]));
//!
//! let stop = Covenant::decode(&[3, 1, 2, 0xaa], &mut directory).unwrap_err();
//! assert_eq!(stop.refusal, Refusal::UnexpectedEnd { offset: 3, needed: 1 });
//! assert_eq!(stop.position, 3);
//! ```
//!
//! [`entries`] has the same calls with the flat answers that cross the boundary.
//!
//! The archive is the one that `bindings/build` writes into `target/lib` of the clone, or the one in the folder that
//! `TURGAMYSK_LIBRARY` names when the crate is built. [`version`] is its own number, and [`VERSION`] the one that this
//! crate is for.

#![no_std]
#![deny(missing_docs)]

pub mod entries;
pub mod put;

mod covenant;
mod decoder;
mod hashes;
mod lines;
mod links;
mod name_state;
mod names;
mod primitives;
mod refusal;
mod run;
mod sheets;

pub use covenant::{Covenant, CovenantKind, Directory, ReadCovenant};
pub use decoder::Decoder;
pub use entries::{VERSION, version};
pub use hashes::{blake2b_256, blake2b_256_value_nonce, sha3_256};
pub use lines::{link_line, name_line};
pub use links::{CovenantLinkError, CovenantLinkSummary, verify_covenant_links};
pub use name_state::{Class, NameState};
pub use names::{blind_bid, hash_name, validate_name};
pub use primitives::{ArithmeticError, Dollarydoos, Height, NameHash, Outpoint, TransactionHash};
pub use refusal::{Refusal, Stop};
pub use run::{Run, RunEnd, import_archive, read_run, read_run_with_limit};
pub use sheets::{
    Place, SheetStop, TransactionCounts, input_at, item, judge_coins, judge_transaction, place_at,
};
