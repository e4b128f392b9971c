//! A stub: the names that lib.rs exports, with no behaviour.

pub const FINALIZE_COVENANT_ITEMS: usize = 7;
pub const TRANSFER_COVENANT_ITEMS: usize = 4;
pub const MAX_TRANSFER_ADDRESS_HASH_SIZE: usize = 40;
pub const MIN_TRANSFER_ADDRESS_HASH_SIZE: usize = 2;

pub struct FinalizeCovenant;
pub struct TransferCovenant;
