//! A stub: the names that lib.rs exports, with no behaviour.

pub struct NameTransactionError;

pub fn build_finalize_output() {}
pub fn build_finalize_transaction() {}
pub fn build_transfer_output() {}
pub fn build_transfer_transaction() {}
pub fn verify_finalize_at_index_zero() {}
pub fn verify_finalize_output() {}
pub fn verify_transfer_at_index_zero() {}
pub fn verify_transfer_output() {}
