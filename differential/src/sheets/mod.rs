//! Sheets, their records one by one, the item viewer, and the link verifier over two sheets.

pub mod build;
pub mod judge;
pub mod links;
pub mod parse;
pub mod places;
pub mod verify;
