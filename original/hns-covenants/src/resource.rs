//! A stub: the names that lib.rs exports, with no behaviour.

use crate::CovenantError;

pub struct Resource;
pub struct ResourceName;
pub struct ResourceRecord;

impl Resource {
    pub fn decode(_input: &[u8]) -> Result<Self, CovenantError> {
        Err(CovenantError::InvalidResource("not supplied"))
    }
}
