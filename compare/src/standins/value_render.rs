//! Values as text: left out of the port. What value_variant.rs and evtx_parser.rs ask for.

use super::value_variant::{BinXmlValue, SidRef};
use crate::err::Result;

#[derive(Default)]
pub struct ValueRenderer;

impl ValueRenderer {
    pub fn new() -> Self {
        ValueRenderer
    }

    pub fn write_sid(&mut self, _: &mut Vec<u8>, _: &SidRef<'_>) -> Result<()> {
        Ok(())
    }
}

/// Of arrays in values, which are repeated as elements: none is.
impl<'a> BinXmlValue<'a> {
    pub(crate) fn expandable_array_len(&self) -> Option<usize> {
        None
    }

    pub(crate) fn array_item_as_value(&self, _: usize) -> Option<BinXmlValue<'a>> {
        None
    }
}
