//! Localized texts beside a log: left out of the port.

use super::bumpalo::Bump;
use crate::model::ir::IrTree;

#[derive(Debug)]
pub struct MtaFile;

pub(crate) fn add_rendering_info(_: &mut IrTree<'_>, _: u64, _: &MtaFile, _: &Bump) {}
