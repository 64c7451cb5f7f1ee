//! Compiled templates: left out of the port. The names, and calls that do nothing.

use crate::ParserSettings;
use crate::binxml::ir::{IrTemplateCache, RecordContent, TemplateContent};
use crate::binxml::value_render::ValueRenderer;
use crate::err::{EvtxError, Result};
use crate::evtx_chunk::EvtxChunk;
use crate::model::ir::{Element, IrArena, IrTree};
use std::marker::PhantomData;

const LEFT_OUT: EvtxError = EvtxError::FailedToCreateRecordModel("rendering is left out");

#[derive(Debug, Default)]
pub struct RenderCaches;

#[derive(Debug, Default)]
pub struct ProgramStore;

#[derive(Debug, Default)]
pub struct Budget;

impl Budget {
    pub fn build(&self, _nodes: usize) -> Result<()> {
        Ok(())
    }
}

/// Substitutions of a template up to which the printed code keeps a note of those that it has seen; only rendering asks.
pub const MAX_SUBSTITUTIONS: usize = 1024;

pub fn data_names_may_repeat(_: &IrArena<'_>, _: &Element<'_>) -> bool {
    false
}

#[derive(Debug, Default)]
pub struct ChunkBudget;

impl ChunkBudget {
    pub fn build<'a>(
        &self,
        make: impl FnOnce(&Budget) -> Result<RecordContent<'a>>,
    ) -> Result<(RecordContent<'a>, usize)> {
        Ok((make(&Budget)?, 0))
    }

    pub fn render(
        &self,
        _nodes: usize,
        data: &mut Vec<u8>,
        write: impl FnOnce(&Budget, &mut Vec<u8>) -> Result<()>,
    ) -> Result<()> {
        write(&Budget, data)
    }
}

pub trait TemplateProgram {
    fn render_tree(_: &IrTree<'_>, _: &ParserSettings, _: &Budget, _: &mut Vec<u8>) -> Result<()> {
        Err(LEFT_OUT)
    }
}

/// A program that is kept from chunk to chunk.
pub trait StoredProgram: TemplateProgram {
    fn mark_recovered(_: &mut Vec<u8>, _: usize) {}
}

pub struct JsonProgram;
pub struct XmlProgram;

impl TemplateProgram for JsonProgram {}
impl TemplateProgram for XmlProgram {}
impl StoredProgram for JsonProgram {}
impl StoredProgram for XmlProgram {}

pub const MAX_RENDER_NODES: usize = 0;

#[derive(Default)]
pub struct Preflight;

pub struct ProgramCache<P>(PhantomData<P>);

impl<P> Default for ProgramCache<P> {
    fn default() -> Self {
        ProgramCache(PhantomData)
    }
}

#[allow(clippy::too_many_arguments, reason = "the printed call has as many")]
pub fn try_render_compiled<P>(
    _: &[u8],
    _: u64,
    _: &EvtxChunk<'_>,
    _: &mut IrTemplateCache<'_>,
    _: &mut ProgramCache<P>,
    _: &mut Preflight,
    _: &mut ValueRenderer,
    _: &Budget,
    _: &mut Vec<u8>,
) -> Result<bool> {
    Err(LEFT_OUT)
}

pub fn try_render_validated(
    _: &TemplateContent<'_>,
    _: &EvtxChunk<'_>,
    _: &mut RenderCaches,
    _json: bool,
    _: &Budget,
    _: &mut Vec<u8>,
) -> Result<bool> {
    Err(LEFT_OUT)
}
