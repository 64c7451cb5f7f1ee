//! Mode O: the owner table of a stream, or its refusal.
//!
//! The printed Rust has no such call. The tokens are those of its walk; the grammar over their kinds
//! is read here by a machine with a stack, for lists of any length. bodies.rs says what it has to
//! answer, and the checks hold the two together.

use crate::oracle::chunk::{refused, words};
use crate::oracle::kinds::{
    ANNOUNCING, ATTRIBUTE, CDATA, CLOSE_ELEMENT, CLOSE_EMPTY, CLOSE_START, INSTANCE, ITEMS, OPEN,
    PI_DATA, PI_TARGET,
};
use crate::oracle::refusal::Refusal;
use crate::oracle::tokens::Row;

/// Document 01's limit: 14 is for what "opens level 65".
pub const MOST_LEVELS: usize = 64;

/// Where in a body the next token stands.
#[derive(Clone, Copy)]
enum Place {
    /// Before the first token.
    First,
    /// After a leading pair's target.
    LeadingTarget,
    /// After a leading pair.
    Root,
    /// Right after an open token, which announces attributes or not.
    Open(bool),
    /// In an element's start, in or after the attribute of this number.
    Start(usize),
    Content,
    /// After a PI target in content.
    Target,
    /// After the root.
    After,
    /// After a closing pair's target.
    ClosingTarget,
    /// After a closing pair.
    End,
}

/// The owner table of a body with so many levels at most, or the refusal 13, 14, 15 or 20.
pub fn owners(kinds: &[u8], most_levels: usize) -> Result<Vec<u32>, Refusal> {
    let mut table = Vec::with_capacity(kinds.len());
    // The open tokens of the elements that are not closed yet.
    let mut open: Vec<usize> = Vec::new();
    let mut place = Place::First;
    for (number, &kind) in kinds.iter().enumerate() {
        let refused = |refusal| Refusal::new(refusal, number as u64);
        let mut owner = open.last().copied();
        place = match (place, kind) {
            (Place::First, PI_TARGET) => Place::LeadingTarget,
            (Place::LeadingTarget, PI_DATA) => Place::Root,
            (Place::First | Place::Root, INSTANCE) => Place::After,
            (Place::First | Place::Root | Place::Content, OPEN | ANNOUNCING) => {
                if open.len() == most_levels {
                    return Err(refused(14));
                }
                open.push(number);
                Place::Open(kind == ANNOUNCING)
            }
            // "Announced and present must agree."
            (Place::Open(false), ATTRIBUTE) | (Place::Open(true), CLOSE_START | CLOSE_EMPTY) => {
                return Err(refused(20));
            }
            (Place::Open(true) | Place::Start(_), ATTRIBUTE) => Place::Start(number),
            (Place::Start(attribute), item) if ITEMS.contains(&item) => {
                owner = Some(attribute);
                place
            }
            (Place::Open(false) | Place::Start(_), CLOSE_START) => Place::Content,
            (Place::Open(false) | Place::Start(_), CLOSE_EMPTY)
            | (Place::Content, CLOSE_ELEMENT) => {
                open.pop();
                if open.is_empty() {
                    Place::After
                } else {
                    Place::Content
                }
            }
            (Place::Content, CDATA) => Place::Content,
            (Place::Content, item) if ITEMS.contains(&item) => Place::Content,
            (Place::Content, PI_TARGET) => Place::Target,
            (Place::Target, PI_DATA) => Place::Content,
            (Place::After, PI_TARGET) => Place::ClosingTarget,
            (Place::ClosingTarget, PI_DATA) => Place::End,
            _ => return Err(refused(13)),
        };
        table.push(owner.map_or(0, |owner| owner as u32 + 1));
    }
    match place {
        Place::After | Place::End => Ok(table),
        _ => Err(Refusal::new(15, kinds.len() as u64)),
    }
}

/// The owner table of a walk's tokens. Document 01's order of refusals: 1; then the walk's, first met;
/// then 13, 14 or 15, and document 02's 20.
pub(super) fn of_rows(rows: &[Row]) -> Result<Vec<u32>, Refusal> {
    let kind = |row: &Row| if row.announced { ANNOUNCING } else { row.kind };
    let kinds: Vec<u8> = rows.iter().map(kind).collect();
    owners(&kinds, MOST_LEVELS)
}

/// Mode O, of a walk's tokens.
pub(crate) fn push(rows: Result<Vec<Row>, Refusal>, out: &mut String) {
    match rows.and_then(|rows| of_rows(&rows)) {
        Ok(table) => out.push_str(&words("owners", &table)),
        Err(refusal) => out.push_str(&refused(refusal)),
    }
}
