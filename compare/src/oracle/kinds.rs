//! The kinds of tokens, by document 01's numbers ('Sheet and C calls').

pub const INSTANCE: u8 = 1;
pub const OPEN: u8 = 2;
pub const CLOSE_START: u8 = 3;
pub const CLOSE_EMPTY: u8 = 4;
pub const CLOSE_ELEMENT: u8 = 5;
pub const VALUE: u8 = 6;
pub const ATTRIBUTE: u8 = 7;
pub const ENTITY_REF: u8 = 8;
pub const PI_TARGET: u8 = 9;
pub const PI_DATA: u8 = 10;
pub const CDATA: u8 = 11;
pub const CHAR_REF: u8 = 12;
pub const SUBSTITUTION: u8 = 13;

/// An open token whose byte is 41, so that it announces attributes. It has a number of its own in lists of kinds alone, where `OPEN` is one
/// whose byte is 01.
pub const ANNOUNCING: u8 = 14;

pub const ALL: [u8; 14] = [1, 2, 3, 4, 5, 6, 7, 8, 9, 10, 11, 12, 13, ANNOUNCING];

/// What an attribute may hold: "values, substitutions, char refs, entity refs". The grammar names
/// these four only together.
pub const ITEMS: [u8; 4] = [VALUE, SUBSTITUTION, CHAR_REF, ENTITY_REF];

/// All kinds, with one item for the four: a value.
pub const ONE_ITEM: [u8; 11] = [1, 2, 3, 4, 5, 6, 7, 9, 10, 11, ANNOUNCING];
