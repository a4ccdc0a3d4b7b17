//! All operations of the record in plain Rust, written from documents 01 and 02 alone.
//!
//! It shares no code with the proved library and exists to be compared with it, answer by answer and in time.
//! Every function works on a record's bytes; `Err` bears the refusal number, and then no lent byte has changed.

mod conditions;
mod keys;
mod listing;
mod moves;
mod record;
mod search;
mod take_back;
mod tree;
mod verdict;

pub use conditions::failing;
pub use keys::{blank, count, least_free, undo_listing, waiting};
pub use listing::listing;
pub use moves::{forward, undo};
pub use record::{node, read, walk, Shown, DEPTH_LIMIT, NODE_LIMIT};
pub use search::{first, for_each_step};
pub use take_back::take_back;
pub use verdict::verdict;

/// A refusal number, as in the table of document 01 and in 02, [6].
pub type Refusal = u8;

/// Bytes are no record.
pub const NO_RECORD: Refusal = 1;
/// Over a limit.
pub const OVER_LIMIT: Refusal = 2;
/// Key is 0.
pub const KEY_ZERO: Refusal = 3;
/// p is no prefix node, or q is not 0 and is no prefix node or is at most p.
pub const NO_PLACE: Refusal = 4;
/// Key stands in the record already.
pub const KEY_STANDS: Refusal = 5;
/// The rules derive no such step.
pub const NO_STEP: Refusal = 6;
/// Key stands nowhere in the record.
pub const KEY_ABSENT: Refusal = 7;
/// The rules derive no undo of this key.
pub const NO_UNDO: Refusal = 8;
/// Lent row shorter than the list.
pub const ROW_SHORT: Refusal = 9;
/// The record is not sound.
pub const NOT_SOUND: Refusal = 13;

/// The label of a joined step and of a prefix without a channel.
pub const TAU: u8 = 0;

/// The action that joins with this one; tau has none.
pub fn complement(action: u8) -> Option<u8> {
    (action != TAU).then_some(action ^ 128)
}

/// The name of an action or of its co-name; 0 for tau.
pub fn name(action: u8) -> u8 {
    action & 127
}
