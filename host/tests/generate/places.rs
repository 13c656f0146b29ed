//! The lent state's places, widths and sizes, as its Rattle source has them. Made by host/generate: do not edit.
//! docs/STATE.md is the page.

/// Bytes in all.
pub const STATE_SIZE: usize = 109056;
pub const TABLE: usize = 256;
/// A connection's row.
pub const ROW: usize = 70;
pub const TABLE_END: usize = TABLE + 32 * ROW;
pub const MOST: u16 = 0x0400;
