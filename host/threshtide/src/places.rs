//! The lent state's places, widths and sizes, as its Rattle source has them. Made by host/generate: do not edit.
//! docs/STATE.md is the page.

pub const STATE_SIZE: usize = 109056;
pub const SETUP_SIZE: usize = 192;
pub const PRODUCED: usize = 192;
pub const LATE: usize = 200;
pub const MAX_LATE: usize = 208;
pub const NEXT_ID: usize = 216;
pub const RING: usize = 220;
pub const CONNECTIONS: usize = 224;
pub const MARKS: usize = 240;
pub const TABLE: usize = 256;
pub const EVENTS: usize = 2560;
pub const DATA: usize = 35328;
pub const EDS: usize = 43520;
/// What the ring's word is below.
pub const RING_BOUND: u32 = 2099200;
/// A connection's row, an event's record, an assembly's bytes; the setup's columns of instances, sizes and kinds.
pub const ROW: usize = 69;
pub const RECORD: usize = 32;
pub const SLOT: usize = 512;
pub const INSTANCES: usize = 110;
pub const SIZES: usize = 142;
pub const KINDS: usize = 174;
/// A row's fields.
pub const DUE: usize = 0;
pub const SEQUENCE: usize = 8;
pub const CIP: usize = 12;
pub const LAST_CIP: usize = 14;
pub const UNTIL: usize = 16;
pub const LAST_SEQUENCE: usize = 24;
pub const FLAGS: usize = 28;
pub const ROLE: usize = 29;
pub const PORT: usize = 30;
pub const O_T_ID: usize = 32;
pub const ORIGINATOR: usize = 36;
pub const T_O_ID: usize = 40;
pub const O_T_RPI: usize = 44;
pub const T_O_RPI: usize = 48;
pub const ADDRESS: usize = 52;
pub const LOCAL: usize = 56;
pub const SERIAL: usize = 60;
pub const VENDOR: usize = 62;
pub const ORIGINATOR_SERIAL: usize = 64;
pub const MULTIPLIER: usize = 68;
