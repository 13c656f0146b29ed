//! Where the fields of a setup block stand, one behind the other (docs/INTERFACE.md).

use crate::places::SETUP_SIZE;
use std::ops::Range;

/// Assemblies that a block has room for.
pub const MOST_ASSEMBLIES: usize = 16;
/// The longest name.
pub const MOST_NAME: usize = 32;

pub const ASSEMBLIES: usize = 0;
pub const TRANSFER_LIMIT: usize = ASSEMBLIES + 1;
pub const NAME_LENGTH: usize = TRANSFER_LIMIT + 1;
pub const EDS_NAME_LENGTH: usize = NAME_LENGTH + 1;
pub const EDS: usize = EDS_NAME_LENGTH + 1;
pub const VENDOR: usize = EDS + 4;
pub const DEVICE_TYPE: usize = VENDOR + 2;
pub const PRODUCT_CODE: usize = DEVICE_TYPE + 2;
pub const MAJOR: usize = PRODUCT_CODE + 2;
pub const MINOR: usize = MAJOR + 1;
pub const SERIAL: usize = MINOR + 1;
pub const INPUT_ONLY: usize = SERIAL + 4;
pub const LISTEN_ONLY: usize = INPUT_ONLY + 4;
pub const RPI_MIN: usize = LISTEN_ONLY + 4;
pub const RPI_MAX: usize = RPI_MIN + 4;
pub const LATE_LIMIT: usize = RPI_MAX + 4;
pub const MAC: usize = LATE_LIMIT + 4;
pub const NAME: usize = MAC + 6;
pub const EDS_NAME: usize = NAME + MOST_NAME;

/// An assembly's instance, by its place in the list: a shape is instance, size and kind.
pub const fn instance(place: usize) -> usize {
    EDS_NAME + MOST_NAME + (2 + 2 + 1) * place
}

pub const fn size(place: usize) -> usize {
    instance(place) + 2
}

pub const fn kind(place: usize) -> usize {
    size(place) + 2
}

/// All bytes of an assembly.
pub fn fields(place: usize) -> [Range<usize>; 3] {
    [instance(place)..instance(place) + 2, size(place)..size(place) + 2, kind(place)..kind(place) + 1]
}

/// Behind the last assembly: bytes that nothing stands in.
pub const SPARE: usize = kind(MOST_ASSEMBLIES - 1) + 1;

const _: () = assert!(SPARE <= SETUP_SIZE, "the shapes are part of the block");
