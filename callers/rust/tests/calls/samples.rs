//! Document 01's sheet A: rows 1100, 1101, 0000, 0000.

use sheet::{NODE_WORDS, NONE};

pub const LEVEL: u32 = 2;
pub const NODES: usize = 9;

pub const RASTER: [u8; 16] = [1, 1, 0, 0, 1, 1, 0, 1, 0, 0, 0, 0, 0, 0, 0, 0];

#[rustfmt::skip]
pub const TABLE: [u32; NODES * NODE_WORDS] = [
    NONE, 1, 2, 7, 8, 2,
    0, NONE, NONE, NONE, NONE, 1,
    0, 3, 4, 5, 6, 2,
    2, NONE, NONE, NONE, NONE, 0,
    2, NONE, NONE, NONE, NONE, 0,
    2, NONE, NONE, NONE, NONE, 0,
    2, NONE, NONE, NONE, NONE, 1,
    0, NONE, NONE, NONE, NONE, 0,
    0, NONE, NONE, NONE, NONE, 0,
];

#[rustfmt::skip]
pub const FILE: [u8; 5 + 3 * NODES] = [
    0x51, 0x53, 2, 9, 0,
    0x51, 0x4E, 2, 0x51, 0x4E, 1, 0x51, 0x4E, 2, 0x51, 0x4E, 0, 0x51, 0x4E, 0,
    0x51, 0x4E, 0, 0x51, 0x4E, 1, 0x51, 0x4E, 0, 0x51, 0x4E, 0,
];
