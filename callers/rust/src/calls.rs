//! The declarations of `include/sheet.h`, in its order and under its names. `header_test` holds each of them against
//! the header.

extern "C" {
    pub fn sheet_check(n: u32, table: *const u32, table_len: usize) -> u64;
    pub fn sheet_build(n: u32, raster: *const u8, raster_len: usize, table: *mut u32, table_len: usize) -> u64;
    pub fn sheet_decode(n: u32, table: *const u32, table_len: usize, raster: *mut u8, raster_len: usize) -> u64;
    pub fn sheet_neighbour(n: u32, table: *const u32, table_len: usize, node: u32, direction: u32) -> u64;
    pub fn sheet_corner_leaf(n: u32, table: *const u32, table_len: usize, node: u32, side: u32, corner: u32) -> u64;
    pub fn sheet_diagonal_leaf(n: u32, table: *const u32, table_len: usize, node: u32, corner: u32) -> u64;
    pub fn sheet_distance(
        n: u32,
        table: *const u32,
        table_len: usize,
        distances: *mut u32,
        distances_len: usize,
    ) -> u64;
    pub fn sheet_ponds(
        n: u32,
        table: *const u32,
        table_len: usize,
        numbers: *mut u32,
        numbers_len: usize,
        reg: *mut u32,
        reg_len: usize,
    ) -> u64;
    pub fn sheet_read(file: *const u8, file_len: usize, table: *mut u32, table_len: usize) -> u64;
    pub fn sheet_write(n: u32, table: *const u32, table_len: usize, file: *mut u8, file_len: usize) -> u64;
    pub fn sheet_centre(
        n: u32,
        table: *const u32,
        table_len: usize,
        node: u32,
        east: f64,
        north: f64,
        step: f64,
        place: *mut f64,
        place_len: usize,
    ) -> u64;
}
