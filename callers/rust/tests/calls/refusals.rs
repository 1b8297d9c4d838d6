//! Every refusal, with the value that the header gives it, and what empty slices are answered. A slice lent to be
//! written must come back from a refusal as it was.

use crate::samples::{FILE, LEVEL, NODES, RASTER, TABLE};
use sheet::{Code, Direction, Quadrant, Refusal, Side, NONE};
use std::fmt::Debug;

fn refused<T>(code: Code, value: u64) -> Result<T, Refusal> {
    Err(Refusal { code, value })
}

/// Lends a slice of this length; after a refusal it must stand as it was.
fn lend<E, T>(length: usize, call: impl FnOnce(&mut [E]) -> Result<T, Refusal>) -> Result<T, Refusal>
where
    E: Copy + Debug + From<u8> + PartialEq,
{
    let old: Vec<E> = (0..length).map(|place| E::from(100 + (place % 100) as u8)).collect();
    let mut slice = old.clone();
    let answer = call(&mut slice);
    assert!(answer.is_ok() || slice == old, "a refusal has written");
    answer
}

fn build(level: u32, raster: &[u8], room: usize) -> Result<usize, Refusal> {
    lend(room, |table| sheet::build(level, raster, table))
}

fn decode(level: u32, table: &[u32], length: usize) -> Result<(), Refusal> {
    lend(length, |raster| sheet::decode(level, table, raster))
}

fn distance(level: u32, table: &[u32], length: usize) -> Result<(), Refusal> {
    lend(length, |distances| sheet::distance(level, table, distances))
}

fn ponds(level: u32, table: &[u32], length: usize, room: usize) -> Result<usize, Refusal> {
    lend(length, |numbers| lend(room, |register| sheet::ponds(level, table, numbers, register)))
}

fn read(file: &[u8], room: usize) -> Result<sheet::Loaded, Refusal> {
    lend(room, |table| sheet::read(file, table))
}

fn write(level: u32, table: &[u32], room: usize) -> Result<usize, Refusal> {
    lend(room, |file| sheet::write(level, table, file))
}

/// Sheet A's table with another word.
fn table_with(place: usize, word: u32) -> [u32; TABLE.len()] {
    let mut table = TABLE;
    table[place] = word;
    table
}

/// Sheet A's file with another byte.
fn file_with(place: usize, byte: u8) -> [u8; FILE.len()] {
    let mut file = FILE;
    file[place] = byte;
    file
}

/// Each call that takes a table and reads nothing else, with slices of the right length for sheet A.
fn all_refuse(level: u32, table: &[u32], code: Code, value: u64) {
    assert_eq!(sheet::check(level, table), refused(code, value));
    assert_eq!(decode(level, table, RASTER.len()), refused(code, value));
    assert_eq!(sheet::neighbour(level, table, 1, Direction::E), refused(code, value));
    assert_eq!(sheet::corner_leaf(level, table, 1, Side::E, Quadrant::NE), refused(code, value));
    assert_eq!(sheet::diagonal_leaf(level, table, 1, Quadrant::SE), refused(code, value));
    assert_eq!(distance(level, table, NODES), refused(code, value));
    assert_eq!(ponds(level, table, NODES, 10), refused(code, value));
    assert_eq!(write(level, table, FILE.len()), refused(code, value));
    assert_eq!(sheet::centre(level, table, 1, 0.0, 0.0, 1.0), refused(code, value));
}

#[test]
fn bad_level() {
    for level in [8, 256 + LEVEL, u32::MAX] {
        all_refuse(level, &TABLE, Code::BadLevel, 0);
        assert_eq!(build(level, &RASTER, 54), refused(Code::BadLevel, 0));
        assert_eq!(sheet::build_vec(level, &RASTER), refused(Code::BadLevel, 0));
    }
    assert_eq!(read(&file_with(2, 8), 54), refused(Code::BadLevel, 2));
    assert_eq!(sheet::read_vec(&file_with(2, 8)), refused(Code::BadLevel, 2));
}

#[test]
fn bad_length() {
    all_refuse(LEVEL, &TABLE[..53], Code::BadLength, 0);
    all_refuse(LEVEL, &vec![0; sheet::LONGEST_TABLE + 6], Code::BadLength, 0);
    assert_eq!(build(LEVEL, &RASTER[..15], 54), refused(Code::BadLength, 1));
    assert_eq!(decode(LEVEL, &TABLE, 17), refused(Code::BadLength, 1));
    assert_eq!(distance(LEVEL, &TABLE, 8), refused(Code::BadLength, 1));
    assert_eq!(ponds(LEVEL, &TABLE, 10, 10), refused(Code::BadLength, 1));
}

#[test]
fn bad_node() {
    all_refuse(LEVEL, &table_with(3 * 6 + 5, 3), Code::BadNode, 3);
    all_refuse(LEVEL, &table_with(0, 0), Code::BadNode, 0);
}

#[test]
fn too_deep() {
    // The raster of level 1 has another length, which decoding refuses first.
    assert_eq!(sheet::check(1, &TABLE), refused(Code::TooDeep, 2));
    assert_eq!(decode(1, &TABLE, 4), refused(Code::TooDeep, 2));
    assert_eq!(write(1, &TABLE, FILE.len()), refused(Code::TooDeep, 2));
    assert_eq!(read(b"QS\0\x01\0QN\x02", 6), refused(Code::TooDeep, 7));
}

#[test]
fn needless_fork() {
    all_refuse(LEVEL, &table_with(6 * 6 + 5, 0), Code::NeedlessFork, 2);
    // Node 6 has the last of the four like types: the seventh record, whose type stands at 5 + 3 * 6 + 2.
    assert_eq!(read(&file_with(25, 0), 54), refused(Code::NeedlessFork, 25));
}

#[test]
fn no_such_node() {
    for node in [9, u32::MAX] {
        let value = node.into();
        assert_eq!(sheet::neighbour(LEVEL, &TABLE, node, Direction::E), refused(Code::NoSuchNode, value));
        let corner = sheet::corner_leaf(LEVEL, &TABLE, node, Side::E, Quadrant::NE);
        assert_eq!(corner, refused(Code::NoSuchNode, value));
        assert_eq!(sheet::diagonal_leaf(LEVEL, &TABLE, node, Quadrant::NE), refused(Code::NoSuchNode, value));
        assert_eq!(sheet::centre(LEVEL, &TABLE, node, 0.0, 0.0, 1.0), refused(Code::NoSuchNode, value));
    }
}

#[test]
fn bad_direction() {
    let bad = |value| refused(Code::BadDirection, value);
    assert_eq!(sheet::neighbour(LEVEL, &TABLE, 1, Direction(8)), bad(8));
    assert_eq!(sheet::neighbour(LEVEL, &TABLE, 1, Direction(u32::MAX)), bad(u32::MAX.into()));
    assert_eq!(sheet::diagonal_leaf(LEVEL, &TABLE, 1, Quadrant(4)), bad(4));
    assert_eq!(sheet::corner_leaf(LEVEL, &TABLE, 1, Side::E, Quadrant(5)), bad(5));
    assert_eq!(sheet::corner_leaf(LEVEL, &TABLE, 1, Side(6), Quadrant(5)), bad(6));
    assert_eq!(sheet::corner_leaf(LEVEL, &TABLE, 1, Side::E, Quadrant::SW), bad(2));
}

#[test]
fn bad_pixel() {
    let mut raster = RASTER;
    raster[9] = 255;
    raster[5] = 2;
    assert_eq!(build(LEVEL, &raster, 54), refused(Code::BadPixel, 5));
    assert_eq!(sheet::build_vec(LEVEL, &raster), refused(Code::BadPixel, 5));
}

#[test]
fn no_room() {
    assert_eq!(build(LEVEL, &RASTER, 53), refused(Code::NoRoom, 54));
    assert_eq!(read(&FILE, 53), refused(Code::NoRoom, 54));
    assert_eq!(write(LEVEL, &TABLE, 31), refused(Code::NoRoom, 32));
    assert_eq!(ponds(LEVEL, &TABLE, NODES, 9), refused(Code::NoRoom, 10));
}

#[test]
fn bad_ground() {
    let centre = |east, north, step| sheet::centre(LEVEL, &TABLE, 1, east, north, step);
    let limit = 16777216.0;
    assert!(centre(limit, -limit, 16384.0).is_ok());
    assert_eq!(centre(f64::NAN, f64::NAN, 0.0), refused(Code::BadGround, 0));
    assert_eq!(centre(-limit - 1.0, 0.0, 1.0), refused(Code::BadGround, 0));
    assert_eq!(centre(0.0, f64::INFINITY, 0.0), refused(Code::BadGround, 1));
    assert_eq!(centre(0.0, 0.0, 16385.0), refused(Code::BadGround, 2));
    assert_eq!(centre(0.0, 0.0, 0.0), refused(Code::BadGround, 2));
}

#[test]
fn bad_record() {
    assert_eq!(read(&file_with(0, 0x53), 54), refused(Code::BadRecord, 0));
    assert_eq!(read(&file_with(6, 0x53), 54), refused(Code::BadRecord, 6));
    assert_eq!(read(&file_with(7, 3), 54), refused(Code::BadRecord, 7));
}

#[test]
fn file_ends() {
    for length in 0..FILE.len() {
        assert_eq!(read(&FILE[..length], 54), refused(Code::FileEnds, length as u64));
    }
}

#[test]
fn bad_count() {
    assert_eq!(read(&file_with(3, 8), 54), refused(Code::BadCount, 3));
    assert_eq!(read(&[&FILE[..], &[0x51, 0]].concat(), 54), refused(Code::BadCount, 32));
}

#[test]
fn empty_slices() {
    all_refuse(LEVEL, &[], Code::BadLength, 0);
    assert_eq!(build(LEVEL, &[], 0), refused(Code::BadLength, 1));
    assert_eq!(build(LEVEL, &RASTER, 0), refused(Code::NoRoom, 54));
    assert_eq!(decode(LEVEL, &[], 0), refused(Code::BadLength, 0));
    assert_eq!(decode(LEVEL, &TABLE, 0), refused(Code::BadLength, 1));
    assert_eq!(distance(LEVEL, &[], 0), refused(Code::BadLength, 0));
    assert_eq!(distance(LEVEL, &TABLE, 0), refused(Code::BadLength, 1));
    assert_eq!(ponds(LEVEL, &[], 0, 0), refused(Code::BadLength, 0));
    assert_eq!(ponds(LEVEL, &TABLE, 0, 0), refused(Code::BadLength, 1));
    assert_eq!(ponds(LEVEL, &TABLE, NODES, 0), refused(Code::NoRoom, 10));
    assert_eq!(ponds(LEVEL, &[NONE, NONE, NONE, NONE, NONE, 0], 1, 0), Ok(0));
    assert_eq!(read(&[], 0), refused(Code::FileEnds, 0));
    assert_eq!(read(&FILE, 0), refused(Code::NoRoom, 54));
    assert_eq!(write(LEVEL, &[], 0), refused(Code::BadLength, 0));
    assert_eq!(write(LEVEL, &TABLE, 0), refused(Code::NoRoom, 32));
}

#[test]
fn in_words() {
    let refusal = read(&[], 0).unwrap_err();
    let said: Box<dyn std::error::Error> = refusal.into();
    assert_eq!(said.to_string(), "a file ends where a byte is needed (code 13, value 0)");
}
