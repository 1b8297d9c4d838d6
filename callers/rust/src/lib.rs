//! Quadtree map sheets: the calls of `libsheet.a`, safe and over slices.
//!
//! `include/sheet.h` is the manual: what a table, a raster, a register and a file are, what each call answers, what it
//! refuses and in which order. Each call has one function here, under its name without `sheet_`, and each number of
//! the header has its name without `SHEET_`. Nothing is checked here, as the library checks everything: any numbers and
//! any contents of the slices will do. A call writes to a slice only if it takes it as `&mut`, and only if it answers;
//! after a refusal every slice stands as it was.
//!
//! ```
//! use sheet::{Direction, Found, Quadrant, Side, Type, NODE_WORDS, TYPE_WORD};
//!
//! // Two ponds on an estate, with a dry bank between them.
//! let estate = [[1, 1, 1, 1, 0, 0, 1, 1].repeat(4), vec![0; 32]].concat();
//! let table = sheet::build_vec(3, &estate)?;
//!
//! // East of the western pond lies a grey block; what touches it are dry leaves.
//! let east = sheet::neighbour(3, &table, 1, Direction::E)?;
//! assert_eq!(east, Some(Found { node: 2, level: 2 }));
//! assert_eq!(Type(table[2 * NODE_WORDS + TYPE_WORD]), Type::GRAY);
//! assert_eq!(sheet::corner_leaf(3, &table, 1, Side::E, Quadrant::NE)?, Some(Found { node: 3, level: 1 }));
//! assert_eq!(Type(table[3 * NODE_WORDS + TYPE_WORD]), Type::WHITE);
//! # Ok::<(), sheet::Refusal>(())
//! ```
//!
//! A slice that a call writes cannot be lent to it twice:
//!
//! ```compile_fail,E0502
//! let mut words = [0; 6];
//! sheet::distance(0, &words, &mut words[..1]);
//! ```
#![deny(missing_docs)]
#![warn(unsafe_op_in_unsafe_fn)]

/// The example of the callers' manual, which is a test here.
#[cfg(doctest)]
#[doc = include_str!("../../README.md")]
struct Manual;

mod calls;
#[cfg(test)]
mod header_test;
mod numbers;
mod refusal;

pub use numbers::*;
pub use refusal::{Code, Found, Loaded, Refusal};

use refusal::{count_of, found_of, loaded_of, value_of};

// SAFETY, of every call below: the header asks for pointers that are aligned and good for as many elements as the
// length says, and that a slice which a call writes overlaps no other slice of that call. Every Rust slice gives the
// one, an empty one too, and a `&mut` slice the other. Nobody else writes to a slice while it is borrowed. Any numbers
// and any contents are allowed, and a call keeps nothing.

/// Is this slice the table of a sheet of level `n`? Answers the node count.
///
/// ```
/// use sheet::{Code, Refusal, NONE};
/// let white = [NONE, NONE, NONE, NONE, NONE, 0];
/// assert_eq!(sheet::check(0, &white), Ok(1));
/// assert_eq!(sheet::check(0, &white[..5]), Err(Refusal { code: Code::BadLength, value: 0 }));
/// ```
pub fn check(n: u32, table: &[u32]) -> Result<usize, Refusal> {
    count_of(unsafe { calls::sheet_check(n, table.as_ptr(), table.len()) })
}

/// Writes the table of a picture, in preorder numbers, and answers its node count. Words beyond the table stay.
///
/// ```
/// use sheet::{Code, Refusal, NODE_WORDS, NONE};
/// let mut table = [7; 2 * NODE_WORDS];
/// assert_eq!(sheet::build(1, &[1, 1, 1, 1], &mut table), Ok(1));
/// assert_eq!(table, [NONE, NONE, NONE, NONE, NONE, 1, 7, 7, 7, 7, 7, 7]);
/// let refusal = Refusal { code: Code::NoRoom, value: 30 };
/// assert_eq!(sheet::build(1, &[1, 1, 1, 0], &mut table), Err(refusal));
/// ```
pub fn build(n: u32, raster: &[u8], table: &mut [u32]) -> Result<usize, Refusal> {
    count_of(unsafe { calls::sheet_build(n, raster.as_ptr(), raster.len(), table.as_mut_ptr(), table.len()) })
}

/// The table of a picture, as [`build`] writes it, in a vector of its own length.
///
/// ```
/// assert_eq!(sheet::build_vec(1, &[1, 1, 1, 0])?.len(), 5 * sheet::NODE_WORDS);
/// # Ok::<(), sheet::Refusal>(())
/// ```
pub fn build_vec(n: u32, raster: &[u8]) -> Result<Vec<u32>, Refusal> {
    let (_, table) = with_room(|table| build(n, raster, table))?;
    Ok(table)
}

/// Writes the picture of a table.
///
/// ```
/// let mut raster = [7; 4];
/// sheet::decode(1, &sheet::build_vec(1, &[1, 1, 1, 0])?, &mut raster)?;
/// assert_eq!(raster, [1, 1, 1, 0]);
/// # Ok::<(), sheet::Refusal>(())
/// ```
pub fn decode(n: u32, table: &[u32], raster: &mut [u8]) -> Result<(), Refusal> {
    let answer = unsafe { calls::sheet_decode(n, table.as_ptr(), table.len(), raster.as_mut_ptr(), raster.len()) };
    value_of(answer).map(|_| ())
}

/// The neighbour of a node in one of the eight directions, or `None` if it would be off the sheet. It is never smaller
/// than the node; if it is a fork, what lies below it need not touch the node.
///
/// ```
/// use sheet::{Direction, Found};
/// let table = sheet::build_vec(1, &[1, 1, 1, 0])?;
/// assert_eq!(sheet::neighbour(1, &table, 1, Direction::SE)?, Some(Found { node: 4, level: 0 }));
/// assert_eq!(sheet::neighbour(1, &table, 1, Direction::NW)?, None);
/// # Ok::<(), sheet::Refusal>(())
/// ```
pub fn neighbour(n: u32, table: &[u32], node: u32, direction: Direction) -> Result<Option<Found>, Refusal> {
    found_of(unsafe { calls::sheet_neighbour(n, table.as_ptr(), table.len(), node, direction.0) })
}

/// The leaf that touches a node from outside at one end of a side, or `None` if it would be off the sheet. The corner
/// is one of the two at the ends of that side.
///
/// ```
/// use sheet::{Code, Found, Quadrant, Refusal, Side};
/// let table = sheet::build_vec(1, &[1, 1, 1, 0])?;
/// assert_eq!(sheet::corner_leaf(1, &table, 1, Side::E, Quadrant::NE)?, Some(Found { node: 2, level: 0 }));
/// let refusal = Refusal { code: Code::BadDirection, value: 2 };
/// assert_eq!(sheet::corner_leaf(1, &table, 1, Side::E, Quadrant::SW), Err(refusal));
/// # Ok::<(), sheet::Refusal>(())
/// ```
pub fn corner_leaf(n: u32, table: &[u32], node: u32, side: Side, corner: Quadrant) -> Result<Option<Found>, Refusal> {
    found_of(unsafe { calls::sheet_corner_leaf(n, table.as_ptr(), table.len(), node, side.0, corner.0) })
}

/// The leaf that touches a node at a corner, from outside of both its sides, or `None` if it would be off the sheet.
///
/// ```
/// use sheet::{Found, Quadrant};
/// let table = sheet::build_vec(1, &[1, 1, 1, 0])?;
/// assert_eq!(sheet::diagonal_leaf(1, &table, 4, Quadrant::NW)?, Some(Found { node: 1, level: 0 }));
/// # Ok::<(), sheet::Refusal>(())
/// ```
pub fn diagonal_leaf(n: u32, table: &[u32], node: u32, corner: Quadrant) -> Result<Option<Found>, Refusal> {
    found_of(unsafe { calls::sheet_diagonal_leaf(n, table.as_ptr(), table.len(), node, corner.0) })
}

/// Writes, for each node, the chessboard distance from its centre to the nearest white pixel in half pixels; 0 for
/// white leaves and forks. `distances` has one word for each node.
///
/// ```
/// let mut distances = [7; 5];
/// sheet::distance(1, &sheet::build_vec(1, &[1, 1, 1, 0])?, &mut distances)?;
/// assert_eq!(distances, [0, 1, 1, 1, 0]);
/// # Ok::<(), sheet::Refusal>(())
/// ```
pub fn distance(n: u32, table: &[u32], distances: &mut [u32]) -> Result<(), Refusal> {
    let answer =
        unsafe { calls::sheet_distance(n, table.as_ptr(), table.len(), distances.as_mut_ptr(), distances.len()) };
    value_of(answer).map(|_| ())
}

/// Writes, for each node, the number of its pond, 0 for white leaves and forks, and for each pond its entry in the
/// register; answers the number of ponds. `numbers` has one word for each node, `register` at least [`POND_WORDS`] for
/// each black leaf; words beyond the last pond's stay.
///
/// ```
/// let (mut numbers, mut register) = ([7; 5], [7; 15]);
/// let table = sheet::build_vec(1, &[1, 0, 1, 1])?;
/// assert_eq!(sheet::ponds(1, &table, &mut numbers, &mut register)?, 1);
/// assert_eq!(numbers, [0, 1, 0, 1, 1]);
/// assert_eq!(register, [3, 0, 1, 0, 1, 7, 7, 7, 7, 7, 7, 7, 7, 7, 7]);
/// # Ok::<(), sheet::Refusal>(())
/// ```
pub fn ponds(n: u32, table: &[u32], numbers: &mut [u32], register: &mut [u32]) -> Result<usize, Refusal> {
    count_of(unsafe {
        calls::sheet_ponds(
            n,
            table.as_ptr(),
            table.len(),
            numbers.as_mut_ptr(),
            numbers.len(),
            register.as_mut_ptr(),
            register.len(),
        )
    })
}

/// Writes the table of a sheet file, in preorder numbers, and answers its node count and the sheet's level. Words
/// beyond the table stay.
///
/// ```
/// let mut table = [7; 8];
/// let loaded = sheet::read(b"QS\x03\x01\0QN\x01", &mut table)?;
/// assert_eq!(loaded, sheet::Loaded { count: 1, level: 3 });
/// assert_eq!(table[5..], [1, 7, 7]);
/// # Ok::<(), sheet::Refusal>(())
/// ```
pub fn read(file: &[u8], table: &mut [u32]) -> Result<Loaded, Refusal> {
    loaded_of(unsafe { calls::sheet_read(file.as_ptr(), file.len(), table.as_mut_ptr(), table.len()) })
}

/// The level of a sheet file and its table, as [`read`] writes it, in a vector of its own length.
///
/// ```
/// let (level, table) = sheet::read_vec(b"QS\x03\x01\0QN\x01")?;
/// assert_eq!((level, table.len()), (3, sheet::NODE_WORDS));
/// # Ok::<(), sheet::Refusal>(())
/// ```
pub fn read_vec(file: &[u8]) -> Result<(u32, Vec<u32>), Refusal> {
    let (loaded, table) = with_room(|table| read(file, table))?;
    Ok((loaded.level, table))
}

/// Writes the sheet file of a table and answers its length. Bytes beyond it stay.
///
/// ```
/// let mut file = [7; 10];
/// assert_eq!(sheet::write(3, &sheet::build_vec(3, &[1; 64])?, &mut file)?, 8);
/// assert_eq!(file, *b"QS\x03\x01\0QN\x01\x07\x07");
/// # Ok::<(), sheet::Refusal>(())
/// ```
pub fn write(n: u32, table: &[u32], file: &mut [u8]) -> Result<usize, Refusal> {
    count_of(unsafe { calls::sheet_write(n, table.as_ptr(), table.len(), file.as_mut_ptr(), file.len()) })
}

/// Where the centre of a node lies on the ground, east first. `east` and `north` are the centre of the top left pixel,
/// `step` is the side of a pixel.
///
/// ```
/// let table = sheet::build_vec(1, &[1; 4])?;
/// assert_eq!(sheet::centre(1, &table, 0, 1000.0, 2000.0, 10.0)?, [1005.0, 1995.0]);
/// # Ok::<(), sheet::Refusal>(())
/// ```
pub fn centre(n: u32, table: &[u32], node: u32, east: f64, north: f64, step: f64) -> Result<[f64; 2], Refusal> {
    let mut place = [0.0; 2];
    let answer = unsafe {
        calls::sheet_centre(n, table.as_ptr(), table.len(), node, east, north, step, place.as_mut_ptr(), place.len())
    };
    value_of(answer).map(|_| place)
}

/// Calls without room, and again with the room that is then asked for.
fn with_room<T>(call: impl Fn(&mut [u32]) -> Result<T, Refusal>) -> Result<(T, Vec<u32>), Refusal> {
    let mut table = match call(&mut []) {
        Err(Refusal { code: Code::NoRoom, value }) => vec![0; value as usize],
        _ => Vec::new(),
    };
    Ok((call(&mut table)?, table))
}
