//! Every call on sheet A, with the values that the header's examples and document 01's marked cases give.

use crate::samples::{FILE, LEVEL, NODES, RASTER, TABLE};
use sheet::{Direction, Found, Loaded, Quadrant, Side, NO_WHITE};

fn found(node: u32, level: u32) -> Option<Found> {
    Some(Found { node, level })
}

#[test]
fn check() {
    assert_eq!(sheet::check(LEVEL, &TABLE), Ok(NODES));
}

#[test]
fn build() {
    let mut table = [7; TABLE.len() + 3];
    assert_eq!(sheet::build(LEVEL, &RASTER, &mut table), Ok(NODES));
    assert_eq!(table[..TABLE.len()], TABLE);
    assert_eq!(table[TABLE.len()..], [7, 7, 7]);
    assert_eq!(sheet::build_vec(LEVEL, &RASTER).as_deref(), Ok(&TABLE[..]));
}

#[test]
fn decode() {
    let mut raster = [7; RASTER.len()];
    assert_eq!(sheet::decode(LEVEL, &TABLE, &mut raster), Ok(()));
    assert_eq!(raster, RASTER);
}

#[test]
fn neighbour() {
    let ask = |node, direction| sheet::neighbour(LEVEL, &TABLE, node, direction).unwrap();
    assert_eq!(ask(1, Direction::E), found(2, 1));
    assert_eq!(ask(1, Direction::S), found(7, 1));
    assert_eq!(ask(1, Direction::SE), found(8, 1));
    assert_eq!(ask(6, Direction::S), found(8, 1));
    assert_eq!(ask(6, Direction::N), found(4, 0));
    assert_eq!(ask(6, Direction::NW), found(3, 0));
    assert_eq!(ask(5, Direction::W), found(1, 1));
    assert_eq!(ask(5, Direction::SW), found(7, 1));
    assert_eq!(ask(7, Direction::NE), found(2, 1));
    assert_eq!(ask(1, Direction::NW), None);
    for number in 0..8 {
        assert_eq!(ask(0, Direction(number)), None);
    }
}

#[test]
fn corner_leaf() {
    let ask = |node, side, corner| sheet::corner_leaf(LEVEL, &TABLE, node, side, corner).unwrap();
    assert_eq!(ask(1, Side::E, Quadrant::NE), found(3, 0));
    assert_eq!(ask(1, Side::E, Quadrant::SE), found(5, 0));
    assert_eq!(ask(1, Side::S, Quadrant::SW), found(7, 1));
    assert_eq!(ask(8, Side::N, Quadrant::NW), found(5, 0));
    assert_eq!(ask(8, Side::N, Quadrant::NE), found(6, 0));
    assert_eq!(ask(8, Side::W, Quadrant::SW), found(7, 1));
    assert_eq!(ask(8, Side::E, Quadrant::SE), None);
}

#[test]
fn diagonal_leaf() {
    let ask = |node, corner| sheet::diagonal_leaf(LEVEL, &TABLE, node, corner).unwrap();
    assert_eq!(ask(8, Quadrant::NW), found(1, 1));
    assert_eq!(ask(7, Quadrant::NE), found(5, 0));
    assert_eq!(ask(6, Quadrant::SW), found(8, 1));
    assert_eq!(ask(1, Quadrant::SE), found(8, 1));
    assert_eq!(ask(1, Quadrant::NE), None);
}

fn distances(level: u32, raster: &[u8]) -> Vec<u32> {
    let table = sheet::build_vec(level, raster).unwrap();
    let mut distances = vec![7; sheet::check(level, &table).unwrap()];
    assert_eq!(sheet::distance(level, &table, &mut distances), Ok(()));
    distances
}

#[test]
fn distance() {
    assert_eq!(distances(LEVEL, &RASTER), [0, 2, 0, 0, 0, 0, 1, 0, 0]);
    // Case (j): rows 1110, 1110, 1111, 1111. In preorder NW is node 1, the fork NE node 2, SW node 7 and SE node 8.
    let case_j = distances(2, &[1, 1, 1, 0, 1, 1, 1, 0, 1, 1, 1, 1, 1, 1, 1, 1]);
    assert_eq!((case_j[1], case_j[8]), (4, 2));
    // Case (k): one black pixel.
    assert_eq!(distances(0, &[1]), [NO_WHITE]);
}

#[test]
fn ponds() {
    let (mut numbers, mut register) = ([7; NODES], [7; 12]);
    assert_eq!(sheet::ponds(LEVEL, &TABLE, &mut numbers, &mut register), Ok(2));
    assert_eq!(numbers, [0, 1, 0, 0, 0, 0, 2, 0, 0]);
    assert_eq!(register, [4, 0, 1, 0, 1, 1, 1, 1, 3, 3, 7, 7]);
}

#[test]
fn read() {
    let mut table = [7; TABLE.len() + 3];
    assert_eq!(sheet::read(&FILE, &mut table), Ok(Loaded { count: NODES, level: LEVEL }));
    assert_eq!(table[..TABLE.len()], TABLE);
    assert_eq!(table[TABLE.len()..], [7, 7, 7]);
    assert_eq!(sheet::read_vec(&FILE), Ok((LEVEL, TABLE.to_vec())));
}

#[test]
fn write() {
    let mut file = [7; FILE.len() + 3];
    assert_eq!(sheet::write(LEVEL, &TABLE, &mut file), Ok(FILE.len()));
    assert_eq!(file[..FILE.len()], FILE);
    assert_eq!(file[FILE.len()..], [7, 7, 7]);
}

#[test]
fn centre() {
    let ask = |node| sheet::centre(LEVEL, &TABLE, node, 1000.0, 2000.0, 10.0);
    assert_eq!(ask(1), Ok([1005.0, 1995.0]));
    // The root's centre lies one and a half pixels from that of the top left pixel, node 6 three to the east and one
    // to the south of it.
    assert_eq!(ask(0), Ok([1015.0, 1985.0]));
    assert_eq!(ask(6), Ok([1030.0, 1990.0]));
}
