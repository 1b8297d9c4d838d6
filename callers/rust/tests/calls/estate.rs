//! The estates of the examples: their ponds do not touch.

use sheet::{Direction, Found, Quadrant, Side, Type, NODE_WORDS, POND_WORDS, TYPE_WORD};

#[test]
fn two_ponds() {
    let estate: Vec<u8> = (0..64).map(|place| u8::from(place < 32 && ![4, 5].contains(&(place % 8)))).collect();
    let table = sheet::build_vec(3, &estate).unwrap();
    assert_eq!(sheet::check(3, &table), Ok(9));
    let type_of = |found: Found| Type(table[found.node as usize * NODE_WORDS + TYPE_WORD]);

    let east = sheet::neighbour(3, &table, 1, Direction::E).unwrap().unwrap();
    assert_eq!((east, type_of(east)), (Found { node: 2, level: 2 }, Type::GRAY));
    let north_east = sheet::corner_leaf(3, &table, 1, Side::E, Quadrant::NE).unwrap().unwrap();
    assert_eq!((north_east, type_of(north_east)), (Found { node: 3, level: 1 }, Type::WHITE));
    let south_east = sheet::corner_leaf(3, &table, 1, Side::E, Quadrant::SE).unwrap().unwrap();
    assert_eq!((south_east, type_of(south_east)), (Found { node: 5, level: 1 }, Type::WHITE));
    assert_eq!(sheet::neighbour(3, &table, 1, Direction::W), Ok(None));

    let (mut numbers, mut register) = ([7; 9], [7; 3 * POND_WORDS]);
    assert_eq!(sheet::ponds(3, &table, &mut numbers, &mut register), Ok(2));
    assert_eq!(numbers, [0, 1, 0, 0, 2, 0, 2, 0, 0]);
    assert_eq!(register, [16, 0, 3, 0, 3, 8, 0, 3, 6, 7, 7, 7, 7, 7, 7]);
}

/// The pixels of the picture in `examples/ponds.pbm`, which has 16 rows of 16.
fn picture() -> Vec<u8> {
    let lines = include_str!("../../../../examples/ponds.pbm").lines().skip(2);
    lines.flat_map(|row| row.bytes().map(|digit| digit - b'0')).collect()
}

/// Counted by hand from the picture: two ponds side by side and a small one below.
#[test]
fn three_ponds() {
    let picture = picture();
    let table = sheet::build_vec(4, &picture).unwrap();
    let nodes = sheet::check(4, &table).unwrap();
    let (mut numbers, mut register) = (vec![7; nodes], vec![7; nodes * POND_WORDS]);
    assert_eq!(sheet::ponds(4, &table, &mut numbers, &mut register), Ok(3));
    assert_eq!(register[..15], [67, 1, 9, 0, 8, 33, 2, 9, 11, 15, 8, 12, 14, 6, 9]);
    let black = picture.iter().filter(|&&pixel| pixel == 1).count();
    assert_eq!(black, 67 + 33 + 8);

    let mut decoded = [7; 256];
    assert_eq!(sheet::decode(4, &table, &mut decoded), Ok(()));
    assert_eq!(decoded[..], picture);
}
