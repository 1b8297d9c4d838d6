//! The crate's numbers and declarations against `include/sheet.h` itself.

use std::collections::BTreeMap;

use crate::refusal::{NO_BLOCK, OK, PACKED_LEVELS};
use crate::*;

const HEADER: &str = include_str!("../../../include/sheet.h");
const CALLS: &str = include_str!("calls.rs");

/// The header without its comments.
fn bare_header() -> String {
    let mut bare = String::new();
    let mut rest = HEADER;
    while let Some((before, after)) = rest.split_once("/*") {
        bare.push_str(before);
        rest = after.split_once("*/").expect("a comment ends").1;
    }
    bare + rest
}

/// Every number that the header defines. A definition with arguments is no number, nor is the guard or the version.
fn defined() -> BTreeMap<String, u64> {
    let mut numbers = BTreeMap::new();
    for line in bare_header().lines() {
        let Some(definition) = line.trim().strip_prefix("#define") else { continue };
        let (name, number) = definition.trim().split_once(' ').unwrap_or((definition.trim(), ""));
        if name.contains('(') || matches!(name, "SHEET_H" | "SHEET_VERSION") {
            continue;
        }
        let number = number.trim().trim_end_matches('u').parse();
        numbers.insert(name.to_string(), number.unwrap_or_else(|_| panic!("{name} is no plain number")));
    }
    numbers
}

/// Every number that the crate has, under the header's name.
fn known() -> BTreeMap<String, u64> {
    let numbers = [
        ("SHEET_HIGHEST_LEVEL", HIGHEST_LEVEL.into()),
        ("SHEET_NODE_WORDS", NODE_WORDS as u64),
        ("SHEET_LONGEST_TABLE", LONGEST_TABLE as u64),
        ("SHEET_NONE", NONE.into()),
        ("SHEET_FATHER_WORD", FATHER_WORD as u64),
        ("SHEET_SON_WORD", SON_WORD as u64),
        ("SHEET_TYPE_WORD", TYPE_WORD as u64),
        ("SHEET_QUADRANT_NW", Quadrant::NW.0.into()),
        ("SHEET_QUADRANT_NE", Quadrant::NE.0.into()),
        ("SHEET_QUADRANT_SW", Quadrant::SW.0.into()),
        ("SHEET_QUADRANT_SE", Quadrant::SE.0.into()),
        ("SHEET_WHITE", Type::WHITE.0.into()),
        ("SHEET_BLACK", Type::BLACK.0.into()),
        ("SHEET_GRAY", Type::GRAY.0.into()),
        ("SHEET_PACKED_LEVELS", PACKED_LEVELS),
        ("SHEET_OK", OK.into()),
        ("SHEET_BAD_LEVEL", Code::BadLevel.number().into()),
        ("SHEET_BAD_LENGTH", Code::BadLength.number().into()),
        ("SHEET_BAD_NODE", Code::BadNode.number().into()),
        ("SHEET_TOO_DEEP", Code::TooDeep.number().into()),
        ("SHEET_NEEDLESS_FORK", Code::NeedlessFork.number().into()),
        ("SHEET_NO_SUCH_NODE", Code::NoSuchNode.number().into()),
        ("SHEET_BAD_DIRECTION", Code::BadDirection.number().into()),
        ("SHEET_BAD_PIXEL", Code::BadPixel.number().into()),
        ("SHEET_NO_ROOM", Code::NoRoom.number().into()),
        ("SHEET_BAD_GROUND", Code::BadGround.number().into()),
        ("SHEET_BAD_RECORD", Code::BadRecord.number().into()),
        ("SHEET_FILE_ENDS", Code::FileEnds.number().into()),
        ("SHEET_BAD_COUNT", Code::BadCount.number().into()),
        ("SHEET_NO_BLOCK", NO_BLOCK.into()),
        ("SHEET_N", Direction::N.0.into()),
        ("SHEET_E", Direction::E.0.into()),
        ("SHEET_S", Direction::S.0.into()),
        ("SHEET_W", Direction::W.0.into()),
        ("SHEET_NW", Direction::NW.0.into()),
        ("SHEET_NE", Direction::NE.0.into()),
        ("SHEET_SW", Direction::SW.0.into()),
        ("SHEET_SE", Direction::SE.0.into()),
        ("SHEET_NO_WHITE", NO_WHITE.into()),
        ("SHEET_POND_WORDS", POND_WORDS as u64),
        ("SHEET_LONGEST_REGISTER", LONGEST_REGISTER as u64),
        ("SHEET_PIXELS_WORD", PIXELS_WORD as u64),
        ("SHEET_FIRST_ROW_WORD", FIRST_ROW_WORD as u64),
        ("SHEET_LAST_ROW_WORD", LAST_ROW_WORD as u64),
        ("SHEET_FIRST_COLUMN_WORD", FIRST_COLUMN_WORD as u64),
        ("SHEET_LAST_COLUMN_WORD", LAST_COLUMN_WORD as u64),
        ("SHEET_LONGEST_FILE", LONGEST_FILE as u64),
    ];
    numbers.map(|(name, number)| (name.to_string(), number)).into()
}

#[test]
fn every_number_of_the_header() {
    assert_eq!(defined(), known());
}

#[test]
fn the_version_is_the_headers() {
    let line = concat!("#define SHEET_VERSION \"", env!("CARGO_PKG_VERSION"), "\"");
    assert!(bare_header().lines().any(|one| one == line));
}

#[test]
fn sides_are_the_first_directions() {
    let sides = [Side::N, Side::E, Side::S, Side::W].map(|side| side.0);
    assert_eq!(sides, [Direction::N, Direction::E, Direction::S, Direction::W].map(|direction| direction.0));
}

/// A parameter of C, as `calls.rs` has it.
fn parameter(of_c: &str) -> String {
    let (kind, name) = of_c.rsplit_once([' ', '*']).expect("a type and a name");
    let kind = kind.trim_end_matches([' ', '*']);
    let (access, kind) = match kind.strip_prefix("const ") {
        Some(kind) => ("*const", kind),
        None => ("*mut", kind),
    };
    let element = match kind {
        "uint8_t" => "u8",
        "uint32_t" => "u32",
        "size_t" => "usize",
        "double" => "f64",
        other => panic!("{other} has no type here"),
    };
    let access = if of_c.contains('*') { access } else { "" };
    format!("{name}:{access}{element}")
}

/// Every call that the header declares, as `calls.rs` has it but for its spaces.
fn declared() -> Vec<String> {
    let code: Vec<_> = bare_header().lines().filter(|line| !line.starts_with('#')).map(str::to_string).collect();
    let mut calls = Vec::new();
    for statement in code.join(" ").split(';') {
        let Some((result, call)) = statement.split_once(" sheet_") else { continue };
        assert!(result.ends_with("uint64_t"), "a call gives one number back");
        let (name, parameters) = call.split_once('(').expect("a call has parameters");
        let parameters = parameters.strip_suffix(')').expect("a call's parameters end");
        let parameters: Vec<_> = parameters.split(',').map(|one| parameter(one.trim())).collect();
        calls.push(format!("pubfnsheet_{name}({})->u64;", parameters.join(",")));
    }
    calls
}

#[test]
fn every_call_of_the_header() {
    let (_, calls) = CALLS.split_once("extern \"C\" {").expect("calls.rs declares calls");
    let calls = calls.rsplit_once('}').expect("the declarations end").0;
    let calls = calls.split_whitespace().collect::<String>().replace(",)", ")");
    assert_eq!(declared(), calls.split_inclusive(';').collect::<Vec<_>>());
}
