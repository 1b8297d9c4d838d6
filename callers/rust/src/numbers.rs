//! The numbers of `include/sheet.h`: sizes, places of words, directions, sides, quadrants and types.

/// The highest level of a sheet.
pub const HIGHEST_LEVEL: u32 = 7;
/// The words of one node.
pub const NODE_WORDS: usize = 6;
/// The words of the longest table: room enough for every picture.
pub const LONGEST_TABLE: usize = 131_070;
/// The words of one pond in the register.
pub const POND_WORDS: usize = 5;
/// The words of the longest register: room enough for every table.
pub const LONGEST_REGISTER: usize = 61_440;
/// The bytes of the longest file: room enough for every table.
pub const LONGEST_FILE: usize = 65_540;

/// No father, or no son.
pub const NONE: u32 = 4_294_967_295;
/// The distance of the one node of a sheet that has no white pixel.
pub const NO_WHITE: u32 = 4_294_967_295;

/// Where a node's father stands among its words.
pub const FATHER_WORD: usize = 0;
/// Where a node's first son stands among its words; the son in quadrant `q` stands `q` places further on.
pub const SON_WORD: usize = 1;
/// Where a node's type stands among its words.
pub const TYPE_WORD: usize = 5;

/// Where a pond's pixel count stands among its words.
pub const PIXELS_WORD: usize = 0;
/// Where a pond's first row stands among its words.
pub const FIRST_ROW_WORD: usize = 1;
/// Where a pond's last row stands among its words.
pub const LAST_ROW_WORD: usize = 2;
/// Where a pond's first column stands among its words.
pub const FIRST_COLUMN_WORD: usize = 3;
/// Where a pond's last column stands among its words.
pub const LAST_COLUMN_WORD: usize = 4;

/// A number of a kind of its own, with names for those that mean something. It holds any other number too, since it is
/// the library that judges it.
macro_rules! named_numbers {
    ($(#[$about:meta])* $kind:ident: $($(#[$what:meta])* $name:ident = $number:literal,)*) => {
        $(#[$about])*
        #[derive(Clone, Copy, Debug, PartialEq, Eq, Hash)]
        pub struct $kind(pub u32);

        impl $kind {
            $($(#[$what])* pub const $name: $kind = $kind($number);)*
        }
    };
}

named_numbers! {
    /// One of the eight directions, by its number: the four sides of a block, then its four corners.
    ///
    /// Any number can be asked for, as in `Direction(8)`, which is refused. A quadrant cannot be taken for a direction:
    ///
    /// ```compile_fail,E0308
    /// sheet::neighbour(2, &[], 0, sheet::Quadrant::NE);
    /// ```
    Direction:
    /// North.
    N = 0,
    /// East.
    E = 1,
    /// South.
    S = 2,
    /// West.
    W = 3,
    /// North-west.
    NW = 4,
    /// North-east.
    NE = 5,
    /// South-west.
    SW = 6,
    /// South-east.
    SE = 7,
}

named_numbers! {
    /// One of the four sides of a block, by its number.
    Side:
    /// North.
    N = 0,
    /// East.
    E = 1,
    /// South.
    S = 2,
    /// West.
    W = 3,
}

named_numbers! {
    /// A quadrant or corner of a block, by its number. These are not the numbers of the directions of the same names.
    Quadrant:
    /// North-west.
    NW = 0,
    /// North-east.
    NE = 1,
    /// South-west.
    SW = 2,
    /// South-east.
    SE = 3,
}

named_numbers! {
    /// The type of a node: the word at [`TYPE_WORD`].
    Type:
    /// A white leaf.
    WHITE = 0,
    /// A black leaf.
    BLACK = 1,
    /// A fork.
    GRAY = 2,
}
