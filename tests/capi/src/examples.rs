//! Two plan texts, points that tell their rings apart, and Well-Known Texts.

use plans::plan::Point;

/// Document 01's worked example: a square with a square hole.
pub const LIST: &[u8] = b"plan\tlist\n\
    outer\nat\t0\t0\nat\t10\t0\nat\t10\t10\nat\t0\t10\n\
    hole\nat\t4\t4\nat\t6\t4\nat\t6\t6\nat\t4\t6\n";

/// A square with a triangle in it that lies about the origin.
pub const TREE: &[u8] = b"plan\ttree\n\
    node\nat\t-12\t-12\nat\t12\t-12\nat\t12\t12\nat\t-12\t12\n\
    node\nat\t-1\t-1\nat\t6\t0\nat\t5\t6\n";

/// In the hole, on its edge, between it and the outer ring; in the triangle, on its corner, beside it.
pub const POINTS: [Point; 6] = [(5, 5), (4, 5), (1, 5), (4, 3), (-1, -1), (-2, 0)];

/// Well-Known Texts with brackets, spaces, signs, words and numbers of every sort.
pub const WKT: [&[u8]; 4] = [
    b"POLYGON ((0 0, 10 0, 10 10, 0 10, 0 0), (4 4, 6 4, 6 -6, 4 4))",
    b"MULTIPOLYGON( ((-1 0,8 0,-1 0)) ,EMPTY , ((7 7, 7  7) ) ) ",
    b"POLYGON((0 0,9223372036854775807 -9223372036854775808,0 0))",
    b"MULTIPOLYGON EMPTY",
];
