//! Samples that are refused, with the number and the line that document 01 gives.

use super::{MOST_BYTES, Sample, header, holed_square, input, many_points, replies};
use plans::plan::Query;

/// Inputs whose plan is refused with 2: what they show, the text and the line.
const BAD_PLANS: [(&str, &str, usize); 28] = [
    ("empty_input", "", 1),
    ("no_plan", "coin\t1\t1\n", 1),
    ("no_plan_before_half", "half\t1\t1\n", 1),
    ("no_header", "outer\nat\t0\t0\n", 1),
    ("unknown_kind", "plan\tgrid\n", 1),
    ("trailing_tab", "plan\tlist\t\n", 1),
    ("carriage_return", "plan\r\nouter\r\n", 1),
    ("second_plan", "plan\nplan\n", 2),
    ("unknown_word", "plan\ninner\n", 2),
    ("capitals", "plan\nOuter\n", 2),
    ("blank_line", "plan\n\nouter\n", 2),
    ("hole_before_outer", "plan\nhole\n", 2),
    ("corner_before_ring", "plan\nat\t0\t0\n", 2),
    ("node_in_list", "plan\tlist\nnode\n", 2),
    ("hole_in_tree", "plan\ttree\nnode\nhole\n", 3),
    ("outer_in_tree", "plan\ttree\nouter\n", 2),
    ("spaces", "plan\nouter\nat 0 0\n", 3),
    ("missing_y", "plan\nouter\nat\t0\n", 3),
    ("third_number", "plan\nouter\nat\t0\t0\t0\n", 3),
    ("leading_zero", "plan\nouter\nat\t0\t01\n", 3),
    ("plus_sign", "plan\nouter\nat\t+1\t0\n", 3),
    ("minus_zero", "plan\nouter\nat\t-0\t0\n", 3),
    (
        "number_of_65_bits",
        "plan\nouter\nat\t0\t9223372036854775808\n",
        3,
    ),
    (
        "number_below_64_bits",
        "plan\nouter\nat\t-9223372036854775809\t0\n",
        3,
    ),
    (
        "corner_with_carriage_return",
        "plan\nouter\nat\t0\t0\r\n",
        3,
    ),
    ("corner_with_byte_0", "plan\nouter\nat\t0\t0\0\n", 3),
    ("unended_plan", "plan\nouter", 2),
    (
        "first_bad_line",
        "plan\nouter\nat\t0\t0\nat\t1\nat\nring\n",
        4,
    ),
];

/// What follows the plan and two points in inputs that are refused with 2, after their replies: the plan has 11 lines.
const BAD_POINTS: [(&str, &str, usize); 25] = [
    ("point_without_y", "coin\t1\n", 14),
    ("point_of_three_numbers", "coin\t1\t1\t1\n", 14),
    ("point_with_a_word", "half\t1\tone\n", 14),
    ("point_with_leading_zero", "coin\t1\t05\n", 14),
    ("point_with_leading_zeros", "coin\t007\t5\n", 14),
    ("half_with_leading_zeros", "half\t9\t007\n", 14),
    ("point_with_minus_zero", "coin\t-0\t5\n", 14),
    ("half_with_minus_zero", "half\t9\t-0\n", 14),
    ("point_with_plus_sign", "coin\t+1\t5\n", 14),
    ("half_with_plus_sign", "half\t9\t+1\n", 14),
    ("point_beyond_64_bits", "coin\t9223372036854775808\t5\n", 14),
    ("point_below_64_bits", "coin\t1\t-9223372036854775809\n", 14),
    ("half_beyond_64_bits", "half\t9\t9223372036854775808\n", 14),
    ("half_below_64_bits", "half\t-9223372036854775809\t9\n", 14),
    // 2^64 + 1 and 2^128 + 9, of which the last 64 bits alone are points inside.
    ("point_of_65_bits", "coin\t18446744073709551617\t5\n", 14),
    (
        "half_of_129_bits",
        "half\t340282366920938463463374607431768211465\t3\n",
        14,
    ),
    ("point_with_carriage_return", "coin\t1\t5\r\n", 14),
    ("half_with_carriage_return", "half\t9\t9\r\n", 14),
    ("point_with_byte_0", "coin\t1\t5\0\n", 14),
    ("half_with_byte_0", "half\t9\0\t9\n", 14),
    ("corner_after_point", "at\t1\t1\n", 14),
    ("blank_line_after_point", "\ncoin\t1\t5\n", 14),
    ("unended_point", "coin\t1\t5", 14),
    ("unended_half", "half\t1\t5", 14),
    ("rest_after_bad_point", "coin\nouter\ncoin\t1\t5\n", 14),
];

/// One sample at least for each refusal.
pub fn samples() -> Vec<Sample> {
    let mut samples: Vec<Sample> = BAD_PLANS.into_iter().map(bad_plan).collect();
    samples.extend(BAD_POINTS.into_iter().map(bad_point));
    samples.push(point_ends_plan());
    samples.extend(too_large());
    samples.extend(too_long());
    samples
}

/// An input and its refusal, with nothing before it.
fn refused(shown: &str, input: String, number: usize, line: usize) -> Sample {
    Sample {
        name: format!("refused_{shown}"),
        input,
        output: refusal(number, line),
    }
}

fn refusal(number: usize, line: usize) -> String {
    format!("refused\t{number}\t{line}\n")
}

fn bad_plan((shown, text, line): (&str, &str, usize)) -> Sample {
    refused(shown, text.to_string(), 2, line)
}

/// Replies to two points, then the refusal, and nothing after it.
fn bad_point((shown, rest, line): (&str, &str, usize)) -> Sample {
    let plan = holed_square();
    let queries = [Query::grid(1, 5), Query::doubled(9, 9)];
    let text = input(&plan, header(&plan), &queries) + rest;
    Sample {
        output: replies(&plan, &queries) + &refusal(2, line),
        ..refused(shown, text, 2, line)
    }
}

/// A point's word alone ends the plan, and is refused after it.
fn point_ends_plan() -> Sample {
    refused(
        "point_ends_plan",
        "plan\nouter\ncoin\nat\t0\t0\n".to_string(),
        2,
        3,
    )
}

/// More than 512 corners or 256 rings, after the plan's lines and before its points.
fn too_large() -> Vec<Sample> {
    let rings = |header: &str, word: &str, count: usize| {
        format!("{header}\n{}", format!("{word}\n").repeat(count))
    };
    let corners = format!("plan\nouter\n{}", "at\t0\t0\n".repeat(513));
    let point = "coin\t0\t0\n";
    vec![
        refused("513_corners", corners.clone() + point, 11, 0),
        refused("257_polygons", rings("plan", "outer", 257) + point, 11, 0),
        refused(
            "257_rings",
            rings("plan\nouter", "hole", 256) + point,
            11,
            0,
        ),
        refused("257_nodes", rings("plan\ttree", "node", 257) + point, 11, 0),
        refused(
            "line_before_ceiling",
            rings("plan", "outer", 257) + "inner\n",
            2,
            259,
        ),
        refused("ceiling_before_points", corners + "coin\t0\n", 11, 0),
    ]
}

/// More than 16,384 bytes, before all else.
fn too_long() -> Vec<Sample> {
    let plan = holed_square();
    let long = input(&plan, header(&plan), &many_points(&plan, MOST_BYTES + 1));
    assert_eq!(long.len(), MOST_BYTES + 1);
    vec![
        refused("too_long", long, 1, 0),
        refused(
            "too_long_before_line",
            "x\n".repeat(MOST_BYTES / 2 + 1),
            1,
            0,
        ),
    ]
}
