//! The figures as Markdown tables: a table an operation, a row a shape, and for each size both engines and their ratio.

use crate::measure::Measured;
use timing::in_turn::Figures;
use timing::markdown::{compared, grouped, line, rule};

/// What was measured of one shape, at each size.
pub struct Row {
    pub shape: &'static str,
    pub measured: Vec<Measured>,
}

/// All tables.
pub fn write(sizes: &[usize], rows: &[Row]) {
    write_sizes(sizes, rows);
    write_operation("Preparing", sizes, rows, |m| m.prepare);
    write_operation("`locate`", sizes, rows, |m| m.locate);
    write_operation("`locate_doubled`", sizes, rows, |m| m.locate_doubled);
    write_operation("Ring by ring", sizes, rows, |m| m.by_rings);
    write_corrections(sizes, rows);
}

/// A table's head: the columns of each size, numbers to the right.
fn head(sizes: &[usize], columns: &[&str]) {
    let heads = |size: &usize| {
        let size = grouped(*size as f64);
        let column = |(place, column): (usize, &&str)| match place {
            0 => format!("{size}: {column}"),
            _ => column.to_string(),
        };
        columns.iter().enumerate().map(column).collect::<Vec<_>>()
    };
    line("shape", sizes.iter().flat_map(heads));
    rule(sizes.len() * columns.len());
}

fn write_sizes(sizes: &[usize], rows: &[Row]) {
    println!("Corners and rings of each shape:\n");
    head(sizes, &["corners", "rings"]);
    for row in rows {
        let cells = |m: &Measured| [grouped(m.corners as f64), grouped(m.rings as f64)];
        line(row.shape, row.measured.iter().flat_map(cells));
    }
    println!();
}

fn write_operation(name: &str, sizes: &[usize], rows: &[Row], of: impl Fn(&Measured) -> Figures) {
    println!("{name}, ns:\n");
    head(sizes, &["ours", "original", "ratio"]);
    for row in rows {
        let cells = |m: &Measured| compared(of(m));
        line(row.shape, row.measured.iter().flat_map(cells));
    }
    println!();
}

fn write_corrections(sizes: &[usize], rows: &[Row]) {
    println!("A move and its undo, ns, and how many times as long preparing again takes (ours):\n");
    head(sizes, &["move + undo", "prepare", "times"]);
    for row in rows {
        let cells = |m: &Measured| {
            let times = m.prepare.ours / m.correction;
            let times = match times < 10.0 {
                true => format!("{times:.1}"),
                false => grouped(times),
            };
            [grouped(m.correction), grouped(m.prepare.ours), times]
        };
        line(row.shape, row.measured.iter().flat_map(cells));
    }
}
