//! The figures as Markdown tables: both versions and their ratio, for each shape and size and for the turns of each extent.

use crate::compared::Compared;
use crate::look_up::LOOK_UPS;
use crate::measure::Measured;
use crate::turns::{self, Costs, EDGES};
use timing::markdown::{grouped, line, rule};

/// What was measured of one shape, at each size.
pub struct Row {
    pub shape: &'static str,
    pub measured: Vec<Measured>,
}

/// What was measured of the turns of one extent.
pub struct TurnRow {
    pub power: u32,
    /// In the order of [`turns::LOOK_UPS`].
    pub costs: [Costs; 2],
}

/// The tables of shapes.
pub fn write_shapes(sizes: &[usize], rows: &[Row]) {
    write_calls("Preparing", sizes, rows, |m| m.prepare);
    for (number, look_up) in LOOK_UPS.iter().enumerate() {
        write_calls(look_up.name, sizes, rows, |m| m.look_ups[number]);
    }
    write_calls("A move and its undo", sizes, rows, |m| m.correction);
}

fn write_calls(name: &str, sizes: &[usize], rows: &[Row], of: impl Fn(&Measured) -> Compared) {
    println!("{name}, ns:\n");
    let sizes: Vec<String> = sizes.iter().map(|&size| grouped(size as f64)).collect();
    head("shape", &sizes);
    for row in rows {
        let cells = |m: &Measured| cells(of(m), grouped);
        line(row.shape, row.measured.iter().flat_map(cells));
    }
    println!();
}

/// The tables of turns.
pub fn write_turns(rows: &[TurnRow]) {
    for (number, look_up) in turns::LOOK_UPS.iter().enumerate() {
        println!(
            "{}, one ring of {} edges that all pass the point's height: ns of an edge, and of a turn:\n",
            look_up.name,
            grouped(EDGES as f64)
        );
        head("extent", &["an edge".to_string(), "a turn".to_string()]);
        for row in rows {
            let Costs { edge, turn } = row.costs[number];
            let cells = [edge, turn].map(|cost| cells(cost, |time| format!("{time:.2}")));
            line(&format!("2^{}", row.power), cells.into_iter().flatten());
        }
        println!();
    }
}

/// A table's head: the columns of each part, numbers to the right.
fn head(first: &str, parts: &[String]) {
    let columns = |part: &String| {
        let before = format!("{part}: before");
        [before, "after".to_string(), "ratio".to_string()]
    };
    line(first, parts.iter().flat_map(columns));
    rule(3 * parts.len());
}

fn cells(compared: Compared, time: impl Fn(f64) -> String) -> [String; 3] {
    let ratio = format!("{:.2}", compared.ratio);
    [time(compared.before), time(compared.after), ratio]
}
