//! Lines of Markdown tables.

use crate::in_turn::Figures;

/// A line of a table.
pub fn line(first: &str, cells: impl IntoIterator<Item = String>) {
    let cells: Vec<String> = cells.into_iter().collect();
    println!("| {first} | {} |", cells.join(" | "));
}

/// The line below a table's head: a column of words, then so many of numbers, which stand to the right.
pub fn rule(columns: usize) {
    println!("|---|{}|", vec!["---:"; columns].join("|"));
}

/// Ours, theirs, and their ratio.
pub fn compared(Figures { ours, theirs }: Figures) -> [String; 3] {
    let ratio = format!("{:.2}", ours / theirs);
    [grouped(ours), grouped(theirs), ratio]
}

/// A whole number with its thousands parted.
pub fn grouped(number: f64) -> String {
    let digits = format!("{number:.0}");
    let mut grouped = String::new();
    for (place, digit) in digits.chars().enumerate() {
        if place > 0 && (digits.len() - place) % 3 == 0 {
            grouped.push(',');
        }
        grouped.push(digit);
    }
    grouped
}
