//! Tables that a delivery prepared and corrected, as text: a set a block, so that they can be kept and read again after later deliveries.
//!
//! `data/README.md` says what each line of a set holds. Lines are found by their names. A table that a later delivery lends beside these has no
//! line in the sets of an earlier one: it is read as that delivery says open plans come with it.

use crate::exports::State;
use crate::prepared::{Prepared, Tables};
use crate::soundness::smallest_boxes;
use plans::model::Call;
use plans::plan::{Kind, Plan, Point};
use std::collections::BTreeMap;
use std::fmt::{self, Display, Formatter};
use std::str::FromStr;

/// What tables are lent with. Rows at a table's end that still hold nothing else are not written out.
pub const LENT: i64 = i64::MIN;
pub const LENT_COUNT: usize = usize::MAX;

/// A set of tables, and how they came about.
#[derive(Clone, Debug, PartialEq, Eq)]
pub struct Stored {
    /// The sort of plan, as whoever made the set names it.
    pub sort: String,
    /// The plan as it was handed in.
    pub handed: Plan,
    /// The corrections that were called for, each with its refusal number or 0.
    pub calls: Vec<(Call, u64)>,
    /// The state and the tables that they left.
    pub left: Prepared,
}

/// A plan as it stands, and the corner and old place of each move that can be undone, the latest last.
pub type Book = (Plan, Vec<(usize, Point)>);

impl Stored {
    /// What the set's own calls come to: each accepted move left a record, one to the same place too.
    pub fn book(&self) -> Book {
        let (mut plan, mut records) = (self.handed.clone(), Vec::new());
        let accepted = self.calls.iter().filter(|(_, refusal)| *refusal == 0);
        for (call, _) in accepted {
            let (corners, _) = plan.coordinates.as_chunks_mut::<2>();
            match *call {
                Call::Move { corner, to: (x, y) } => {
                    let [old_x, old_y] = std::mem::replace(&mut corners[corner], [x, y]);
                    records.push((corner, (old_x, old_y)));
                }
                Call::Undo => {
                    let (corner, (x, y)) = records.pop().expect("an accepted undo has a record");
                    corners[corner] = [x, y];
                }
            }
        }
        (plan, records)
    }

    /// The records that can be undone, as the undo table has them.
    pub fn records(&self) -> Vec<(usize, Point)> {
        let depth = self.left.state.undo_depth as usize;
        let rows = &self.left.tables.undo[..depth];
        rows.iter()
            .map(|&[corner, x, y]| (corner as usize, (x, y)))
            .collect()
    }

    /// How many of the records, as they stand, name the place at which their move left the corner.
    pub fn records_in_place(&self) -> usize {
        let (mut plan, records) = self.book();
        let mut count = 0;
        for (corner, old) in records.into_iter().rev() {
            let (corners, _) = plan.coordinates.as_chunks_mut::<2>();
            count += usize::from(corners[corner] == [old.0, old.1]);
            corners[corner] = [old.0, old.1];
        }
        count
    }

    /// The tables as they were first prepared: the corners handed in, and for a plan in range the smallest boxes round them.
    pub fn as_prepared(&self) -> Prepared {
        let mut first = self.left.clone();
        first.state.undo_depth = 0;
        let given = &self.handed.coordinates;
        first.tables.corners[..given.len()].copy_from_slice(given);
        if self.handed.in_range() {
            first.tables.boxes = smallest_boxes(&self.handed, &first.tables);
        }
        first
    }
}

// ---- writing

impl Display for Stored {
    fn fmt(&self, f: &mut Formatter<'_>) -> fmt::Result {
        let Prepared {
            state,
            tables,
            nodes,
        } = &self.left;
        writeln!(f, "sort {}", self.sort)?;
        self.write_handed(f)?;
        self.write_calls(f)?;
        let numbers = [
            state.kind,
            state.out_of_range,
            state.corners,
            state.rings,
            state.polygons,
            state.undo_depth,
        ];
        write_line(f, "state", &numbers)?;
        write_line(f, "nodes", &[*nodes])?;
        write_table(f, "corners", LENT, single(&tables.corners))?;
        write_table(f, "rings", LENT_COUNT, single(&tables.rings))?;
        write_table(f, "polygons", LENT_COUNT, single(&tables.polygons))?;
        write_table(f, "boxes", LENT, &tables.boxes)?;
        write_table(f, "parts", LENT_COUNT, &tables.parts)?;
        write_table(f, "edges", LENT_COUNT, single(&tables.edges))?;
        write_table(f, "undo", LENT, &tables.undo)
    }
}

impl Stored {
    fn write_handed(&self, f: &mut Formatter<'_>) -> fmt::Result {
        let (standing, _) = self.left.tables.corners.as_chunks::<2>();
        let (given, _) = self.handed.coordinates.as_chunks::<2>();
        write_line(f, "lengths", &self.handed.ring_lengths)?;
        write_line(f, "counts", &self.handed.ring_counts)?;
        write!(f, "elsewhere")?;
        for (corner, [x, y]) in given.iter().enumerate() {
            if standing[corner] != [*x, *y] {
                write!(f, " {corner} {x} {y}")?;
            }
        }
        writeln!(f)
    }

    fn write_calls(&self, f: &mut Formatter<'_>) -> fmt::Result {
        write!(f, "calls")?;
        for (call, refusal) in &self.calls {
            match call {
                Call::Move { corner, to: (x, y) } => write!(f, " move {corner} {x} {y} {refusal}")?,
                Call::Undo => write!(f, " undo {refusal}")?,
            }
        }
        writeln!(f)
    }
}

fn write_line<T: Display>(f: &mut Formatter<'_>, name: &str, numbers: &[T]) -> fmt::Result {
    write!(f, "{name}")?;
    for number in numbers {
        write!(f, " {number}")?;
    }
    writeln!(f)
}

/// A table: how many rows were lent, and the rows up to the last that holds something else than it was lent with.
fn write_table<T: Display + PartialEq, const N: usize>(
    f: &mut Formatter<'_>,
    name: &str,
    lent: T,
    rows: &[[T; N]],
) -> fmt::Result {
    let is_written = |row: &[T; N]| row.iter().any(|number| *number != lent);
    let written = rows.iter().rposition(is_written).map_or(0, |last| last + 1);
    write!(f, "{name} {}", rows.len())?;
    for number in rows[..written].as_flattened() {
        write!(f, " {number}")?;
    }
    writeln!(f)
}

/// A table of numbers as one of rows.
fn single<T>(numbers: &[T]) -> &[[T; 1]] {
    numbers.as_chunks().0
}

// ---- reading

/// The sets of a text, which an empty line parts; lines that begin with `#` are passed over.
pub fn read(text: &str) -> Result<Vec<Stored>, String> {
    let lines: Vec<&str> = text.lines().filter(|line| !line.starts_with('#')).collect();
    let blocks = lines.split(|line| line.is_empty());
    blocks
        .filter(|block| !block.is_empty())
        .enumerate()
        .map(|(number, block)| {
            Block::of(block)
                .stored()
                .map_err(|why| format!("set {number}: {why}"))
        })
        .collect()
}

/// A set's lines by their names.
struct Block<'a> {
    lines: BTreeMap<&'a str, &'a str>,
}

impl<'a> Block<'a> {
    fn of(lines: &[&'a str]) -> Block<'a> {
        let named = |line: &&'a str| line.split_once(' ').unwrap_or((line, ""));
        Block {
            lines: lines.iter().map(named).collect(),
        }
    }

    /// The words of a line; none where there is no such line.
    fn words(&self, name: &str) -> Vec<&'a str> {
        let line = self.lines.get(name).copied().unwrap_or_default();
        line.split_ascii_whitespace().collect()
    }

    fn numbers<T: FromStr>(&self, name: &str) -> Result<Vec<T>, String> {
        self.words(name).into_iter().map(number).collect()
    }

    fn table<T: FromStr + Copy, const N: usize>(
        &self,
        name: &str,
        lent: T,
    ) -> Result<Vec<[T; N]>, String> {
        let words = self.words(name);
        let Some((rows, words)) = words.split_first() else {
            return Ok(Vec::new());
        };
        let written: Vec<T> = words
            .iter()
            .map(|word| number(word))
            .collect::<Result<_, _>>()?;
        let (written, over) = written.as_chunks();
        let mut table = vec![[lent; N]; number(rows)?];
        if !over.is_empty() || written.len() > table.len() {
            return Err(format!("the line {name} has a number too many"));
        }
        table[..written.len()].copy_from_slice(written);
        Ok(table)
    }

    fn state(&self) -> Result<State, String> {
        match self.numbers("state")?[..] {
            [kind, out_of_range, corners, rings, polygons, undo_depth] => Ok(State {
                kind,
                out_of_range,
                corners,
                rings,
                polygons,
                undo_depth,
            }),
            _ => Err("a state has six numbers".to_string()),
        }
    }

    /// The tables. Their rows are as wide as they were written, whatever width those of a later delivery have.
    fn tables(&self) -> Result<Tables, String> {
        Ok(Tables {
            corners: self.table::<_, 1>("corners", LENT)?.into_flattened(),
            rings: self.table::<_, 1>("rings", LENT_COUNT)?.into_flattened(),
            polygons: self.table::<_, 1>("polygons", LENT_COUNT)?.into_flattened(),
            boxes: self.table::<_, 4>("boxes", LENT)?,
            parts: self.table::<_, 3>("parts", LENT_COUNT)?,
            edges: self.table::<_, 1>("edges", LENT_COUNT)?.into_flattened(),
            undo: self.table::<_, 3>("undo", LENT)?,
        })
    }

    /// The plan that was handed in: the corners that stand, but for those that stood elsewhere.
    fn handed(&self, left: &Prepared) -> Result<Plan, String> {
        let length = 2 * left.state.corners as usize;
        let standing = left.tables.corners.get(..length);
        let mut coordinates = standing.ok_or("a corner is missing")?.to_vec();
        let elsewhere: Vec<i64> = self.numbers("elsewhere")?;
        for &[corner, x, y] in elsewhere.as_chunks().0 {
            let place = coordinates.as_chunks_mut::<2>().0.get_mut(corner as usize);
            *place.ok_or("no such corner stood elsewhere")? = [x, y];
        }
        Ok(Plan {
            kind: match left.state.kind {
                0 => Kind::List,
                _ => Kind::Tree,
            },
            coordinates,
            ring_lengths: self.numbers("lengths")?,
            ring_counts: self.numbers("counts")?,
        })
    }

    fn calls(&self) -> Result<Vec<(Call, u64)>, String> {
        let words = self.words("calls");
        let mut rest = words.as_slice();
        let mut calls = Vec::new();
        loop {
            rest = match rest {
                [] => return Ok(calls),
                ["move", corner, x, y, refusal, after @ ..] => {
                    let corner = number(corner)?;
                    let to = (number(x)?, number(y)?);
                    calls.push((Call::Move { corner, to }, number(refusal)?));
                    after
                }
                ["undo", refusal, after @ ..] => {
                    calls.push((Call::Undo, number(refusal)?));
                    after
                }
                [other, ..] => return Err(format!("there is no call {other}")),
            };
        }
    }

    fn stored(&self) -> Result<Stored, String> {
        let nodes = self.numbers("nodes")?;
        let left = Prepared {
            state: self.state()?,
            tables: self.tables()?,
            nodes: *nodes.first().ok_or("the number of nodes is missing")?,
        };
        Ok(Stored {
            sort: self.words("sort").join(" "),
            handed: self.handed(&left)?,
            calls: self.calls()?,
            left,
        })
    }
}

fn number<T: FromStr>(word: &str) -> Result<T, String> {
    word.parse()
        .map_err(|_| format!("{word} is no number of its table"))
}
