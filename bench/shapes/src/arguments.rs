//! The arguments that a benchmark takes: which shapes and sizes, and whether it is to be quick.

use crate::MAX_CORNERS;

/// What a benchmark has to choose from.
pub struct Choice<'a> {
    /// The names of its shapes, in the order of its tables.
    pub shapes: &'a [&'static str],
    /// The sizes that are taken where none is named.
    pub sizes: &'a [usize],
}

/// What the arguments ask for.
pub struct Wanted {
    pub quick: bool,
    /// Names of shapes, in the order of the tables.
    pub shapes: Vec<&'static str>,
    pub sizes: Vec<usize>,
}

impl Choice<'_> {
    /// What the arguments mean.
    pub fn help(&self) -> String {
        let sizes: Vec<String> = self.sizes.iter().map(usize::to_string).collect();
        let lines = [
            "  --quick          one short repetition of each: the figures say little".to_string(),
            format!(
                "  --shape NAME     this shape alone, or these: {}",
                self.names()
            ),
            format!(
                "  --size CORNERS   this size alone, or these, where the ceilings allow it: {} if none is named",
                sizes.join(", ")
            ),
        ];
        lines.join("\n")
    }

    fn names(&self) -> String {
        self.shapes.join(", ")
    }

    /// What is asked for; nothing but help where that is.
    pub fn wanted(
        &self,
        mut arguments: impl Iterator<Item = String>,
    ) -> Result<Option<Wanted>, String> {
        let (mut quick, mut shapes, mut sizes) = (false, Vec::new(), Vec::new());
        while let Some(argument) = arguments.next() {
            let mut value = || arguments.next().ok_or(format!("{argument} wants a value"));
            match argument.as_str() {
                "--help" => return Ok(None),
                "--quick" => quick = true,
                "--shape" => shapes.push(self.shape(&value()?)?),
                "--size" => sizes.push(size(&value()?)?),
                _ => return Err(format!("unknown argument {argument}")),
            }
        }
        if sizes.is_empty() {
            sizes = self.sizes.to_vec();
        }
        let chosen = |shape: &&str| shapes.is_empty() || shapes.contains(shape);
        Ok(Some(Wanted {
            quick,
            shapes: self.shapes.iter().copied().filter(chosen).collect(),
            sizes,
        }))
    }

    /// The shape of that name.
    fn shape(&self, name: &str) -> Result<&'static str, String> {
        let named = self.shapes.iter().find(|shape| **shape == name);
        let refusal = || format!("no shape is called {name}: there are {}", self.names());
        named.copied().ok_or_else(refusal)
    }
}

/// A number of corners for which each shape has a corner and a ring, and that no plan exceeds.
fn size(number: &str) -> Result<usize, String> {
    match number.parse() {
        Ok(size) if (64..=MAX_CORNERS).contains(&size) => Ok(size),
        _ => Err(format!(
            "{number} is no number of corners from 64 to {MAX_CORNERS}"
        )),
    }
}
