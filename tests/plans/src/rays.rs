//! Which of the four rays a look-up through the boxes takes, by item 6.

use crate::plan::{Mode, Plan, Query};

/// A ray, in item 6's order of ties.
#[derive(Clone, Copy, Debug, PartialEq, Eq, PartialOrd, Ord)]
pub enum Ray {
    Right = 0,
    Left = 1,
    Up = 2,
    Down = 3,
}

/// The rays in item 6's order.
pub const RAYS: [Ray; 4] = [Ray::Right, Ray::Left, Ray::Up, Ray::Down];

/// Chooses rays over the box round all corners of a plan.
pub struct Chooser {
    sides: Option<[i128; 4]>,
}

impl Chooser {
    /// The box of a plan: least x, least y, greatest x, greatest y.
    pub fn of(plan: &Plan) -> Chooser {
        let axis = |first: usize| {
            let values = plan.coordinates.iter().copied().skip(first).step_by(2);
            Some((values.clone().min()?, values.max()?))
        };
        let sides = axis(0).zip(axis(1)).map(|((left, right), (bottom, top))| {
            [left.into(), bottom.into(), right.into(), top.into()]
        });
        Chooser { sides }
    }

    /// The ray with the least way to its side of the box, the first of several; right if there are no edges.
    pub fn ray(&self, query: &Query) -> Ray {
        let Some([left, bottom, right, top]) = self.sides else {
            return Ray::Right;
        };
        let scale = match query.mode {
            Mode::Grid => 1,
            Mode::Doubled => 2,
        };
        let (x, y) = (i128::from(query.x), i128::from(query.y));
        let ways = [
            scale * right - x,
            x - scale * left,
            scale * top - y,
            y - scale * bottom,
        ];
        let least = (0..4).min_by_key(|&ray| ways[ray]);
        RAYS[least.unwrap_or_default()]
    }
}
