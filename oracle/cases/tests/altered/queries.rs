//! A query written anew over flat places.

use super::shape;
use cases::Case;
use reading::{Shape, EXTEND, HOLD};

/// What a query is given, on all axes in use.
pub struct Given<'a> {
    pub shape: Shape<'a>,
    pub modes: &'a [u8],
    pub knots: Vec<&'a [f64]>,
    pub tensor: &'a [f64],
    pub coordinates: &'a [f64],
}

impl<'a> Given<'a> {
    pub fn of(case: &'a Case) -> Self {
        let shape = shape(case);
        Self {
            shape,
            modes: &case.argument("modes").bytes()[..shape.axes()],
            knots: shape.knots_by_axis(case.argument("knots").floats()),
            tensor: case.argument("tensor").floats(),
            coordinates: case.argument("coordinates").floats(),
        }
    }

    /// The value at a point of the cubic in given cells.
    pub fn value_in(&self, cells: &[usize], point: &[f64]) -> f64 {
        let axes = self.knots.iter().zip(cells).zip(point);
        let within = axes.map(|((knots, cell), point)| {
            let width = knots[cell + 1] - knots[*cell];
            (*cell, width, (point - knots[*cell]) / width)
        });
        let within: Vec<(usize, f64, f64)> = within.collect();
        entry(&self.shape, self.tensor, &within, cells.len(), [0; 4], 0)
    }
}

/// The coordinate that is evaluated, or none where the one that is given is refused.
pub fn evaluated(mode: u8, knots: &[f64], point: f64) -> Option<f64> {
    let (first, last) = (knots[0], knots[knots.len() - 1]);
    let nearest = if point < first {
        first
    } else if point > last {
        last
    } else {
        return Some(point);
    };
    match mode {
        EXTEND => Some(point),
        HOLD => Some(nearest),
        _ => None,
    }
}

/// The entry of a mask at a corner of the cell once so many axes are removed.
fn entry(
    shape: &Shape,
    tensor: &[f64],
    cells: &[(usize, f64, f64)],
    removed: usize,
    corner: [usize; 4],
    mask: usize,
) -> f64 {
    if removed == 0 {
        let axes = cells.iter().zip(corner);
        let place: Vec<usize> = axes.map(|((cell, ..), side)| cell + side).collect();
        return tensor[shape.position(&place, mask)];
    }
    let axis = removed - 1;
    let below = |side: usize, slope: usize| {
        let mut corner = corner;
        corner[axis] = side;
        entry(shape, tensor, cells, axis, corner, mask | slope << axis)
    };
    let (_, h, t) = cells[axis];
    let (p0, m0, p1, m1) = (below(0, 0), below(0, 1), below(1, 0), below(1, 1));
    let t2 = t * t;
    let t3 = t2 * t;
    let (h00, h10) = (2.0 * t3 - 3.0 * t2 + 1.0, t3 - 2.0 * t2 + t);
    let (h01, h11) = (-2.0 * t3 + 3.0 * t2, t3 - t2);
    h00 * p0 + h10 * h * m0 + h01 * p1 + h11 * h * m1
}
