//! Every call that is asked at points, ours and the limit's, as C calls them: with the same parameters, and with buffers of its own.

use crate::inputs::{sample, Surface};
use crate::lines::{ACCEPTED, CELL};
use crate::points::Call;
use std::hint::black_box;

macro_rules! calls {
    ($($kind:ident $parameters:tt = $($name:ident),*;)*) => {
        $(
            pub type $kind = unsafe extern "C" fn $parameters -> usize;
            extern "C" {
                $(pub fn $name $parameters -> usize;)*
            }
        )*
    };
}

/// The start of a slice that is read, or written.
type In<T> = *const T;
type Out<T> = *mut T;

#[rustfmt::skip]
calls! {
    One (
        _: usize, _: In<usize>, _: usize, _: In<u8>, _: usize, _: In<f64>, _: usize, _: In<f64>, _: usize, _: In<f64>, _: usize,
        _: Out<f64>, _: usize, _: Out<usize>, _: usize)
        = hullashlar_query, limit_query, hullashlar_quick_query, limit_quick_query, hullashlar_direct_query, limit_direct_query,
        hullashlar_stepped, limit_stepped;
    Many (
        _: usize, _: In<usize>, _: usize, _: In<u8>, _: usize, _: In<f64>, _: usize, _: In<f64>, _: usize, _: In<f64>, _: usize,
        _: Out<f64>, _: usize, _: Out<usize>, _: usize, _: Out<usize>, _: usize)
        = hullashlar_quick_queries, limit_quick_query_many, hullashlar_direct_queries, limit_direct_query_many, hullashlar_stepped_many;
    Even (
        _: usize, _: In<usize>, _: usize, _: In<u8>, _: usize, _: In<f64>, _: usize, _: In<f64>, _: usize, _: In<f64>, _: usize,
        _: Out<f64>, _: usize, _: Out<usize>, _: usize, _: Out<usize>, _: usize)
        = hullashlar_even_query, limit_even_query;
    Profile (_: usize, _: In<usize>, _: usize, _: In<f64>, _: usize, _: Out<usize>, _: usize) = hullashlar_even_profile;
    Curve (_: usize, _: In<f64>, _: usize, _: In<f64>, _: usize, _: In<f64>, _: usize, _: f64, _: Out<f64>, _: usize)
        = hullashlar_curve, limit_curve;
    Slopes (_: usize, _: In<f64>, _: usize, _: In<f64>, _: usize, _: In<f64>, _: usize, _: Out<f64>, _: usize)
        = hullashlar_slopes, limit_slopes;
    Moments (
        _: usize, _: In<f64>, _: usize, _: In<f64>, _: usize, _: In<u8>, _: usize, _: In<f64>, _: usize, _: Out<f64>, _: usize,
        _: Out<f64>, _: usize)
        = hullashlar_moments, limit_moments;
    ExactIndex (_: usize, _: In<f64>, _: usize, _: usize, _: f64, _: Out<usize>, _: usize) = hullashlar_exact_index, limit_exact_index;
    LocateAxis (_: usize, _: In<f64>, _: usize, _: f64, _: Out<usize>, _: usize, _: Out<f64>, _: usize)
        = hullashlar_locate_axis, limit_locate_axis;
    LocateStepIndex (_: usize, _: In<f64>, _: usize, _: u8, _: f64, _: Out<usize>, _: usize)
        = hullashlar_locate_step_index, limit_locate_step_index;
    CellValue (_: i32, _: i32, _: i32, _: i32, _: i32, _: Out<i32>, _: usize) = hullashlar_cell_value, limit_cell_value;
    CursorNext (_: In<u8>, _: usize, _: Out<u32>, _: usize, _: Out<i32>, _: usize) = hullashlar_cursor_next, limit_cursor_next;
}

/// What is asked on a surface: its tensor in its modes, or its samples in directions.
pub struct Given {
    bytes: [u8; 4],
    numbers: Vec<f64>,
}

pub fn tensor(surface: &Surface) -> Given {
    Given {
        bytes: surface.axes.modes,
        numbers: surface.tensor().iter().copied().collect(),
    }
}

/// Downward and upward in turn.
pub fn samples(surface: &Surface) -> Given {
    Given {
        bytes: [0, 1, 0, 1],
        numbers: surface.samples.clone(),
    }
}

#[rustfmt::skip]
pub fn one<'a>(surface: &'a Surface, given: Given, call: One) -> Call<'a> {
    let Given { bytes, numbers } = given;
    let (mut value, mut labels) = ([0.0], [0; 4]);
    Box::new(move |point| {
        let Surface { axes, knots, .. } = surface;
        // SAFETY: every pointer is that of a slice that is there, with its own length behind it.
        let refusal = unsafe {
            call(
                axes.count, axes.points.as_ptr(), 4, bytes.as_ptr(), 4, knots.as_ptr(), knots.len(), numbers.as_ptr(), numbers.len(),
                point.as_ptr(), point.len(), value.as_mut_ptr(), 1, labels.as_mut_ptr(), 4,
            )
        };
        assert_eq!(refusal, 0, "{ACCEPTED}");
        value[0]
    })
}

/// So many points at most by one call. The limit's refusals are bytes, for which a buffer of words is long enough.
#[rustfmt::skip]
pub fn many<'a>(surface: &'a Surface, given: Given, most: usize, call: Many) -> Call<'a> {
    let Given { bytes, numbers } = given;
    let (mut values, mut labels, mut refusals) = (vec![0.0; most], vec![0; 4 * most], vec![0; most]);
    Box::new(move |points| {
        let Surface { axes, knots, .. } = surface;
        let count = points.len() / axes.count;
        // SAFETY: as above; the buffers are at least as long as it is said.
        let refusal = unsafe {
            call(
                axes.count, axes.points.as_ptr(), 4, bytes.as_ptr(), 4, knots.as_ptr(), knots.len(), numbers.as_ptr(), numbers.len(),
                points.as_ptr(), points.len(), values.as_mut_ptr(), count, labels.as_mut_ptr(), 4 * count,
                refusals.as_mut_ptr(), count,
            )
        };
        assert_eq!(refusal, 0, "{ACCEPTED}");
        values[count - 1]
    })
}

/// Many points by a call for each.
pub fn one_by_one<'a>(surface: &'a Surface, mut call: Call<'a>) -> Call<'a> {
    Box::new(move |points| {
        let each = points.chunks(surface.axes.count);
        each.fold(0.0, |_, point| call(point))
    })
}

#[rustfmt::skip]
pub fn even(surface: &Surface, call: Even) -> Call<'_> {
    let Given { bytes, numbers } = tensor(surface);
    let (mut value, mut labels, mut uneven) = ([0.0], [0; 4], [0; 2]);
    Box::new(move |point| {
        let Surface { axes, knots, .. } = surface;
        // SAFETY: as above.
        let refusal = unsafe {
            call(
                axes.count, axes.points.as_ptr(), 4, bytes.as_ptr(), 4, knots.as_ptr(), knots.len(), numbers.as_ptr(), numbers.len(),
                point.as_ptr(), point.len(), value.as_mut_ptr(), 1, labels.as_mut_ptr(), 4, uneven.as_mut_ptr(), 2,
            )
        };
        assert_eq!(refusal, 0, "{ACCEPTED}");
        value[0]
    })
}

/// It is given no point, and has no value.
#[rustfmt::skip]
pub fn profile(surface: &Surface, call: Profile) -> Call<'_> {
    let mut told = [0; 2];
    Box::new(move |_| {
        let Surface { axes, knots, .. } = surface;
        // SAFETY: as above.
        let refusal = unsafe { call(axes.count, axes.points.as_ptr(), 4, knots.as_ptr(), knots.len(), told.as_mut_ptr(), 2) };
        assert_eq!(refusal, 0, "{ACCEPTED}");
        0.0
    })
}

pub fn without_its_value(mut call: Call<'_>) -> Call<'_> {
    Box::new(move |point| {
        black_box(call(point));
        0.0
    })
}

#[rustfmt::skip]
pub fn curve(line: &Surface, call: Curve) -> Call<'_> {
    let moments = line.moments();
    let mut value = [0.0];
    Box::new(move |point| {
        let Surface { knots, samples, .. } = line;
        let n = knots.len();
        // SAFETY: as above.
        let refusal = unsafe {
            call(n, knots.as_ptr(), n, samples.as_ptr(), n, moments.as_ptr(), n, point[0], value.as_mut_ptr(), 1)
        };
        assert_eq!(refusal, 0, "{ACCEPTED}");
        value[0]
    })
}

#[rustfmt::skip]
pub fn slopes(line: &Surface, call: Slopes) -> Call<'_> {
    let moments = line.moments();
    let mut slopes = vec![0.0; line.knots.len()];
    Box::new(move |_| {
        let Surface { knots, samples, .. } = line;
        let n = knots.len();
        // SAFETY: as above.
        let refusal = unsafe {
            call(n, knots.as_ptr(), n, samples.as_ptr(), n, moments.as_ptr(), n, slopes.as_mut_ptr(), n)
        };
        assert_eq!(refusal, 0, "{ACCEPTED}");
        slopes[n - 1]
    })
}

#[rustfmt::skip]
pub fn moments(line: &Surface, call: Moments) -> Call<'_> {
    let mut moments = vec![0.0; line.knots.len()];
    let mut scratch = line.scratch();
    Box::new(move |_| {
        let Surface { axes, knots, samples, .. } = line;
        let n = knots.len();
        // SAFETY: as above.
        let refusal = unsafe {
            call(
                n, knots.as_ptr(), n, samples.as_ptr(), n, axes.kinds.as_ptr(), 2, axes.values.as_ptr(), 2,
                moments.as_mut_ptr(), n, scratch.as_mut_ptr(), scratch.len(),
            )
        };
        assert_eq!(refusal, 0, "{ACCEPTED}");
        moments[n - 1]
    })
}

pub fn exact(line: &Surface, call: ExactIndex) -> Call<'_> {
    let mut found = [0; 2];
    Box::new(move |point| {
        let knots = &line.knots;
        let n = knots.len();
        // SAFETY: as above.
        let refusal = unsafe { call(n, knots.as_ptr(), n, n / 2, point[0], found.as_mut_ptr(), 2) };
        assert_eq!(refusal, 0, "{ACCEPTED}");
        found[0] as f64
    })
}

#[rustfmt::skip]
pub fn location(line: &Surface, call: LocateAxis) -> Call<'_> {
    let (mut place, mut fraction) = ([0; 2], [0.0]);
    Box::new(move |point| {
        let knots = &line.knots;
        let n = knots.len();
        // SAFETY: as above.
        let refusal = unsafe { call(n, knots.as_ptr(), n, point[0], place.as_mut_ptr(), 2, fraction.as_mut_ptr(), 1) };
        assert_eq!(refusal, 0, "{ACCEPTED}");
        place[1] as f64 + fraction[0]
    })
}

/// Downward.
pub fn step(line: &Surface, call: LocateStepIndex) -> Call<'_> {
    let mut index = [0];
    Box::new(move |point| {
        let knots = &line.knots;
        let n = knots.len();
        // SAFETY: as above.
        let refusal = unsafe { call(n, knots.as_ptr(), n, 0, point[0], index.as_mut_ptr(), 1) };
        assert_eq!(refusal, 0, "{ACCEPTED}");
        index[0] as f64
    })
}

/// At a position that the first coordinate says.
pub fn cell<'a>(call: CellValue) -> Call<'a> {
    let [p0, p1, d0, d1] = CELL;
    let mut value = [0];
    Box::new(move |point| {
        let position = point[0] as i32 * 977 % 257;
        // SAFETY: as above.
        let refusal = unsafe { call(p0, p1, d0, d1, position, value.as_mut_ptr(), 1) };
        assert_eq!(refusal, 0, "{ACCEPTED}");
        f64::from(value[0])
    })
}

/// From cell to cell, as the first coordinate says.
#[rustfmt::skip]
pub fn cursor<'a>(cells: usize, call: CursorNext) -> Call<'a> {
    let numbers = (0..4 * cells).map(|number| sample(number) as i32);
    let bytes: Vec<u8> = numbers.flat_map(i32::to_le_bytes).collect();
    let mut value = [0];
    Box::new(move |point| {
        let mut cursor = [point[0] as u32 * 977 % (256 * cells as u32)];
        // SAFETY: as above.
        let refusal = unsafe { call(bytes.as_ptr(), bytes.len(), cursor.as_mut_ptr(), 1, value.as_mut_ptr(), 1) };
        assert_eq!(refusal, 0, "{ACCEPTED}");
        f64::from(value[0])
    })
}
