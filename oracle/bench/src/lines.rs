//! The lines of the table: what we measure, and what it is held against. Each
//! side keeps its buffers from call to call, and nothing is cleared between.

use crate::hullashlar::{self, BUFFER, LONGEST_TENSOR, SCRATCH};
use crate::inputs::{Inputs, Surface, CHANGED};
use ninterp_quick::{
    compute_corner_cache, compute_m, evaluate_spline_corner_cached, evaluate_spline_from_m,
    exact_index, knot_derivatives_from_m, locate_axis, locate_step_index, AxisLocation,
    CubicC2BoundaryConditions, StepDirection,
};
use std::hint::black_box;

/// One call, and the last number of its outcome.
pub type Work<'a> = Box<dyn FnMut() -> f64 + 'a>;

/// Two pieces of work that end in the same bits.
pub struct Line<'a> {
    pub name: &'static str,
    pub held_against: &'static str,
    pub ours: Work<'a>,
    pub other: Work<'a>,
}

const THE_RUST: &str = "the Rust's";
const OUR_QUERY: &str = "our query";
const OUR_TWO_CALLS: &str = "our sheet's tensor, and then our query";
const OUR_BUILD: &str = "our fresh build";
const RUST_BUILD: &str = "the Rust's fresh build";
const RUST_COMPARED: &str = "the Rust's fresh build, and its numbers compared";
const THE_ORACLE: &str = "the oracle's reader";
const ORACLE_WRITER: &str = "the oracle's writer";
const OUR_READER: &str = "our reading of it";
const RUST_STEPS: &str = "the Rust's steps";
const HERMITE: &str = "a Hermite in f64";
const OUR_CELL: &str = "our cell";

/// Why no measured call is refused.
pub const ACCEPTED: &str = "the inputs are good ones";

/// Every line, in the order of the table.
pub fn lines(inputs: &Inputs) -> Vec<Line<'_>> {
    let mut lines = Vec::new();
    lines.extend(builds(inputs));
    lines.extend(queries(inputs));
    lines.extend(quick_queries(inputs));
    lines.extend(even_queries(inputs));
    lines.extend(even_profiles(inputs));
    lines.extend(changes(inputs));
    lines.extend(verifications(inputs));
    lines.extend([
        moments(&inputs.line_of_256),
        slopes(&inputs.line_of_256),
        curve("curve, 16", &inputs.line_of_16),
        curve("curve, 256", &inputs.line_of_256),
        read(&inputs.two_axes),
        exact(&inputs.line_of_256),
        location("location, 16", &inputs.line_of_16),
        location("location, 256", &inputs.line_of_256),
        step("index of a step, 16", &inputs.line_of_16),
        step("index of a step, 256", &inputs.line_of_256),
        stepped("stepped, 16×16", &inputs.two_axes),
        stepped("stepped, 4×4×4×4", &inputs.four_axes),
        stepped_many("stepped at 64 points, 16×16", &inputs.two_axes),
        stepped_many("stepped at 64 points, 4×4×4×4", &inputs.four_axes),
        cell(),
        cursor("step of a cursor, 1 cell", 1),
        cursor("step of a cursor, 255 cells", 255),
    ]);
    lines.extend(writes(&inputs.two_axes));
    lines.extend(surfaces(inputs));
    lines
}

fn builds(inputs: &Inputs) -> [Line<'_>; 5] {
    let line = |name, surface| Line {
        name,
        held_against: THE_RUST,
        ours: our_build(surface),
        other: rust_build(surface),
    };
    [
        line("build, 16×16 natural", &inputs.two_axes),
        line("build, 16×16 periodic", &inputs.two_axes_periodic),
        line("build, 6×6×6 not-a-knot", &inputs.three_axes),
        line("build, 4×4×4×4 natural", &inputs.four_axes),
        line("build, one axis of 256 natural", &inputs.line_of_256),
    ]
}

pub fn our_build(surface: &Surface) -> Work<'_> {
    let mut tensor = vec![0.0; surface.axes.tensor_length()];
    let mut scratch = surface.scratch();
    Box::new(move || {
        let Surface {
            axes,
            knots,
            samples,
            ..
        } = surface;
        hullashlar::build(axes, knots, samples, &mut tensor, &mut scratch).expect(ACCEPTED);
        tensor[tensor.len() - 1]
    })
}

fn rust_build(surface: &Surface) -> Work<'_> {
    let knots = surface.knots_by_axis();
    let grid = surface.grid();
    let conditions = surface.conditions();
    Box::new(move || {
        let tensor = compute_corner_cache(&knots, grid.view(), &conditions);
        *tensor.last().expect("a tensor has numbers")
    })
}

fn queries(inputs: &Inputs) -> [Line<'_>; 5] {
    let line = |name, surface| Line {
        name,
        held_against: THE_RUST,
        ours: our_query(surface),
        other: rust_query(surface),
    };
    [
        line("query, 16", &inputs.line_of_16),
        line("query, 16×16", &inputs.two_axes),
        line("query, 6×6×6", &inputs.three_axes),
        line("query, 4×4×4×4", &inputs.four_axes),
        line("query, one axis of 256", &inputs.line_of_256),
    ]
}

pub fn our_query(surface: &Surface) -> Work<'_> {
    let tensor: Vec<f64> = surface.tensor().iter().copied().collect();
    let point = surface.middle_point();
    Box::new(move || {
        let answer = hullashlar::query(&surface.axes, &surface.knots, &tensor, &point);
        answer.expect(ACCEPTED).0
    })
}

/// Each beside the Rust's query, and beside ours. A line of two points needs no halving.
fn quick_queries(inputs: &Inputs) -> Vec<Line<'_>> {
    let measured = [
        ("quick query, 2", &inputs.line_of_2),
        ("quick query, 16", &inputs.line_of_16),
        ("quick query, 16×16", &inputs.two_axes),
        ("quick query, 6×6×6", &inputs.three_axes),
        ("quick query, 4×4×4×4", &inputs.four_axes),
        ("quick query, one axis of 256", &inputs.line_of_256),
    ];
    let line = |(name, surface), held_against, other| Line {
        name,
        held_against,
        ours: our_quick_query(surface),
        other,
    };
    let rust = measured.map(|each| line(each, THE_RUST, rust_query(each.1)));
    let full = measured.map(|each| line(each, OUR_QUERY, our_query(each.1)));
    rust.into_iter().chain(full).collect()
}

pub fn our_quick_query(surface: &Surface) -> Work<'_> {
    let tensor: Vec<f64> = surface.tensor().iter().copied().collect();
    let point = surface.middle_point();
    Box::new(move || {
        let answer = hullashlar::quick_query(&surface.axes, &surface.knots, &tensor, &point);
        answer.expect(ACCEPTED).0
    })
}

/// Each beside our query on the same even knots; the point lies within a cell, so that both
/// find the same one.
fn even_queries(inputs: &Inputs) -> [Line<'_>; 5] {
    let names = [
        "even query, 16",
        "even query, one axis of 256",
        "even query, 16×16",
        "even query, 6×6×6",
        "even query, 4×4×4×4",
    ];
    let mut names = names.into_iter();
    inputs.even_surfaces().map(|surface| Line {
        name: names.next().expect("every even surface has a name"),
        held_against: OUR_QUERY,
        ours: our_even_query(surface),
        other: our_query(surface),
    })
}

/// Each beside our query of even axes on the same knots, which looks at them as well.
fn even_profiles(inputs: &Inputs) -> [Line<'_>; 5] {
    let names = [
        "even profile, 16",
        "even profile, one axis of 256",
        "even profile, 16×16",
        "even profile, 6×6×6",
        "even profile, 4×4×4×4",
    ];
    let mut names = names.into_iter();
    inputs.even_surfaces().map(|surface| Line {
        name: names.next().expect("every even surface has a name"),
        held_against: "our even query",
        ours: our_even_profile(surface),
        other: without_its_value(our_even_query(surface)),
    })
}

fn without_its_value(mut work: Work<'_>) -> Work<'_> {
    Box::new(move || {
        black_box(work());
        0.0
    })
}

fn our_even_profile(surface: &Surface) -> Work<'_> {
    Box::new(move || {
        let looked = hullashlar::even_profile(&surface.axes, &surface.knots);
        looked.expect(ACCEPTED);
        0.0
    })
}

fn our_even_query(surface: &Surface) -> Work<'_> {
    let tensor: Vec<f64> = surface.tensor().iter().copied().collect();
    let point = surface.middle_point();
    Box::new(move || {
        let answer = hullashlar::even_query(&surface.axes, &surface.knots, &tensor, &point);
        answer.expect(ACCEPTED).0
    })
}

fn rust_query(surface: &Surface) -> Work<'_> {
    let knots = surface.knots_by_axis();
    let tensor = surface.tensor();
    let point = surface.middle_point();
    Box::new(move || evaluate_spline_corner_cached(&knots, tensor.view(), &point))
}

fn changes(inputs: &Inputs) -> [Line<'_>; 4] {
    let two_axes = (&inputs.two_axes, &inputs.two_axes_changed);
    let four_axes = (&inputs.four_axes, &inputs.four_axes_changed);
    let line = |name, held_against, surface, other| Line {
        name,
        held_against,
        ours: our_change(surface),
        other,
    };
    let of_16 = "change, middle of 16×16";
    let of_4 = "change, middle of 4×4×4×4";
    [
        line(of_16, RUST_BUILD, two_axes.0, rust_build(two_axes.1)),
        line(of_4, RUST_BUILD, four_axes.0, rust_build(four_axes.1)),
        line(of_16, OUR_BUILD, two_axes.0, our_build(two_axes.1)),
        line(of_4, OUR_BUILD, four_axes.0, our_build(four_axes.1)),
    ]
}

pub fn our_change(surface: &Surface) -> Work<'_> {
    let mut tensor: Vec<f64> = surface.tensor().iter().copied().collect();
    let mut scratch = surface.scratch();
    let place = surface.middle_place();
    Box::new(move || {
        let Surface { axes, knots, .. } = surface;
        hullashlar::change(axes, knots, &mut tensor, &mut scratch, place, CHANGED).expect(ACCEPTED);
        tensor[tensor.len() - 1]
    })
}

/// Whole tensors, of which every number is compared: each beside the Rust, and two beside our build.
fn verifications(inputs: &Inputs) -> [Line<'_>; 7] {
    let beside = |name, held_against, surface, other| Line {
        name,
        held_against,
        ours: our_verify(surface),
        other,
    };
    let line = |name, surface| beside(name, RUST_COMPARED, surface, rust_verify(surface));
    let build = |name, surface| beside(name, OUR_BUILD, surface, our_build(surface));
    let of_16 = "verify, 16×16 natural";
    let of_4 = "verify, 4×4×4×4 natural";
    [
        line(of_16, &inputs.two_axes),
        line("verify, 16×16 periodic", &inputs.two_axes_periodic),
        line("verify, 6×6×6 not-a-knot", &inputs.three_axes),
        line(of_4, &inputs.four_axes),
        line("verify, one axis of 256 natural", &inputs.line_of_256),
        build(of_16, &inputs.two_axes),
        build(of_4, &inputs.four_axes),
    ]
}

pub fn our_verify(surface: &Surface) -> Work<'_> {
    let tensor: Vec<f64> = surface.tensor().iter().copied().collect();
    let mut scratch = surface.scratch();
    Box::new(move || {
        let Surface { axes, knots, .. } = surface;
        let stale = hullashlar::verify(axes, knots, &tensor, &mut scratch).expect(ACCEPTED);
        assert!(stale.is_none(), "{ACCEPTED}");
        tensor[tensor.len() - 1]
    })
}

fn rust_verify(surface: &Surface) -> Work<'_> {
    let knots = surface.knots_by_axis();
    let conditions = surface.conditions();
    let tensor: Vec<f64> = surface.tensor().iter().copied().collect();
    Box::new(move || {
        let samples = tensor.iter().step_by(1 << surface.axes.count);
        let grid = surface.grid_of(samples.copied().collect());
        let fresh = compute_corner_cache(&knots, grid.view(), &conditions);
        let mut pairs = tensor.iter().zip(fresh.iter());
        let whole = pairs.all(|(number, fresh)| number.to_bits() == fresh.to_bits());
        assert!(whole, "{ACCEPTED}");
        tensor[tensor.len() - 1]
    })
}

fn moments(line: &Surface) -> Line<'_> {
    let Surface { knots, samples, .. } = line;
    let mut moments = vec![0.0; knots.len()];
    let mut scratch = vec![0.0; SCRATCH];
    let natural = CubicC2BoundaryConditions::second_derivative(0.0, 0.0);
    Line {
        name: "moments, 256 natural",
        held_against: THE_RUST,
        ours: Box::new(move || {
            hullashlar::moments(
                knots,
                samples,
                [2, 2],
                [0.0, 0.0],
                &mut moments,
                &mut scratch,
            )
            .expect(ACCEPTED);
            moments[moments.len() / 2]
        }),
        other: Box::new(move || {
            let moments = compute_m(knots, samples, &natural);
            moments[moments.len() / 2]
        }),
    }
}

fn slopes(line: &Surface) -> Line<'_> {
    let Surface { knots, samples, .. } = line;
    let moments = line.moments();
    let moments_again = moments.clone();
    let mut slopes = vec![0.0; knots.len()];
    Line {
        name: "knot slopes, 256",
        held_against: THE_RUST,
        ours: Box::new(move || {
            hullashlar::slopes(knots, samples, &moments, &mut slopes).expect(ACCEPTED);
            slopes[slopes.len() - 1]
        }),
        other: Box::new(move || {
            let slopes = knot_derivatives_from_m(knots, samples, &moments_again);
            slopes[slopes.len() - 1]
        }),
    }
}

fn curve<'a>(name: &'static str, line: &'a Surface) -> Line<'a> {
    let Surface { knots, samples, .. } = line;
    let moments = line.moments();
    let moments_again = moments.clone();
    let point = line.middle_point()[0];
    Line {
        name,
        held_against: THE_RUST,
        ours: Box::new(move || hullashlar::curve(knots, samples, &moments, point).expect(ACCEPTED)),
        other: Box::new(move || evaluate_spline_from_m(knots, samples, &moments_again, point)),
    }
}

/// There is no sheet in the Rust: the other side is the oracle's own reader.
fn read(surface: &Surface) -> Line<'_> {
    let sheet = surface.sheet();
    let last = surface.samples.len() - 1;
    let (mut knots, mut samples) = ([0.0; BUFFER], [0.0; BUFFER]);
    Line {
        name: "reading the sheet of 16×16",
        held_against: THE_ORACLE,
        ours: our_read(surface),
        other: Box::new(move || {
            oracle_read(&sheet, &mut knots, &mut samples);
            samples[last]
        }),
    }
}

pub fn our_read(surface: &Surface) -> Work<'_> {
    let sheet = surface.sheet();
    let last = surface.samples.len() - 1;
    let (mut knots, mut samples) = ([0.0; BUFFER], [0.0; BUFFER]);
    Box::new(move || {
        hullashlar::read(&sheet, &mut knots, &mut samples).expect(ACCEPTED);
        samples[last]
    })
}

fn oracle_read(sheet: &[u8], knots: &mut [f64], samples: &mut [f64]) {
    let (mut axes, mut points, mut kinds, mut values) = ([0], [0; 4], [0; 8], [0.0; 8]);
    let refusal = reading::read(
        sheet,
        knots,
        samples,
        &mut axes,
        &mut points,
        &mut kinds,
        &mut values,
        &mut [0; 4],
        &mut [0],
    );
    assert_eq!(refusal, 0, "{ACCEPTED}");
}

/// The one call for firmware beside the two calls that answer the same.
fn surfaces(inputs: &Inputs) -> [Line<'_>; 4] {
    let line = |name, surface| Line {
        name,
        held_against: OUR_TWO_CALLS,
        ours: our_surface(surface),
        other: our_two_calls(surface),
    };
    [
        line("surface, sheet of 16", &inputs.line_of_16),
        line("surface, sheet of 256", &inputs.line_of_256),
        line("surface, sheet of 8×16", &inputs.small_two_axes),
        line("surface, sheet of 2×2×2×4", &inputs.small_four_axes),
    ]
}

pub fn our_surface(surface: &Surface) -> Work<'_> {
    let sheet = surface.sheet();
    let patterns = surface.middle_patterns();
    Box::new(move || hullashlar::surface(&sheet, patterns).expect(ACCEPTED))
}

fn our_two_calls(surface: &Surface) -> Work<'_> {
    let sheet = surface.sheet();
    let point = surface.middle_point();
    let (mut knots, mut samples) = ([0.0; BUFFER], [0.0; BUFFER]);
    let mut tensor = vec![0.0; LONGEST_TENSOR];
    let mut scratch = surface.scratch();
    Box::new(move || {
        let read =
            hullashlar::sheet_tensor(&sheet, &mut knots, &mut samples, &mut tensor, &mut scratch);
        let (read, length) = read.expect(ACCEPTED);
        let knots = &knots[..read.axes.knots_length()];
        let answer = hullashlar::query(&read.axes, knots, &tensor[..length], &point);
        answer.expect(ACCEPTED).0
    })
}

/// Writing a sheet beside the oracle's writer, and beside our reading of the same sheet.
fn writes(surface: &Surface) -> [Line<'_>; 2] {
    let line = |held_against, other| Line {
        name: "writing the sheet of 16×16",
        held_against,
        ours: our_write(surface),
        other,
    };
    [
        line(ORACLE_WRITER, oracle_write(surface)),
        line(OUR_READER, our_read(surface)),
    ]
}

pub fn our_write(surface: &Surface) -> Work<'_> {
    let Surface {
        axes,
        knots,
        samples,
        edition,
        ..
    } = surface;
    let mut sheet = vec![0; surface.sheet().len()];
    let behind = surface.bits_behind();
    Box::new(move || {
        hullashlar::write(*edition, axes, knots, samples, &mut sheet).expect(ACCEPTED);
        last_sample(&sheet, behind)
    })
}

fn oracle_write(surface: &Surface) -> Work<'_> {
    let Surface {
        axes,
        knots,
        samples,
        edition,
        ..
    } = surface;
    let mut sheet = vec![0; surface.sheet().len()];
    let behind = surface.bits_behind();
    Box::new(move || {
        let refusal = reading::write(
            axes.count,
            &axes.points,
            &axes.kinds,
            &axes.values,
            &axes.modes,
            knots,
            samples,
            *edition,
            &mut sheet,
            &mut [0],
        );
        assert_eq!(refusal, 0, "{ACCEPTED}");
        last_sample(&sheet, behind)
    })
}

/// The last sample of a sheet, behind which there are so many zero bits, fewer than eight.
pub fn last_sample(sheet: &[u8], behind: usize) -> f64 {
    let last = sheet
        .last_chunk::<9>()
        .expect("a sheet of numbers is longer");
    let bits = last
        .iter()
        .fold(0, |bits, byte| bits << 8 | u128::from(*byte));
    f64::from_bits((bits >> behind) as u64)
}

fn exact(line: &Surface) -> Line<'_> {
    let knots = line.knots.as_slice();
    let lower = knots.len() / 2;
    let point = knots[lower + 1];
    let number = |index: Option<usize>| index.map_or(-1.0, |index| index as f64);
    Line {
        name: "exact index, 256",
        held_against: THE_RUST,
        ours: Box::new(move || {
            number(hullashlar::exact_index(knots, lower, point).expect(ACCEPTED))
        }),
        other: Box::new(move || number(exact_index(knots.into(), lower, &point))),
    }
}

fn location<'a>(name: &'static str, line: &'a Surface) -> Line<'a> {
    let knots = line.knots.as_slice();
    let point = line.middle_point()[0];
    Line {
        name,
        held_against: THE_RUST,
        ours: Box::new(
            move || match hullashlar::locate_axis(knots, point).expect(ACCEPTED) {
                hullashlar::Location::Exact(index) => index as f64,
                hullashlar::Location::Between { frac, .. } => frac,
            },
        ),
        other: Box::new(move || match locate_axis(knots.into(), &point) {
            AxisLocation::Exact(index) => index as f64,
            AxisLocation::Between { frac, .. } => frac,
        }),
    }
}

fn step<'a>(name: &'static str, line: &'a Surface) -> Line<'a> {
    let knots = line.knots.as_slice();
    let point = line.middle_point()[0];
    Line {
        name,
        held_against: THE_RUST,
        ours: Box::new(move || {
            hullashlar::locate_step_index(knots, 0, point).expect(ACCEPTED) as f64
        }),
        other: Box::new(move || {
            locate_step_index(StepDirection::Lower, knots.into(), &point) as f64
        }),
    }
}

/// The Rust's surface of steps is in a file that is not here: the other side steps by its function
/// on each axis and takes the sample there.
fn stepped<'a>(name: &'static str, surface: &'a Surface) -> Line<'a> {
    let point = surface.middle_point();
    let point_again = point.clone();
    let knots = surface.knots_by_axis();
    let points = &surface.axes.points;
    Line {
        name,
        held_against: RUST_STEPS,
        ours: Box::new(move || {
            let Surface {
                axes,
                knots,
                samples,
                ..
            } = surface;
            let answer = hullashlar::stepped(axes, [0; 4], knots, samples, &point);
            answer.expect(ACCEPTED).0
        }),
        other: Box::new(move || {
            let axes = knots.iter().zip(&point_again).zip(points);
            let number = axes.fold(0, |number, ((knots, point), points)| {
                number * points + locate_step_index(StepDirection::Lower, *knots, point)
            });
            surface.samples[number]
        }),
    }
}

/// Many points by one call, and each by a call of its own.
fn stepped_many<'a>(name: &'static str, surface: &'a Surface) -> Line<'a> {
    let point = surface.middle_point();
    let coordinates = point.repeat(STEPPED_AT);
    Line {
        name,
        held_against: "our stepped surface, one by one",
        ours: Box::new(move || {
            let (mut values, mut indices) = ([0.0; STEPPED_AT], [0; 4 * STEPPED_AT]);
            let mut refusals = [0; STEPPED_AT];
            let Surface {
                axes,
                knots,
                samples,
                ..
            } = surface;
            let (values, indices) = (&mut values, &mut indices);
            let refusals = &mut refusals;
            let answer = hullashlar::stepped_many(
                axes,
                [0; 4],
                knots,
                samples,
                &coordinates,
                values,
                indices,
                refusals,
            );
            answer.expect(ACCEPTED);
            values.iter().sum()
        }),
        other: Box::new(move || {
            let Surface {
                axes,
                knots,
                samples,
                ..
            } = surface;
            let one = |_| hullashlar::stepped(axes, [0; 4], knots, samples, &point);
            (0..STEPPED_AT).map(|at| one(at).expect(ACCEPTED).0).sum()
        }),
    }
}

/// How many points are stepped at by one call.
const STEPPED_AT: usize = 64;

/// A cell of the device, and a position in it.
pub const CELL: [i32; 4] = [-3_000, 12_345, 90_000, -70_000];
const POSITION: i32 = 100;

/// One value of a cell in doubles, which are exact here, rounded as the device rounds.
fn hermite([p0, p1, d0, d1]: [f64; 4], t: f64) -> f64 {
    let rest = 1.0 - t;
    let (first, last) = (rest * rest, t * t);
    let value = (1.0 + 2.0 * t) * first * p0 + t * first * d0 + last * (3.0 - 2.0 * t) * p1
        - last * rest * d1;
    value.round()
}

fn cell<'a>() -> Line<'a> {
    let numbers = CELL.map(f64::from);
    Line {
        name: "one cell in whole numbers",
        held_against: HERMITE,
        ours: Box::new(|| {
            let (cell, k) = black_box((CELL, POSITION));
            f64::from(hullashlar::cell_value(cell, k).expect(ACCEPTED))
        }),
        other: Box::new(move || {
            let (cell, k) = black_box((numbers, POSITION));
            hermite(cell, f64::from(k) / 256.0)
        }),
    }
}

/// The curve is judged whole at every step, so a step costs more the more cells there are.
fn cursor<'a>(name: &'static str, cells: usize) -> Line<'a> {
    let curve = CELL.map(i32::to_le_bytes).concat().repeat(cells);
    Line {
        name,
        held_against: OUR_CELL,
        ours: Box::new(move || {
            let mut cursor = POSITION as u32;
            f64::from(hullashlar::cursor_next(&curve, &mut cursor).expect(ACCEPTED))
        }),
        other: Box::new(|| {
            let (cell, k) = black_box((CELL, POSITION));
            f64::from(hullashlar::cell_value(cell, k).expect(ACCEPTED))
        }),
    }
}
