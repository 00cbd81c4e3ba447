//! The archive as something that answers calls.

#[path = "../../../rust/hullashlar/src/declared.rs"]
mod declared;

use crate::guarded::{self, lent, lent_mut, lent_narrowed};
use crate::program::printed;
use cases::{integer, refused_by, stopped_by, Argument, Call, Calls, Case};
use declared::*;

/// The archive, which answers every call, and beside it the device's program and the report.
pub struct Archive;

impl Calls for Archive {
    fn begin(&self, title: &str, number: u64) {
        guarded::begin(title, number);
    }

    fn run(&self, case: &mut Case) -> Option<usize> {
        let arguments = case.arguments.as_mut_slice();
        let refusal = match case.call {
            Call::Moments => moments(arguments),
            Call::Curve => curve(arguments),
            Call::Slopes => slopes(arguments),
            Call::Build => build(arguments),
            Call::Change => change(arguments),
            Call::Query => query(arguments),
            Call::QuickQuery => quick_query(arguments),
            Call::EvenQuery => even_query(arguments),
            Call::Read => read(arguments),
            Call::SheetTensor => sheet_tensor(arguments),
            Call::Write => write(arguments),
            Call::ExactIndex => exact_index(arguments),
            Call::LocateAxis => locate_axis(arguments),
            Call::LocateStepIndex => locate_step_index(arguments),
            Call::Stepped => stepped(arguments),
            Call::SteppedMany => stepped_many(arguments),
            Call::CellValue => cell_value(arguments),
            Call::CursorNext => cursor_next(arguments),
            Call::DeviceText => device_text(arguments),
            Call::ReadEdition1 => read_edition_1(arguments),
            Call::Surface => surface(arguments),
            Call::ReportText => report_text(arguments),
            Call::Verify => verify(arguments),
            Call::EvenProfile => even_profile(arguments),
            Call::DirectQuery => direct_query(arguments),
            Call::QuickQueries => quick_queries(arguments),
            Call::DirectQueries => direct_queries(arguments),
            Call::SheetText => sheet_text(arguments),
        };
        guarded::hand_back();
        Some(refusal)
    }
}

#[rustfmt::skip]
fn moments(arguments: &mut [Argument]) -> usize {
    let [points, knots, samples, kinds, values, moments, scratch] = arguments else {
        panic!("a case has the arguments of its call")
    };
    let knots = lent(knots.floats());
    let samples = lent(samples.floats());
    let kinds = lent(kinds.bytes());
    let values = lent(values.floats());
    let moments = lent_mut(moments.floats_mut());
    let scratch = lent_mut(scratch.floats_mut());
    // SAFETY: each pair is a live slice; no two of them overlap.
    unsafe {
        hullashlar_moments(
            points.number(), knots.0, knots.1, samples.0, samples.1, kinds.0, kinds.1,
            values.0, values.1, moments.0, moments.1, scratch.0, scratch.1,
        )
    }
}

#[rustfmt::skip]
fn curve(arguments: &mut [Argument]) -> usize {
    let [points, knots, samples, moments, point, value] = arguments else {
        panic!("a case has the arguments of its call")
    };
    let knots = lent(knots.floats());
    let samples = lent(samples.floats());
    let moments = lent(moments.floats());
    let value = lent_mut(value.floats_mut());
    // SAFETY: each pair is a live slice; no two of them overlap.
    unsafe {
        hullashlar_curve(
            points.number(), knots.0, knots.1, samples.0, samples.1, moments.0, moments.1,
            point.float(), value.0, value.1,
        )
    }
}

#[rustfmt::skip]
fn slopes(arguments: &mut [Argument]) -> usize {
    let [points, knots, samples, moments, slopes] = arguments else {
        panic!("a case has the arguments of its call")
    };
    let knots = lent(knots.floats());
    let samples = lent(samples.floats());
    let moments = lent(moments.floats());
    let slopes = lent_mut(slopes.floats_mut());
    // SAFETY: each pair is a live slice; no two of them overlap.
    unsafe {
        hullashlar_slopes(
            points.number(), knots.0, knots.1, samples.0, samples.1, moments.0, moments.1,
            slopes.0, slopes.1,
        )
    }
}

#[rustfmt::skip]
fn build(arguments: &mut [Argument]) -> usize {
    let [axes, points, kinds, values, knots, samples, tensor, scratch] = arguments else {
        panic!("a case has the arguments of its call")
    };
    let points = lent(points.numbers());
    let kinds = lent(kinds.bytes());
    let values = lent(values.floats());
    let knots = lent(knots.floats());
    let samples = lent(samples.floats());
    let tensor = lent_mut(tensor.floats_mut());
    let scratch = lent_mut(scratch.floats_mut());
    // SAFETY: each pair is a live slice; no two of them overlap.
    unsafe {
        hullashlar_build(
            axes.number(), points.0, points.1, kinds.0, kinds.1, values.0, values.1,
            knots.0, knots.1, samples.0, samples.1, tensor.0, tensor.1, scratch.0, scratch.1,
        )
    }
}

#[rustfmt::skip]
fn change(arguments: &mut [Argument]) -> usize {
    let [axes, points, kinds, values, knots, tensor, scratch, place, sample, lanes] = arguments else {
        panic!("a case has the arguments of its call")
    };
    let points = lent(points.numbers());
    let kinds = lent(kinds.bytes());
    let values = lent(values.floats());
    let knots = lent(knots.floats());
    let tensor = lent_mut(tensor.floats_mut());
    let scratch = lent_mut(scratch.floats_mut());
    let place = lent(place.numbers());
    let lanes = lent_mut(lanes.numbers_mut());
    // SAFETY: each pair is a live slice; no two of them overlap.
    unsafe {
        hullashlar_change(
            axes.number(), points.0, points.1, kinds.0, kinds.1, values.0, values.1,
            knots.0, knots.1, tensor.0, tensor.1, scratch.0, scratch.1, place.0, place.1,
            sample.float(), lanes.0, lanes.1,
        )
    }
}

#[rustfmt::skip]
fn verify(arguments: &mut [Argument]) -> usize {
    let [axes, points, kinds, values, knots, tensor, scratch, place, found] = arguments else {
        panic!("a case has the arguments of its call")
    };
    let points = lent(points.numbers());
    let kinds = lent(kinds.bytes());
    let values = lent(values.floats());
    let knots = lent(knots.floats());
    let tensor = lent(tensor.floats());
    let scratch = lent_mut(scratch.floats_mut());
    let place = lent_mut(place.numbers_mut());
    let found = lent_mut(found.numbers_mut());
    // SAFETY: each pair is a live slice; no two of them overlap.
    unsafe {
        hullashlar_verify(
            axes.number(), points.0, points.1, kinds.0, kinds.1, values.0, values.1,
            knots.0, knots.1, tensor.0, tensor.1, scratch.0, scratch.1, place.0, place.1,
            found.0, found.1,
        )
    }
}

#[rustfmt::skip]
fn query(arguments: &mut [Argument]) -> usize {
    let [axes, points, modes, knots, tensor, coordinates, value, labels] = arguments else {
        panic!("a case has the arguments of its call")
    };
    let points = lent(points.numbers());
    let modes = lent(modes.bytes());
    let knots = lent(knots.floats());
    let tensor = lent(tensor.floats());
    let coordinates = lent(coordinates.floats());
    let value = lent_mut(value.floats_mut());
    let labels = lent_mut(labels.numbers_mut());
    // SAFETY: each pair is a live slice; no two of them overlap.
    unsafe {
        hullashlar_query(
            axes.number(), points.0, points.1, modes.0, modes.1, knots.0, knots.1,
            tensor.0, tensor.1, coordinates.0, coordinates.1, value.0, value.1,
            labels.0, labels.1,
        )
    }
}

#[rustfmt::skip]
fn quick_query(arguments: &mut [Argument]) -> usize {
    let [axes, points, modes, knots, tensor, coordinates, value, labels] = arguments else {
        panic!("a case has the arguments of its call")
    };
    let points = lent(points.numbers());
    let modes = lent(modes.bytes());
    let knots = lent(knots.floats());
    let tensor = lent(tensor.floats());
    let coordinates = lent(coordinates.floats());
    let value = lent_mut(value.floats_mut());
    let labels = lent_mut(labels.numbers_mut());
    // SAFETY: each pair is a live slice; no two of them overlap.
    unsafe {
        hullashlar_quick_query(
            axes.number(), points.0, points.1, modes.0, modes.1, knots.0, knots.1,
            tensor.0, tensor.1, coordinates.0, coordinates.1, value.0, value.1,
            labels.0, labels.1,
        )
    }
}

#[rustfmt::skip]
fn even_query(arguments: &mut [Argument]) -> usize {
    let [axes, points, modes, knots, tensor, coordinates, value, labels, uneven] = arguments else {
        panic!("a case has the arguments of its call")
    };
    let points = lent(points.numbers());
    let modes = lent(modes.bytes());
    let knots = lent(knots.floats());
    let tensor = lent(tensor.floats());
    let coordinates = lent(coordinates.floats());
    let value = lent_mut(value.floats_mut());
    let labels = lent_mut(labels.numbers_mut());
    let uneven = lent_mut(uneven.numbers_mut());
    // SAFETY: each pair is a live slice; no two of them overlap.
    unsafe {
        hullashlar_even_query(
            axes.number(), points.0, points.1, modes.0, modes.1, knots.0, knots.1,
            tensor.0, tensor.1, coordinates.0, coordinates.1, value.0, value.1,
            labels.0, labels.1, uneven.0, uneven.1,
        )
    }
}

#[rustfmt::skip]
fn even_profile(arguments: &mut [Argument]) -> usize {
    let [axes, points, knots, told] = arguments else {
        panic!("a case has the arguments of its call")
    };
    let points = lent(points.numbers());
    let knots = lent(knots.floats());
    let told = lent_mut(told.numbers_mut());
    // SAFETY: each pair is a live slice; no two of them overlap.
    unsafe {
        hullashlar_even_profile(
            axes.number(), points.0, points.1, knots.0, knots.1, told.0, told.1,
        )
    }
}

#[rustfmt::skip]
fn direct_query(arguments: &mut [Argument]) -> usize {
    let [axes, points, modes, knots, tensor, coordinates, value, labels] = arguments else {
        panic!("a case has the arguments of its call")
    };
    let points = lent(points.numbers());
    let modes = lent(modes.bytes());
    let knots = lent(knots.floats());
    let tensor = lent(tensor.floats());
    let coordinates = lent(coordinates.floats());
    let value = lent_mut(value.floats_mut());
    let labels = lent_mut(labels.numbers_mut());
    // SAFETY: each pair is a live slice; no two of them overlap.
    unsafe {
        hullashlar_direct_query(
            axes.number(), points.0, points.1, modes.0, modes.1, knots.0, knots.1,
            tensor.0, tensor.1, coordinates.0, coordinates.1, value.0, value.1,
            labels.0, labels.1,
        )
    }
}

#[rustfmt::skip]
fn quick_queries(arguments: &mut [Argument]) -> usize {
    let [axes, points, modes, knots, tensor, coordinates, values, labels, refusals] = arguments
    else {
        panic!("a case has the arguments of its call")
    };
    let points = lent(points.numbers());
    let modes = lent(modes.bytes());
    let knots = lent(knots.floats());
    let tensor = lent(tensor.floats());
    let coordinates = lent(coordinates.floats());
    let values = lent_mut(values.floats_mut());
    let labels = lent_mut(labels.numbers_mut());
    let refusals = lent_mut(refusals.numbers_mut());
    // SAFETY: each pair is a live slice; no two of them overlap.
    unsafe {
        hullashlar_quick_queries(
            axes.number(), points.0, points.1, modes.0, modes.1, knots.0, knots.1,
            tensor.0, tensor.1, coordinates.0, coordinates.1, values.0, values.1,
            labels.0, labels.1, refusals.0, refusals.1,
        )
    }
}

#[rustfmt::skip]
fn direct_queries(arguments: &mut [Argument]) -> usize {
    let [axes, points, modes, knots, tensor, coordinates, values, labels, refusals] = arguments
    else {
        panic!("a case has the arguments of its call")
    };
    let points = lent(points.numbers());
    let modes = lent(modes.bytes());
    let knots = lent(knots.floats());
    let tensor = lent(tensor.floats());
    let coordinates = lent(coordinates.floats());
    let values = lent_mut(values.floats_mut());
    let labels = lent_mut(labels.numbers_mut());
    let refusals = lent_mut(refusals.numbers_mut());
    // SAFETY: each pair is a live slice; no two of them overlap.
    unsafe {
        hullashlar_direct_queries(
            axes.number(), points.0, points.1, modes.0, modes.1, knots.0, knots.1,
            tensor.0, tensor.1, coordinates.0, coordinates.1, values.0, values.1,
            labels.0, labels.1, refusals.0, refusals.1,
        )
    }
}

#[rustfmt::skip]
fn read(arguments: &mut [Argument]) -> usize {
    let [bytes, knots, samples, axes, points, kinds, values, modes, edition] = arguments else {
        panic!("a case has the arguments of its call")
    };
    let bytes = lent(bytes.bytes());
    let knots = lent_mut(knots.floats_mut());
    let samples = lent_mut(samples.floats_mut());
    let axes = lent_mut(axes.numbers_mut());
    let points = lent_mut(points.numbers_mut());
    let kinds = lent_mut(kinds.bytes_mut());
    let values = lent_mut(values.floats_mut());
    let modes = lent_mut(modes.bytes_mut());
    let edition = lent_mut(edition.numbers_mut());
    // SAFETY: each pair is a live slice; no two of them overlap.
    unsafe {
        hullashlar_read(
            bytes.0, bytes.1, knots.0, knots.1, samples.0, samples.1, axes.0, axes.1,
            points.0, points.1, kinds.0, kinds.1, values.0, values.1, modes.0, modes.1,
            edition.0, edition.1,
        )
    }
}

#[rustfmt::skip]
fn read_edition_1(arguments: &mut [Argument]) -> usize {
    let [bytes, knots, samples, axes, points, kinds, values] = arguments else {
        panic!("a case has the arguments of its call")
    };
    let bytes = lent(bytes.bytes());
    let knots = lent_mut(knots.floats_mut());
    let samples = lent_mut(samples.floats_mut());
    let axes = lent_mut(axes.numbers_mut());
    let points = lent_mut(points.numbers_mut());
    let kinds = lent_mut(kinds.bytes_mut());
    let values = lent_mut(values.floats_mut());
    // SAFETY: each pair is a live slice; no two of them overlap.
    unsafe {
        hullashlar_read_edition_1(
            bytes.0, bytes.1, knots.0, knots.1, samples.0, samples.1, axes.0, axes.1,
            points.0, points.1, kinds.0, kinds.1, values.0, values.1,
        )
    }
}

#[rustfmt::skip]
fn sheet_tensor(arguments: &mut [Argument]) -> usize {
    let [
        bytes, knots, samples, axes, points, kinds, values, modes, edition, tensor, scratch, length,
    ] = arguments
    else {
        panic!("a case has the arguments of its call")
    };
    let bytes = lent(bytes.bytes());
    let knots = lent_mut(knots.floats_mut());
    let samples = lent_mut(samples.floats_mut());
    let axes = lent_mut(axes.numbers_mut());
    let points = lent_mut(points.numbers_mut());
    let kinds = lent_mut(kinds.bytes_mut());
    let values = lent_mut(values.floats_mut());
    let modes = lent_mut(modes.bytes_mut());
    let edition = lent_mut(edition.numbers_mut());
    let tensor = lent_mut(tensor.floats_mut());
    let scratch = lent_mut(scratch.floats_mut());
    let length = lent_mut(length.numbers_mut());
    // SAFETY: each pair is a live slice; no two of them overlap.
    unsafe {
        hullashlar_sheet_tensor(
            bytes.0, bytes.1, knots.0, knots.1, samples.0, samples.1, axes.0, axes.1,
            points.0, points.1, kinds.0, kinds.1, values.0, values.1, modes.0, modes.1,
            edition.0, edition.1, tensor.0, tensor.1, scratch.0, scratch.1, length.0, length.1,
        )
    }
}

#[rustfmt::skip]
fn write(arguments: &mut [Argument]) -> usize {
    let [axes, points, kinds, values, modes, knots, samples, edition, bytes, length] = arguments
    else {
        panic!("a case has the arguments of its call")
    };
    let points = lent(points.numbers());
    let kinds = lent(kinds.bytes());
    let values = lent(values.floats());
    let modes = lent(modes.bytes());
    let knots = lent(knots.floats());
    let samples = lent(samples.floats());
    let bytes = lent_mut(bytes.bytes_mut());
    let length = lent_mut(length.numbers_mut());
    // SAFETY: each pair is a live slice; no two of them overlap.
    unsafe {
        hullashlar_write(
            axes.number(), points.0, points.1, kinds.0, kinds.1, values.0, values.1,
            modes.0, modes.1, knots.0, knots.1, samples.0, samples.1, edition.number(),
            bytes.0, bytes.1, length.0, length.1,
        )
    }
}

#[rustfmt::skip]
fn exact_index(arguments: &mut [Argument]) -> usize {
    let [points, knots, lower, point, found] = arguments else {
        panic!("a case has the arguments of its call")
    };
    let knots = lent(knots.floats());
    let found = lent_mut(found.numbers_mut());
    // SAFETY: each pair is a live slice; no two of them overlap.
    unsafe {
        hullashlar_exact_index(
            points.number(), knots.0, knots.1, lower.number(), point.float(), found.0, found.1,
        )
    }
}

#[rustfmt::skip]
fn locate_axis(arguments: &mut [Argument]) -> usize {
    let [points, knots, point, location, fraction] = arguments else {
        panic!("a case has the arguments of its call")
    };
    let knots = lent(knots.floats());
    let location = lent_mut(location.numbers_mut());
    let fraction = lent_mut(fraction.floats_mut());
    // SAFETY: each pair is a live slice; no two of them overlap.
    unsafe {
        hullashlar_locate_axis(
            points.number(), knots.0, knots.1, point.float(), location.0, location.1,
            fraction.0, fraction.1,
        )
    }
}

#[rustfmt::skip]
fn locate_step_index(arguments: &mut [Argument]) -> usize {
    let [points, knots, direction, point, index] = arguments else {
        panic!("a case has the arguments of its call")
    };
    let knots = lent(knots.floats());
    let index = lent_mut(index.numbers_mut());
    // SAFETY: each pair is a live slice; no two of them overlap.
    unsafe {
        hullashlar_locate_step_index(
            points.number(), knots.0, knots.1, direction.number() as u8, point.float(),
            index.0, index.1,
        )
    }
}

#[rustfmt::skip]
fn stepped(arguments: &mut [Argument]) -> usize {
    let [axes, points, directions, knots, samples, coordinates, value, indices] = arguments else {
        panic!("a case has the arguments of its call")
    };
    let points = lent(points.numbers());
    let directions = lent(directions.bytes());
    let knots = lent(knots.floats());
    let samples = lent(samples.floats());
    let coordinates = lent(coordinates.floats());
    let value = lent_mut(value.floats_mut());
    let indices = lent_mut(indices.numbers_mut());
    // SAFETY: each pair is a live slice; no two of them overlap.
    unsafe {
        hullashlar_stepped(
            axes.number(), points.0, points.1, directions.0, directions.1, knots.0, knots.1,
            samples.0, samples.1, coordinates.0, coordinates.1, value.0, value.1,
            indices.0, indices.1,
        )
    }
}

#[rustfmt::skip]
fn stepped_many(arguments: &mut [Argument]) -> usize {
    let [axes, points, directions, knots, samples, coordinates, values, indices, refusals] =
        arguments
    else {
        panic!("a case has the arguments of its call")
    };
    let points = lent(points.numbers());
    let directions = lent(directions.bytes());
    let knots = lent(knots.floats());
    let samples = lent(samples.floats());
    let coordinates = lent(coordinates.floats());
    let values = lent_mut(values.floats_mut());
    let indices = lent_mut(indices.numbers_mut());
    let refusals = lent_mut(refusals.numbers_mut());
    // SAFETY: each pair is a live slice; no two of them overlap.
    unsafe {
        hullashlar_stepped_many(
            axes.number(), points.0, points.1, directions.0, directions.1, knots.0, knots.1,
            samples.0, samples.1, coordinates.0, coordinates.1, values.0, values.1,
            indices.0, indices.1, refusals.0, refusals.1,
        )
    }
}

fn cell_value(arguments: &mut [Argument]) -> usize {
    let [p0, p1, d0, d1, k, value] = arguments else {
        panic!("a case has the arguments of its call")
    };
    let [p0, p1, d0, d1, k] = [&*p0, p1, d0, d1, k].map(integer);
    let value = lent_narrowed::<i32>(value.numbers_mut());
    // SAFETY: the pair is a live slice.
    unsafe { hullashlar_cell_value(p0, p1, d0, d1, k, value.0, value.1) }
}

fn cursor_next(arguments: &mut [Argument]) -> usize {
    let [curve, cursor, value] = arguments else {
        panic!("a case has the arguments of its call")
    };
    let curve = lent(curve.bytes());
    let cursor = lent_narrowed::<u32>(cursor.numbers_mut());
    let value = lent_narrowed::<i32>(value.numbers_mut());
    // SAFETY: each pair is a live slice; no two of them overlap.
    unsafe { hullashlar_cursor_next(curve.0, curve.1, cursor.0, cursor.1, value.0, value.1) }
}

/// Runs the device's program on a curve, and takes what it prints.
fn device_text(arguments: &mut [Argument]) -> usize {
    let [curve, text, length] = arguments else {
        panic!("a case has the arguments of its call")
    };
    let printed = printed("device_curve", curve.bytes(), 0);
    text.bytes_mut()[..printed.len()].copy_from_slice(&printed);
    length.numbers_mut()[0] = printed.len();
    0
}

/// Runs the report on a stream, and takes what it prints.
fn report_text(arguments: &mut [Argument]) -> usize {
    let [stream, piece, text, length] = arguments else {
        panic!("a case has the arguments of its call")
    };
    let printed = printed("sheet_report", stream.bytes(), piece.number());
    text.bytes_mut()[..printed.len()].copy_from_slice(&printed);
    length.numbers_mut()[0] = printed.len();
    stopped_by(&String::from_utf8_lossy(&printed))
}

/// Runs the sheet program on a sheet, and takes what it prints.
fn sheet_text(arguments: &mut [Argument]) -> usize {
    let [bytes, text, length] = arguments else {
        panic!("a case has the arguments of its call")
    };
    let printed = printed("sheet_tensor", bytes.bytes(), 0);
    text.bytes_mut()[..printed.len()].copy_from_slice(&printed);
    length.numbers_mut()[0] = printed.len();
    refused_by(&String::from_utf8_lossy(&printed))
}

fn surface(arguments: &mut [Argument]) -> usize {
    let [bytes, c0, c1, c2, c3] = arguments else {
        panic!("a case has the arguments of its call")
    };
    let bytes = lent(bytes.bytes());
    let [c0, c1, c2, c3] = [c0, c1, c2, c3].map(|pattern| pattern.number() as u64);
    // SAFETY: the pair is a live slice.
    let answer = unsafe { hullashlar_surface(bytes.0, bytes.1, c0, c1, c2, c3) };
    answer as usize
}
