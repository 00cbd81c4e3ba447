//! Stack bytes of each exported call: it runs on a stack of its own that was
//! painted before, and the lowest number that lost its paint says how deep it went.

use crate::hullashlar::{self, BUFFER, LONGEST_TENSOR, SCRATCH};
use crate::shapes::{lines, shapes, Shape};
use std::arch::asm;
use std::hint::black_box;

/// The deepest that a call went over the shapes.
pub struct Stack {
    pub call: &'static str,
    pub bytes: usize,
}

/// The stack of every exported call.
pub fn stacks() -> [Stack; 25] {
    let shapes = shapes();
    let all: Vec<&Shape> = shapes.iter().collect();
    let lines = lines(&shapes);
    [
        deepest("hullashlar_build", &all, build),
        deepest("hullashlar_change", &all, change),
        deepest("hullashlar_verify", &all, verify),
        deepest("hullashlar_query", &all, query),
        deepest("hullashlar_quick_query", &all, quick_query),
        deepest("hullashlar_even_query", &all, even_query),
        deepest("hullashlar_even_profile", &all, even_profile),
        deepest("hullashlar_direct_query", &all, direct_query),
        deepest("hullashlar_quick_queries", &all, quick_queries),
        deepest("hullashlar_direct_queries", &all, direct_queries),
        deepest("hullashlar_read", &all, read),
        deepest("hullashlar_read_edition_1", &all, read_edition_1),
        deepest("hullashlar_sheet_tensor", &all, sheet_tensor),
        deepest("hullashlar_write", &all, write),
        deepest("hullashlar_moments", &lines, moments),
        deepest("hullashlar_slopes", &lines, slopes),
        deepest("hullashlar_curve", &lines, curve),
        deepest("hullashlar_exact_index", &lines, exact_index),
        deepest("hullashlar_locate_axis", &lines, locate_axis),
        deepest("hullashlar_locate_step_index", &lines, step),
        deepest("hullashlar_stepped", &all, stepped),
        deepest("hullashlar_stepped_many", &all, stepped_many),
        deepest("hullashlar_cell_value", &[[5, 7, 300, -400]], cell_value),
        deepest("hullashlar_cursor_next", &[1, 255], cursor_next),
        deepest("hullashlar_surface", &all, surface),
    ]
}

/// The modes that refuse no point.
const MODES: [u8; 2] = [0, 1];

fn deepest<T: Copy>(call: &'static str, inputs: &[T], bytes: fn(T) -> usize) -> Stack {
    let deepest = inputs.iter().map(|input| bytes(*input)).max();
    let bytes = deepest.expect("every call has inputs");
    Stack { call, bytes }
}

fn most(bytes: impl Iterator<Item = usize>) -> usize {
    bytes.max().expect("every shape has variants")
}

fn build(shape: &Shape) -> usize {
    let mut tensor = vec![0.0; shape.axes.tensor_length()];
    let mut scratch = shape.scratch();
    let Shape {
        axes,
        knots,
        samples,
    } = shape;
    bytes_of(|| hullashlar::build(axes, knots, samples, &mut tensor, &mut scratch).is_ok())
}

fn change(shape: &Shape) -> usize {
    let mut tensor = shape.tensor();
    let mut scratch = shape.scratch();
    let Shape { axes, knots, .. } = shape;
    let places = shape.places().into_iter();
    most(places.map(|place| {
        bytes_of(|| hullashlar::change(axes, knots, &mut tensor, &mut scratch, place, 9.25).is_ok())
    }))
}

/// A whole tensor, and one whose last number is off.
fn verify(shape: &Shape) -> usize {
    let whole = shape.tensor();
    let mut stale = whole.clone();
    let last = stale.len() - 1;
    stale[last] += 1.0;
    let mut scratch = shape.scratch();
    let Shape { axes, knots, .. } = shape;
    most(
        [whole, stale].into_iter().map(|tensor| {
            bytes_of(|| hullashlar::verify(axes, knots, &tensor, &mut scratch).is_ok())
        }),
    )
}

/// A query of every point in every mode.
fn asked(shape: &Shape, ask: impl Fn(&Shape, &[f64], &[f64]) -> bool) -> usize {
    let tensor = shape.tensor();
    most(MODES.into_iter().flat_map(|mode| {
        let shape = shape.in_mode(mode);
        let points = shape.coordinates();
        points.map(|point| bytes_of(|| ask(&shape, &tensor, &point)))
    }))
}

fn query(shape: &Shape) -> usize {
    asked(shape, |shape, tensor, point| {
        hullashlar::query(&shape.axes, &shape.knots, tensor, point).is_ok()
    })
}

fn quick_query(shape: &Shape) -> usize {
    asked(shape, |shape, tensor, point| {
        hullashlar::quick_query(&shape.axes, &shape.knots, tensor, point).is_ok()
    })
}

fn even_query(shape: &Shape) -> usize {
    asked(&shape.even(), |shape, tensor, point| {
        hullashlar::even_query(&shape.axes, &shape.knots, tensor, point).is_ok()
    })
}

/// On even axes, and on those that are not.
fn even_profile(shape: &Shape) -> usize {
    let even = shape.even();
    let looked = |shape: &Shape| {
        bytes_of(|| {
            black_box(hullashlar::even_profile(&shape.axes, &shape.knots).is_ok());
            true
        })
    };
    looked(&even).max(looked(shape))
}

fn direct_query(shape: &Shape) -> usize {
    asked(&shape.even(), |shape, tensor, point| {
        hullashlar::direct_query(&shape.axes, &shape.knots, tensor, point).is_ok()
    })
}

fn quick_queries(shape: &Shape) -> usize {
    asked(shape, |shape, tensor, point| {
        let Shape { axes, knots, .. } = shape;
        let (mut values, mut labels, mut refusals) = ([0.0], [0; 4], [0]);
        let (values, labels, refusals) = (&mut values, &mut labels, &mut refusals);
        hullashlar::quick_queries(axes, knots, tensor, point, values, labels, refusals).is_ok()
    })
}

fn direct_queries(shape: &Shape) -> usize {
    asked(&shape.even(), |shape, tensor, point| {
        let Shape { axes, knots, .. } = shape;
        let (mut values, mut labels, mut refusals) = ([0.0], [0; 4], [0]);
        let (values, labels, refusals) = (&mut values, &mut labels, &mut refusals);
        hullashlar::direct_queries(axes, knots, tensor, point, values, labels, refusals).is_ok()
    })
}

/// The sheet in both editions, and in the second in both modes.
fn sheets(shape: &Shape) -> [Vec<u8>; 3] {
    let [extend, hold] = MODES.map(|mode| shape.in_mode(mode));
    [extend.sheet(1), extend.sheet(2), hold.sheet(2)]
}

fn read(shape: &Shape) -> usize {
    let (mut knots, mut samples) = ([0.0; BUFFER], [0.0; BUFFER]);
    most(
        sheets(shape)
            .iter()
            .map(|sheet| bytes_of(|| hullashlar::read(sheet, &mut knots, &mut samples).is_ok())),
    )
}

fn read_edition_1(shape: &Shape) -> usize {
    let sheet = shape.sheet(1);
    let (mut knots, mut samples) = ([0.0; BUFFER], [0.0; BUFFER]);
    bytes_of(|| hullashlar::read_edition_1(&sheet, &mut knots, &mut samples).is_ok())
}

fn sheet_tensor(shape: &Shape) -> usize {
    let (mut knots, mut samples) = ([0.0; BUFFER], [0.0; BUFFER]);
    let mut tensor = vec![0.0; LONGEST_TENSOR];
    let mut scratch = vec![0.0; LONGEST_TENSOR + SCRATCH];
    most(sheets(shape).iter().map(|sheet| {
        bytes_of(|| {
            hullashlar::sheet_tensor(sheet, &mut knots, &mut samples, &mut tensor, &mut scratch)
                .is_ok()
        })
    }))
}

fn write(shape: &Shape) -> usize {
    let Shape {
        axes,
        knots,
        samples,
    } = shape;
    most([1, 2].into_iter().map(|edition| {
        let mut bytes = shape.sheet(edition);
        bytes_of(|| hullashlar::write(edition, axes, knots, samples, &mut bytes).is_ok())
    }))
}

fn moments(line: &Shape) -> usize {
    let Shape { knots, samples, .. } = line;
    let (kinds, values) = line.ends();
    let mut moments = vec![0.0; knots.len()];
    let mut scratch = vec![0.0; SCRATCH];
    bytes_of(|| {
        hullashlar::moments(knots, samples, kinds, values, &mut moments, &mut scratch).is_ok()
    })
}

fn slopes(line: &Shape) -> usize {
    let moments = line.moments();
    let mut slopes = vec![0.0; moments.len()];
    bytes_of(|| hullashlar::slopes(&line.knots, &line.samples, &moments, &mut slopes).is_ok())
}

/// A call at every point of a line.
fn at_points(line: &Shape, call: impl Fn(f64) -> bool) -> usize {
    let points = line.coordinates().into_iter();
    most(points.map(|point| bytes_of(|| call(point[0]))))
}

fn curve(line: &Shape) -> usize {
    let moments = line.moments();
    at_points(line, |point| {
        hullashlar::curve(&line.knots, &line.samples, &moments, point).is_ok()
    })
}

fn exact_index(line: &Shape) -> usize {
    let lower = line.knots.len() - 2;
    at_points(line, |point| {
        hullashlar::exact_index(&line.knots, lower, point).is_ok()
    })
}

fn locate_axis(line: &Shape) -> usize {
    at_points(line, |point| {
        hullashlar::locate_axis(&line.knots, point).is_ok()
    })
}

fn step(line: &Shape) -> usize {
    let downward = |point| hullashlar::locate_step_index(&line.knots, 0, point).is_ok();
    let upward = |point| hullashlar::locate_step_index(&line.knots, 1, point).is_ok();
    at_points(line, downward).max(at_points(line, upward))
}

fn stepped(shape: &Shape) -> usize {
    let Shape {
        axes,
        knots,
        samples,
    } = shape;
    let points = shape.coordinates().into_iter();
    most(points.map(|point| {
        bytes_of(|| hullashlar::stepped(axes, [0, 1, 0, 1], knots, samples, &point).is_ok())
    }))
}

fn stepped_many(shape: &Shape) -> usize {
    let Shape {
        axes,
        knots,
        samples,
    } = shape;
    let points = shape.coordinates().into_iter();
    most(points.map(|point| {
        let (mut values, mut indices, mut refusals) = ([0.0], [0; 4], [0]);
        let (values, indices, refusals) = (&mut values, &mut indices, &mut refusals);
        bytes_of(|| {
            let directions = [0, 1, 0, 1];
            hullashlar::stepped_many(
                axes, directions, knots, samples, &point, values, indices, refusals,
            )
            .is_ok()
        })
    }))
}

fn cell_value(cell: [i32; 4]) -> usize {
    let positions = [0, 100, 256].into_iter();
    most(positions.map(|position| bytes_of(|| hullashlar::cell_value(cell, position).is_ok())))
}

fn cursor_next(cells: usize) -> usize {
    let curve = vec![0; 16 * cells];
    let cursors = [0, 100, 256 * cells as u32].into_iter();
    most(cursors.map(|cursor| {
        let mut moved = cursor;
        bytes_of(|| hullashlar::cursor_next(&curve, &mut moved).is_ok())
    }))
}

/// The one call that refuses a long tensor: of such a shape it is not measured.
fn surface(shape: &Shape) -> usize {
    if 512 < shape.axes.tensor_length() {
        return 0;
    }
    let points = shape.coordinates().map(patterns);
    let sheets = sheets(shape);
    most(sheets.iter().flat_map(|sheet| {
        points.map(|point| bytes_of(|| hullashlar::surface(sheet, point).is_ok()))
    }))
}

/// The patterns of a point, and 0 past its axes.
fn patterns(point: Vec<f64>) -> [u64; 4] {
    let mut patterns = [0; 4];
    for (pattern, coordinate) in patterns.iter_mut().zip(point) {
        *pattern = coordinate.to_bits();
    }
    patterns
}

/// What the stack is painted with.
const PAINT: u64 = 0x5AA5_C33C_0FF0_9669;

/// The numbers of the painted stack, far more than any call needs.
const PAINTED: usize = 1 << 14;

/// The stack bytes of an accepted call, without those that an empty one needs here.
fn bytes_of(mut call: impl FnMut() -> bool) -> usize {
    let mut accepted = false;
    let whole = depth(&mut || accepted = call());
    assert!(accepted, "the inputs are good ones");
    let mut nothing = false;
    whole - depth(&mut || nothing = black_box(true))
}

/// How far down a painted stack a call writes.
fn depth(mut call: &mut dyn FnMut()) -> usize {
    let mut stack = vec![PAINT; PAINTED];
    let end = stack.as_mut_ptr_range().end;
    let top = end as usize - end as usize % 16;
    // SAFETY: the stack is live, far longer than the call needs, and its top is
    // a multiple of 16 as the calling convention asks.
    unsafe { call_on(top, &mut call) };
    let lowest = stack.iter().position(|number| *number != PAINT);
    lowest.map_or(0, |place| top - &raw const stack[place] as usize)
}

/// Makes a call with the stack pointer at the given top.
#[cfg(target_arch = "aarch64")]
unsafe fn call_on(top: usize, call: &mut &mut dyn FnMut()) {
    asm!(
        "mov x21, sp",
        "mov sp, x20",
        "bl {enter}",
        "mov sp, x21",
        enter = sym enter,
        in("x20") top,
        out("x21") _,
        in("x0") call,
        clobber_abi("C"),
    );
}

/// Makes a call with the stack pointer at the given top.
#[cfg(target_arch = "x86_64")]
unsafe fn call_on(top: usize, call: &mut &mut dyn FnMut()) {
    asm!(
        "xchg rsp, r12",
        "call {enter}",
        "mov rsp, r12",
        enter = sym enter,
        inout("r12") top => _,
        in("rdi") call,
        clobber_abi("C"),
    );
}

extern "C" fn enter(call: &mut &mut dyn FnMut()) {
    call();
}
