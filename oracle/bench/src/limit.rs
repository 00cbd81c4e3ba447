//! The lines of the limit: build, change, verification and the calls of sheets in hand-written C that ends in the same bits; and beside
//! these the calls that are asked at points. It is no part of the repository; `build.rs` says where it is looked for.

mod calls;
mod point_calls;
mod points;
mod sheet_calls;
mod sheets;

pub use points::asked;
pub use sheets::Sheets;

use crate::inputs::Inputs;
use crate::lines::{our_build, our_change, our_verify, Line, Work};

/// Every call that the limit has and that is asked at no point, on the grids that a goal is set for, and the firmware's.
pub fn lines(inputs: &Inputs) -> Vec<Line<'_>> {
    let mut lines = Vec::new();
    lines.extend(builds(inputs));
    lines.extend(changes(inputs));
    lines.extend(verifications(inputs));
    lines.extend(sheets::lines(inputs));
    lines
}

fn line<'a>(name: &'static str, ours: Work<'a>, other: Work<'a>) -> Line<'a> {
    Line {
        name,
        held_against: "the limit",
        ours,
        other,
    }
}

fn builds(inputs: &Inputs) -> [Line<'_>; 5] {
    let build = |name, surface| line(name, our_build(surface), calls::build(surface));
    [
        build("build, 4×4×4×4 natural", &inputs.four_axes),
        build("build, 6×6×6 not-a-knot", &inputs.three_axes),
        build("build, 16×16 natural", &inputs.two_axes),
        build("build, 16×16 periodic", &inputs.two_axes_periodic),
        build("build, one axis of 256 natural", &inputs.line_of_256),
    ]
}

fn changes(inputs: &Inputs) -> [Line<'_>; 3] {
    let change = |name, surface| line(name, our_change(surface), calls::change(surface));
    [
        change("change, middle of 4×4×4×4", &inputs.four_axes),
        change("change, middle of 6×6×6", &inputs.three_axes),
        change("change, middle of 16×16", &inputs.two_axes),
    ]
}

/// The limit tells the first number that differs, ours also how many do; of these tensors none does.
fn verifications(inputs: &Inputs) -> [Line<'_>; 5] {
    let verify = |name, surface| line(name, our_verify(surface), calls::verify(surface));
    [
        verify("verify, 4×4×4×4 natural", &inputs.four_axes),
        verify("verify, 6×6×6 not-a-knot", &inputs.three_axes),
        verify("verify, 16×16 natural", &inputs.two_axes),
        verify("verify, 16×16 periodic", &inputs.two_axes_periodic),
        verify("verify, one axis of 256 natural", &inputs.line_of_256),
    ]
}
