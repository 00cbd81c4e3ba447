//! The stand-in that is made for speed gives the bits of the simple one, which
//! the reading of the rules stands on; and a packed sheet is the one that this
//! reading writes.

use crate::hullashlar::LONGEST_SHEET;
use crate::inputs::{Ends, Inputs, Surface};
use crate::lines::last_sample;
use ninterp_quick::evaluate_spline_corner_cached;

fn bits(numbers: impl IntoIterator<Item = f64>) -> Vec<u64> {
    numbers.into_iter().map(f64::to_bits).collect()
}

/// The tensor over the simple stand-in.
fn simple_tensor(surface: &Surface) -> Vec<f64> {
    let Surface {
        axes,
        knots,
        samples,
        ..
    } = surface;
    let mut tensor = vec![0.0; axes.tensor_length()];
    let mut scratch = surface.scratch();
    let refusal = reading::build(
        axes.count,
        &axes.points,
        &axes.kinds,
        &axes.values,
        knots,
        samples,
        &mut tensor,
        &mut scratch,
    );
    assert_eq!(refusal, 0);
    tensor
}

/// The value at the middle point over the simple stand-in.
fn simple_value(surface: &Surface, tensor: &[f64]) -> f64 {
    let Surface { axes, knots, .. } = surface;
    let (mut value, mut labels) = ([0.0], [0; 4]);
    let point = surface.middle_point();
    let refusal = reading::query(
        axes.count,
        &axes.points,
        &[reading::EXTEND; 4],
        knots,
        tensor,
        &point,
        &mut value,
        &mut labels,
    );
    assert_eq!(refusal, 0);
    value[0]
}

/// Surfaces of one to four axes, and of four axes with all the ends.
fn surfaces() -> [Surface; 8] {
    let four_axes = [4, 4, 4, 4];
    [
        Surface::new(&[2], Ends::Natural),
        Surface::new(&[16], Ends::Natural),
        Surface::new(&[256], Ends::Natural),
        Surface::new(&[16, 16], Ends::Natural),
        Surface::new(&[6, 6, 6], Ends::NotAKnot),
        Surface::new(&four_axes, Ends::Natural),
        Surface::new(&four_axes, Ends::NotAKnot),
        Surface::new(&four_axes, Ends::Periodic),
    ]
}

#[test]
fn both_stand_ins_give_the_same_bits() {
    let inputs = Inputs::new();
    let even = inputs.even_surfaces().into_iter();
    for surface in even.chain(&surfaces()) {
        let simple = simple_tensor(surface);
        let quick = surface.tensor();
        assert_eq!(bits(quick.iter().copied()), bits(simple.iter().copied()));
        let knots = surface.knots_by_axis();
        let value = evaluate_spline_corner_cached(&knots, quick.view(), &surface.middle_point());
        assert_eq!(value.to_bits(), simple_value(surface, &simple).to_bits());
    }
}

/// The sheet as the oracle writes it.
fn written(surface: &Surface) -> Vec<u8> {
    let Surface {
        axes,
        knots,
        samples,
        edition,
        ..
    } = surface;
    let (mut bytes, mut length) = (vec![0; LONGEST_SHEET], [0]);
    let refusal = reading::write(
        axes.count,
        &axes.points,
        &axes.kinds,
        &axes.values,
        &axes.modes,
        knots,
        samples,
        *edition,
        &mut bytes,
        &mut length,
    );
    assert_eq!(refusal, 0);
    bytes.truncate(length[0]);
    bytes
}

#[test]
fn a_packed_sheet_is_the_one_that_is_written() {
    for mut surface in surfaces() {
        for (edition, modes) in [(1, [0; 4]), (2, [0, 1, 0, 1])] {
            surface.edition = edition;
            surface.axes.modes = modes;
            let sheet = surface.sheet();
            assert_eq!(sheet, written(&surface));
            let last = last_sample(&sheet, surface.bits_behind());
            assert_eq!(Some(&last), surface.samples.last());
        }
    }
}
