//! Two changes of which one is refused in one order and accepted in the other.

use ninterp_unchanged::{compute_corner_cache, ArrayD, Broadcastable, IxDyn};
use reading::{build, change, conditions, CURVE_SCRATCH};

/// One natural axis with knots 0 and 1.
const POINTS: [usize; 4] = [2, 0, 0, 0];
const KINDS: [u8; 8] = [2, 2, 0, 0, 0, 0, 0, 0];
const VALUES: [f64; 8] = [0.0; 8];
const KNOTS: [f64; 2] = [0.0, 1.0];

/// The tensor of two samples as ninterp builds it, finite or not.
fn unchecked(samples: [f64; 2]) -> Vec<f64> {
    let grid = ArrayD::from_shape_vec(IxDyn(&[2]), samples.to_vec()).unwrap();
    let conditions = Broadcastable::Each(conditions(&KINDS[..2], &VALUES[..2]));
    let tensor = compute_corner_cache(&[KNOTS[..].into()], grid.view(), &conditions);
    tensor.iter().copied().collect()
}

/// The refusal and the tensor of a build of two samples.
fn built(samples: [f64; 2]) -> (usize, [f64; 4]) {
    let (mut tensor, mut scratch) = ([7.0; 4], [7.0; 4 + CURVE_SCRATCH]);
    let refusal = build(
        1,
        &POINTS,
        &KINDS,
        &VALUES,
        &KNOTS,
        &samples,
        &mut tensor,
        &mut scratch,
    );
    (refusal, tensor)
}

/// The refusal of a change of one sample.
fn changed(tensor: &mut [f64; 4], number: usize, sample: f64) -> usize {
    let mut scratch = [7.0; 4 + CURVE_SCRATCH];
    let place = [number, 0, 0, 0];
    change(
        1,
        &POINTS,
        &KINDS,
        &VALUES,
        &KNOTS,
        tensor,
        &mut scratch,
        &place,
        sample,
        &mut [7],
    )
}

#[test]
fn ninterp_builds_an_infinite_slope() {
    let slope = f64::INFINITY;
    assert_eq!(unchecked([-1e308, 1e308]), [-1e308, slope, 1e308, slope]);
    assert_eq!(built([-1e308, 1e308]), (10, [7.0; 4]));
}

#[test]
fn the_first_sample_first_and_both_are_accepted() {
    let (refusal, mut tensor) = built([-1e308, 0.0]);
    assert_eq!(refusal, 0);
    assert_eq!(changed(&mut tensor, 0, 0.0), 0);
    assert_eq!(changed(&mut tensor, 1, 1e308), 0);
    assert_eq!(tensor.to_vec(), unchecked([0.0, 1e308]));
}

#[test]
fn the_second_sample_first_and_it_is_refused() {
    let (refusal, mut tensor) = built([-1e308, 0.0]);
    assert_eq!(refusal, 0);
    assert_eq!(changed(&mut tensor, 1, 1e308), 10);
    assert_eq!(changed(&mut tensor, 0, 0.0), 0);
    assert_eq!(tensor, [0.0; 4]);
}
