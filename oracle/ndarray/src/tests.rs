//! What the stand-in gives for a small array, written out by hand.

use super::*;

/// Two by three by two, the number at (i, j, k) being 100 i + 10 j + k.
fn numbered() -> ArrayD<usize> {
    ArrayD::from_shape_fn(IxDyn(&[2, 3, 2]), |place| {
        100 * place[0] + 10 * place[1] + place[2]
    })
}

fn listed<S: Deref<Target = [usize]>, D>(array: &ArrayBase<S, D>) -> Vec<usize> {
    array.iter().copied().collect()
}

#[test]
fn the_last_axis_is_fastest() {
    let expected = [0, 1, 10, 11, 20, 21, 100, 101, 110, 111, 120, 121];
    assert_eq!(listed(&numbered()), expected);
    assert_eq!(numbered().shape(), [2, 3, 2]);
    assert_eq!(numbered()[IxDyn(&[1, 2, 0])], 120);
}

#[test]
fn a_fixed_index_takes_its_axis_out() {
    let array = numbered();
    assert_eq!(listed(&array.index_axis(Axis(1), 2)), [20, 21, 120, 121]);
    assert_eq!(
        listed(&array.index_axis(Axis(2), 1)),
        [1, 11, 21, 101, 111, 121]
    );
    let twice = array.index_axis(Axis(2), 1);
    assert_eq!(listed(&twice.index_axis(Axis(0), 1)), [101, 111, 121]);
}

#[test]
fn lanes_come_in_the_order_of_the_other_axes() {
    let array = numbered();
    let lanes: Vec<Vec<usize>> = array.lanes(Axis(1)).iter().map(listed).collect();
    let expected = [[0, 10, 20], [1, 11, 21], [100, 110, 120], [101, 111, 121]];
    assert_eq!(lanes, expected);
}

#[test]
fn written_lanes_are_the_read_ones() {
    let source = numbered();
    for axis in 0..3 {
        let mut copy = ArrayD::from_shape_fn(IxDyn(&[2, 3, 2]), |_| 0);
        let lanes = source.lanes(Axis(axis)).into_iter();
        for (lane, mut slot) in lanes.zip(copy.lanes_mut(Axis(axis))) {
            slot.assign(&lane);
        }
        assert_eq!(copy, source);
    }
}

#[test]
fn a_written_part_leaves_the_rest() {
    let mut array = numbered();
    let part = ArrayD::from_shape_vec(IxDyn(&[2, 2]), vec![1, 2, 3, 4]).unwrap();
    array.index_axis_mut(Axis(1), 0).assign(&part);
    let expected = [1, 2, 10, 11, 20, 21, 3, 4, 110, 111, 120, 121];
    assert_eq!(listed(&array), expected);
}

#[test]
fn zip_walks_the_same_place_of_all() {
    let array = numbered();
    let part = |index| array.index_axis(Axis(2), index);
    let mut sums = ArrayD::from_shape_fn(IxDyn(&[2, 3]), |_| 0);
    let mut whole = ArrayViewMut::new(&mut *sums.storage, Layout::row_major(&[2, 3]));
    Zip::from(&mut whole)
        .and(&part(0))
        .and(&part(1))
        .and(&part(0))
        .and(&part(1))
        .for_each(|sum, first, second, third, fourth| *sum = first + second + third + fourth);
    assert_eq!(listed(&sums), [2, 42, 82, 402, 442, 482]);
}

#[test]
fn a_view_of_one_axis_knows_its_ends() {
    let numbers = vec![3, 1, 2];
    let view = ArrayView1::from(&numbers);
    assert_eq!(
        (view.first(), view.last(), view[1]),
        (Some(&3), Some(&2), 1)
    );
    let none: Vec<usize> = Vec::new();
    assert_eq!(ArrayView1::from(&none).last(), None);
}

#[test]
fn the_count_of_axes_is_checked() {
    let array = numbered();
    assert!(array.view().into_dimensionality::<Ix1>().is_err());
    let line = array.lanes(Axis(0))[0];
    assert!(line.into_dimensionality::<Ix1>().is_ok());
    assert!(ArrayD::from_shape_vec(IxDyn(&[2, 2]), vec![1, 2, 3]).is_err());
}
