//! Tensors held against the build of their own samples: whole, stale, damaged, and refused.

use reading::{build, change, verified, verify, Shape, CURVE_SCRATCH};

/// What stands in scratch and in the slots before a call.
const BEFORE: f64 = 12345.0;
const SLOT: usize = 9;

/// What a call is given, with the lengths of what it is lent.
#[derive(Clone)]
struct Given {
    axes: usize,
    points: Vec<usize>,
    kinds: Vec<u8>,
    values: Vec<f64>,
    knots: Vec<f64>,
    tensor: Vec<f64>,
    scratch: usize,
    place: usize,
    found: usize,
}

/// The refusal, the place, and what else was found.
type Whole = (usize, Vec<usize>, Vec<usize>);

impl Given {
    /// The tensor of samples on axes that all have the knots 0, 1 and so on, and ends of a kind.
    fn built(points: &[usize], kind: u8, samples: &[f64]) -> Self {
        let mut given = Self {
            axes: points.len(),
            points: vec![0; 4],
            kinds: vec![kind; 8],
            values: vec![0.0; 8],
            knots: Vec::new(),
            tensor: vec![BEFORE; samples.len() << points.len()],
            scratch: CURVE_SCRATCH + (samples.len() << points.len()),
            place: 4,
            found: 3,
        };
        given.points[..points.len()].copy_from_slice(points);
        for count in points {
            given.knots.extend((0..*count).map(|knot| knot as f64));
        }
        let refusal = build(
            given.axes,
            &given.points,
            &given.kinds,
            &given.values,
            &given.knots,
            samples,
            &mut given.tensor,
            &mut vec![BEFORE; given.scratch],
        );
        assert_eq!(refusal, 0);
        given
    }

    /// The answer, once scratch is seen to be cleared after 0 and 10, and else as it was.
    fn verify(&self) -> Whole {
        let mut scratch = vec![BEFORE; self.scratch];
        let (mut place, mut found) = (vec![SLOT; self.place], vec![SLOT; self.found]);
        let refusal = verify(
            self.axes,
            &self.points,
            &self.kinds,
            &self.values,
            &self.knots,
            &self.tensor,
            &mut scratch,
            &mut place,
            &mut found,
        );
        let left: f64 = if matches!(refusal, 0 | 10) {
            0.0
        } else {
            BEFORE
        };
        assert!(scratch
            .iter()
            .all(|number| number.to_bits() == left.to_bits()));
        (refusal, place, found)
    }

    /// Changes a sample to the number that stands there.
    fn renew(&mut self, place: [usize; 4]) {
        let shape = Shape::checked(self.axes, &self.points).ok().unwrap();
        let sample = self.tensor[shape.position(&place[..self.axes], 0)];
        let refusal = change(
            self.axes,
            &self.points,
            &self.kinds,
            &self.values,
            &self.knots,
            &mut self.tensor,
            &mut vec![BEFORE; self.scratch],
            &place,
            sample,
            &mut [SLOT],
        );
        assert_eq!(refusal, 0);
    }
}

const NOT_A_KNOT: u8 = 0;
const SECOND: u8 = 2;
const PERIODIC: u8 = 3;

fn whole() -> Whole {
    (0, vec![0; 4], vec![1, 0, 0])
}

/// What is told of a first number that differs, and how many do.
fn stale(place: [usize; 4], mask: usize, differing: usize) -> Whole {
    (0, place.to_vec(), vec![0, mask, differing])
}

fn refused(number: usize) -> Whole {
    (number, vec![0; 4], vec![0; 3])
}

/// Nine samples with one in the middle that stands out.
fn hill() -> Given {
    let samples = [0.0, 1.0, 0.0, 1.0, 3.0, 1.0, 0.0, 1.0, 0.0];
    Given::built(&[3, 3], SECOND, &samples)
}

/// The slopes beside the middle are as they were, and no longer those of the samples.
#[test]
fn an_overwritten_sample_is_seen_until_it_is_changed_to_itself() {
    let mut given = hill();
    assert_eq!(given.verify(), whole());
    given.tensor[4 * 4] = 5.0;
    assert_eq!(given.verify(), stale([0; 4], 3, 8));
    given.renew([1, 1, 0, 0]);
    assert_eq!(given.verify(), whole());
}

/// The change solves no lane that would renew the slope, but one that takes it as a sample.
#[test]
fn damage_out_of_the_reach_of_a_change_stays_and_spreads() {
    let mut given = Given::built(&[2, 2], SECOND, &[0.0, 0.0, 0.0, 1.0]);
    given.tensor[1] = 9.0;
    assert_eq!(given.verify(), stale([0; 4], 1, 1));
    given.renew([1, 1, 0, 0]);
    assert_eq!(given.verify(), stale([0; 4], 1, 3));
}

/// The samples are held against themselves.
#[test]
fn no_sample_is_ever_the_number_that_differs() {
    for place in 0..9 {
        let mut given = hill();
        given.tensor[4 * place] = 7.75;
        let (refusal, _, found) = given.verify();
        assert_eq!((refusal, found[0]), (0, 0));
        assert_ne!(found[1], 0);
    }
}

#[test]
fn minus_zero_is_another_number_than_plus_zero() {
    let mut flat = Given::built(&[3], SECOND, &[1.0; 3]);
    assert_eq!(flat.tensor[3].to_bits(), 0);
    flat.tensor[3] = -0.0;
    assert_eq!(flat.verify(), stale([1, 0, 0, 0], 1, 1));
    // A zero of a sample has either sign, and a slope of minus zero may be the right one.
    let mut signed = Given::built(&[2], PERIODIC, &[0.0, -0.0]);
    assert_eq!(signed.tensor[1].to_bits(), 1 << 63);
    assert_eq!(signed.verify(), whole());
    signed.tensor[1] = 0.0;
    assert_eq!(signed.verify(), stale([0; 4], 1, 1));
}

/// A unit of the last place at every number but the samples, one after the other.
#[test]
fn every_number_is_held_against_its_own() {
    let samples: Vec<f64> = (0..24).map(|number| (7 * number % 11) as f64).collect();
    let built = Given::built(&[2, 3, 2, 2], PERIODIC, &samples);
    let shape = Shape::checked(4, &built.points).ok().unwrap();
    for number in 0..24 {
        for mask in 1..16 {
            let mut given = built.clone();
            let damaged = &mut given.tensor[16 * number + mask];
            *damaged = damaged.next_up();
            let place = shape.place(number).try_into().unwrap();
            assert_eq!(given.verify(), stale(place, mask, 1));
        }
    }
}

#[test]
fn the_first_of_several_is_told_and_all_are_counted() {
    let mut given = hill();
    for at in [35, 18, 30] {
        given.tensor[at] = 100.0;
    }
    assert_eq!(given.verify(), stale([1, 1, 0, 0], 2, 3));
}

/// Each fault comes before those that were put in before it, and leaves zeros in the slots.
#[test]
fn faults_are_told_in_their_order() {
    let mut given = Given::built(&[3], SECOND, &[0.0; 3]);
    for (at, sample) in [1.7e308, -1.7e308, 1.7e308].into_iter().enumerate() {
        given.tensor[2 * at] = sample;
    }
    assert_eq!(given.verify(), refused(10));
    given.kinds[..2].fill(NOT_A_KNOT);
    assert_eq!(given.verify(), refused(9));
    given.knots[2] = given.knots[1];
    assert_eq!(given.verify(), refused(8));
    given.tensor[3] = f64::NAN;
    assert_eq!(given.verify(), refused(7));
    given.scratch -= 1;
    assert_eq!(given.verify(), refused(5));
    given.kinds[0] = PERIODIC;
    assert_eq!(given.verify(), refused(13));
    given.tensor.pop();
    assert_eq!(given.verify(), refused(4));
    given.axes = 2;
    given.points[..2].copy_from_slice(&[32, 33]);
    assert_eq!(given.verify(), refused(3));
    given.points[0] = 1;
    assert_eq!(given.verify(), refused(2));
    given.points.pop();
    assert_eq!(given.verify(), refused(4));
    given.axes = 5;
    assert_eq!(given.verify(), refused(1));
}

/// The slopes too, and the ends and the knots.
#[test]
fn what_is_no_finite_number_is_refused_wherever_it_stands() {
    let built = Given::built(&[3], SECOND, &[0.0, 1.0, 0.0]);
    for at in 0..6 {
        let mut given = built.clone();
        given.tensor[at] = f64::NEG_INFINITY;
        assert_eq!(given.verify(), refused(7));
    }
    let mut given = built.clone();
    given.values[1] = f64::NAN;
    assert_eq!(given.verify(), refused(7));
    given.kinds[..2].fill(PERIODIC);
    assert_eq!(given.verify().0, 0);
    given.knots[0] = f64::NAN;
    assert_eq!(given.verify(), refused(7));
}

#[test]
fn slices_have_their_lengths() {
    let spoil: [fn(&mut Given); 6] = [
        |given| given.kinds.truncate(7),
        |given| given.kinds.push(SECOND),
        |given| given.values.truncate(7),
        |given| given.values.push(0.0),
        |given| given.knots.truncate(5),
        |given| given.tensor.push(0.0),
    ];
    for spoil in spoil {
        let mut given = hill();
        spoil(&mut given);
        assert_eq!(given.verify(), refused(4));
    }
}

/// Where one has another length, neither is written; only 1, 2 and 3 come before it.
#[test]
fn slots_have_their_lengths() {
    for (place, found) in [(3, 3), (5, 3), (0, 3), (4, 2), (4, 4), (4, 0), (3, 4)] {
        let left = |number: usize| (number, vec![SLOT; place], vec![SLOT; found]);
        let mut given = hill();
        (given.place, given.found) = (place, found);
        assert_eq!(given.verify(), left(4));
        given.kinds[0] = PERIODIC;
        given.scratch = 0;
        assert_eq!(given.verify(), left(4));
        given.points[..2].copy_from_slice(&[32, 33]);
        assert_eq!(given.verify(), left(3));
        given.points[0] = 257;
        assert_eq!(given.verify(), left(2));
        given.points.push(2);
        assert_eq!(given.verify(), left(4));
        given.axes = 0;
        assert_eq!(given.verify(), left(1));
    }
}

/// Without slots the same is told.
#[test]
fn the_slots_have_what_is_told_without_them() {
    let mut given = hill();
    given.tensor[21] = 2.5;
    let (refusal, told) = verified(
        given.axes,
        &given.points,
        &given.kinds,
        &given.values,
        &given.knots,
        &given.tensor,
        &mut vec![BEFORE; given.scratch],
    );
    let found = vec![usize::from(told.whole), told.mask, told.differing];
    assert_eq!((refusal, told.place.to_vec(), found), given.verify());
    assert_eq!(given.verify(), stale([1, 2, 0, 0], 1, 1));
}
