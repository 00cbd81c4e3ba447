//! Every worked example.

use reading::*;

/// Fills what a call must leave alone or overwrite.
const UNTOUCHED: f64 = 12345.0;
const NOT_A_KNOT: u8 = 0;
const FIRST: u8 = 1;
const SECOND: u8 = 2;
const PERIODIC: u8 = 3;
const NATURAL: [u8; 2] = [SECOND, SECOND];

fn same_bits(found: &[f64], expected: &[f64]) {
    let bits = |numbers: &[f64]| numbers.iter().map(|n| n.to_bits()).collect::<Vec<_>>();
    assert_eq!(bits(found), bits(expected), "{found:?} for {expected:?}");
}

fn solved(knots: &[f64], samples: &[f64], kinds: [u8; 2]) -> Result<Vec<f64>, usize> {
    let mut found = vec![UNTOUCHED; knots.len()];
    let mut scratch = vec![UNTOUCHED; CURVE_SCRATCH];
    let values = [0.0; 2];
    let refusal = moments(
        knots.len(),
        knots,
        samples,
        &kinds,
        &values,
        &mut found,
        &mut scratch,
    );
    if refusal != 0 {
        same_bits(&found, &vec![UNTOUCHED; knots.len()]);
        return Err(refusal);
    }
    same_bits(&scratch, &[0.0; CURVE_SCRATCH]);
    Ok(found)
}

fn slopes_of(knots: &[f64], samples: &[f64], moments: &[f64]) -> Vec<f64> {
    let mut found = vec![UNTOUCHED; knots.len()];
    assert_eq!(slopes(knots.len(), knots, samples, moments, &mut found), 0);
    found
}

fn curve_at(knots: &[f64], samples: &[f64], moments: &[f64], point: f64) -> Result<f64, usize> {
    let mut value = [UNTOUCHED];
    match curve(knots.len(), knots, samples, moments, point, &mut value) {
        0 => Ok(value[0]),
        refusal => {
            same_bits(&value, &[0.0]);
            Err(refusal)
        }
    }
}

#[test]
fn natural_on_three_knots() {
    let (knots, samples) = ([0.0, 1.0, 2.0], [0.0, 1.0, 0.0]);
    let moments = solved(&knots, &samples, NATURAL).unwrap();
    same_bits(&moments, &[0.0, -3.0, 0.0]);
    same_bits(&slopes_of(&knots, &samples, &moments), &[1.5, 0.0, -1.5]);
    assert_eq!(curve_at(&knots, &samples, &moments, 0.5), Ok(0.6875));
}

#[test]
fn first_derivatives_of_zero() {
    let (knots, samples) = ([0.0, 1.0], [0.0, 1.0]);
    let moments = solved(&knots, &samples, [FIRST, FIRST]).unwrap();
    same_bits(&moments, &[6.0, -6.0]);
    assert_eq!(curve_at(&knots, &samples, &moments, 0.5), Ok(0.5));
}

#[test]
fn not_a_knot_twice_gives_a_line_back() {
    let (knots, samples) = ([0.0, 1.0, 2.0, 3.0], [1.0, 3.0, 5.0, 7.0]);
    let moments = solved(&knots, &samples, [NOT_A_KNOT; 2]).unwrap();
    assert_eq!(curve_at(&knots, &samples, &moments, 1.5), Ok(4.0));
    assert_eq!(curve_at(&knots, &samples, &moments, 4.0), Ok(9.0));
}

#[test]
fn periodic_on_one_interval() {
    let (knots, samples) = ([0.0, 1.0], [0.0, 5.0]);
    let moments = solved(&knots, &samples, [PERIODIC; 2]).unwrap();
    same_bits(&moments, &[0.0, 0.0]);
    same_bits(&slopes_of(&knots, &samples, &moments), &[5.0, 5.0]);
}

/// The grid of two natural axes, each with knots 0 and 1.
const SQUARE: [usize; 4] = [2, 2, 0, 0];
const SQUARE_KINDS: [u8; 8] = [SECOND, SECOND, SECOND, SECOND, 0, 0, 0, 0];
const SQUARE_KNOTS: [f64; 4] = [0.0, 1.0, 0.0, 1.0];

fn square_tensor() -> Vec<f64> {
    let mut tensor = vec![UNTOUCHED; 16];
    let mut scratch = vec![UNTOUCHED; 16 + CURVE_SCRATCH];
    let refusal = build(
        2,
        &SQUARE,
        &SQUARE_KINDS,
        &[0.0; 8],
        &SQUARE_KNOTS,
        &[0.0, 0.0, 0.0, 1.0],
        &mut tensor,
        &mut scratch,
    );
    assert_eq!(refusal, 0);
    same_bits(&scratch, &[0.0; 16 + CURVE_SCRATCH]);
    tensor
}

#[test]
fn natural_on_two_axes() {
    let tensor = square_tensor();
    let expected = [
        0.0, 0.0, 0.0, 1.0, 0.0, 1.0, 0.0, 1.0, 0.0, 0.0, 1.0, 1.0, 1.0, 1.0, 1.0, 1.0,
    ];
    same_bits(&tensor, &expected);
    let (mut value, mut labels) = ([UNTOUCHED], [9; 4]);
    let point = [0.5, 0.5];
    let refusal = query(
        2,
        &SQUARE,
        &[EXTEND; 4],
        &SQUARE_KNOTS,
        &tensor,
        &point,
        &mut value,
        &mut labels,
    );
    assert_eq!((refusal, value[0], labels), (0, 0.25, [0; 4]));
}

#[test]
fn a_change_on_two_axes_solves_four_lanes() {
    let mut tensor = square_tensor();
    let mut scratch = vec![UNTOUCHED; 16 + CURVE_SCRATCH];
    let mut lanes = [9];
    let refusal = change(
        2,
        &SQUARE,
        &SQUARE_KINDS,
        &[0.0; 8],
        &SQUARE_KNOTS,
        &mut tensor,
        &mut scratch,
        &[0, 1, 7, 7],
        2.0,
        &mut lanes,
    );
    assert_eq!((refusal, lanes), (0, [4]));
    let expected = [
        0.0, 0.0, 2.0, -1.0, 2.0, -1.0, 2.0, -1.0, 0.0, 0.0, 1.0, -1.0, 1.0, -1.0, 1.0, -1.0,
    ];
    same_bits(&tensor, &expected);
}

#[test]
fn a_build_on_two_axes_has_six_lanes() {
    let shape = Shape::checked(2, &SQUARE).unwrap_or_else(|refusal| panic!("{refusal}"));
    assert_eq!(lanes_of_build(&shape).len(), 6);
    assert_eq!(lanes_of_change(&shape, &[0, 1]).len(), 4);
    assert_eq!(closed_sum_of_lanes(&shape), 4);
}

/// On one to four axes of two to four points, at every place.
#[test]
fn a_change_solves_as_many_lanes_as_the_closed_sum_says() {
    let mut places = 0;
    for axes in 1..=4 {
        for number in 0..3usize.pow(axes) {
            let points = [0, 1, 2, 3].map(|axis| 2 + number / 3usize.pow(axis) % 3);
            let shape = Shape::checked(axes as usize, &points)
                .unwrap_or_else(|refusal| panic!("{refusal}"));
            for number in 0..shape.samples_length() {
                let lanes = lanes_of_change(&shape, &shape.place(number));
                assert_eq!(lanes.len(), closed_sum_of_lanes(&shape), "{points:?}");
                places += 1;
            }
        }
    }
    assert_eq!(places, 9 + 9 * 9 + 9 * 9 * 9 + 9 * 9 * 9 * 9);
}

#[test]
fn cells_and_labels_on_three_knots() {
    let knots = [0.0, 1.0, 2.0];
    let cell = |point: f64| ninterp_unchanged::locate_lower_index(knots.as_slice().into(), &point);
    assert_eq!([cell(1.0), cell(2.0), cell(-1.0)], [0, 1, 0]);
    let label = |point: f64| {
        let (mut value, mut labels) = ([UNTOUCHED], [9; 4]);
        let points = [3, 0, 0, 0];
        let refusal = query(
            1,
            &points,
            &[EXTEND; 4],
            &knots,
            &[0.0; 6],
            &[point],
            &mut value,
            &mut labels,
        );
        assert_eq!((refusal, &labels[1..]), (0, [0; 3].as_slice()));
        labels[0]
    };
    assert_eq!([label(1.0), label(2.0), label(-1.0)], [0, 1, 0]);
}

#[test]
fn not_a_knot_wants_points() {
    let knots = [0.0, 1.0, 2.0, 3.0];
    let refusal = |points: usize, kinds| solved(&knots[..points], &knots[..points], kinds).err();
    assert_eq!(refusal(3, [NOT_A_KNOT; 2]), Some(9));
    assert_eq!(refusal(4, [NOT_A_KNOT; 2]), None);
    for kinds in [[NOT_A_KNOT, FIRST], [SECOND, NOT_A_KNOT]] {
        assert_eq!(refusal(2, kinds), Some(9));
        assert_eq!(refusal(3, kinds), None);
    }
}

#[test]
fn knots_that_do_not_rise() {
    for knots in [[0.0, 0.0], [0.0, -0.0], [-1e308, 1e308]] {
        assert_eq!(solved(&knots, &[0.0, 1.0], NATURAL), Err(8));
    }
}

#[test]
fn a_point_that_is_no_number() {
    let line = [0.0, 1.0];
    assert_eq!(curve_at(&line, &line, &[0.0; 2], f64::NAN), Err(7));
    let (mut value, mut labels) = ([UNTOUCHED], [9; 4]);
    let (points, point) = ([2, 0, 0, 0], [f64::NAN]);
    let refusal = query(
        1,
        &points,
        &[EXTEND; 4],
        &line,
        &[0.0; 4],
        &point,
        &mut value,
        &mut labels,
    );
    assert_eq!((refusal, value[0].to_bits(), labels), (7, 0, [0; 4]));
}

/// What a build of zeros with natural ends on whole knots answers.
fn refusal_of_build(axes: usize, points: [usize; 4]) -> usize {
    let used = &points[..axes.min(4)];
    let samples = vec![0.0; used.iter().product()];
    let line = |count: &usize| (0..*count).map(|knot| knot as f64).collect::<Vec<_>>();
    let knots: Vec<f64> = used.iter().flat_map(line).collect();
    let mut tensor = vec![UNTOUCHED; samples.len() << used.len()];
    let mut scratch = vec![UNTOUCHED; tensor.len() + CURVE_SCRATCH];
    build(
        axes,
        &points,
        &[SECOND; 8],
        &[0.0; 8],
        &knots,
        &samples,
        &mut tensor,
        &mut scratch,
    )
}

#[test]
fn tensors_at_and_past_the_limit() {
    assert_eq!(refusal_of_build(2, [32, 32, 0, 0]), 0);
    assert_eq!(refusal_of_build(2, [25, 41, 0, 0]), 3);
    assert_eq!(refusal_of_build(5, [2, 2, 2, 2]), 1);
}

/// The example sheet, of one axis: 403 bits.
fn example_sheet() -> Vec<u8> {
    let one = 1.0f64.to_bits();
    let fields = [(1, 4), (1, 3), (1, 8), (2, 2), (2, 2), (0, 64), (0, 64)];
    let numbers = [(0, 64), (one, 64), (0, 64), (one, 64)];
    let mut bits = Vec::new();
    for (number, width) in fields.into_iter().chain(numbers) {
        bits.extend(
            (0..width)
                .rev()
                .map(|place: u32| (number >> place & 1) as u8),
        );
    }
    assert_eq!(bits.len(), 403);
    bits.resize(408, 0);
    let byte = |bits: &[u8]| bits.iter().fold(0, |byte, bit| byte << 1 | bit);
    bits.chunks(8).map(byte).collect()
}

/// What the sheet program prints.
fn printed(bytes: &[u8]) -> String {
    let (mut knots, mut samples) = (vec![UNTOUCHED; BUFFER], vec![UNTOUCHED; BUFFER]);
    let mut tensor = vec![UNTOUCHED; LONGEST_TENSOR];
    let mut scratch = vec![UNTOUCHED; LONGEST_TENSOR + CURVE_SCRATCH];
    let mut length = [9];
    let refusal = sheet_tensor(
        bytes,
        &mut knots,
        &mut samples,
        &mut [9],
        &mut [9; 4],
        &mut [9; 8],
        &mut [UNTOUCHED; 8],
        &mut [9; 4],
        &mut [9],
        &mut tensor,
        &mut scratch,
        &mut length,
    );
    if refusal != 0 {
        return format!("refused {refusal}\n");
    }
    let line = |number: &f64| format!("{:016X}\n", number.to_bits());
    let lines: String = tensor[..length[0]].iter().map(line).collect();
    format!("tensor {}\n{lines}", length[0])
}

#[test]
fn the_example_sheet_is_printed() {
    let sheet = example_sheet();
    assert_eq!(sheet.len(), 51);
    let expected =
        "tensor 4\n0000000000000000\n3FF0000000000000\n3FF0000000000000\n3FF0000000000000\n";
    assert_eq!(printed(&sheet), expected);
}

/// The sheet and the lines that `make sheet-by-hand` uses.
#[test]
fn the_sheet_packed_by_hand_is_printed() {
    let sheet = include_bytes!("../../../tests/sheet_by_hand/two_axes.sheet");
    let expected = include_str!("../../../tests/sheet_by_hand/expected.txt");
    assert_eq!(printed(sheet), expected);
}

#[test]
fn the_empty_sheet_is_refused() {
    assert_eq!(printed(&[]), "refused 11\n");
}

#[test]
fn a_sheet_cut_anywhere_is_refused_by_11() {
    let sheet = example_sheet();
    for length in 0..sheet.len() {
        assert_eq!(printed(&sheet[..length]), "refused 11\n");
    }
}

#[test]
fn bits_behind_the_last_sample() {
    let mut longer = example_sheet();
    longer.push(0);
    assert_eq!(printed(&longer), "refused 14\n");
    let mut marked = example_sheet();
    marked[50] |= 1;
    assert_eq!(printed(&marked), "refused 14\n");
}
