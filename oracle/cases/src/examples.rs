//! The worked examples as cases, and a periodic axis of one interval whose slope overflows.

use crate::case::{Argument, Calls, Case};
use crate::device::{cell_at, step_at};
use crate::grid::Grid;
use crate::lending::{self, Point};
use crate::numbers::power_of_two;
use crate::random::Random;
use crate::reading_calls::Reading;
use crate::sheet::example_sheet;
use reading::{EXTEND, HOLD, REFUSE};

const NOT_A_KNOT: u8 = 0;
const FIRST: u8 = 1;
const SECOND: u8 = 2;
const PERIODIC: u8 = 3;

/// Every example, on one axis first.
pub fn examples() -> Vec<Case> {
    // Only what the answers are written over is random.
    let random = &mut Random::new(0);
    let mut cases = Vec::new();
    cases.extend(natural(random));
    cases.extend(first_derivatives(random));
    cases.extend(not_a_knot(random));
    cases.extend(periodic(random));
    cases.extend(square(random));
    cases.extend(labels(random));
    cases.extend(fewest_points(random));
    cases.extend(knots_that_do_not_rise(random));
    cases.extend(limits(random));
    cases.extend(steps(random));
    cases.extend(sheets(random));
    cases.extend(quick_queries(random));
    cases.extend(outside(random));
    cases.extend(even_queries(random));
    cases.extend(written(random));
    cases.extend(cells());
    cases.extend(written_in_edition_2(random));
    cases.extend(largest_sheets(random));
    cases.extend(surfaces(random));
    cases.extend(overwritten(random));
    cases.extend(out_of_reach(random));
    cases.extend(other_zeros(random));
    cases.extend(last_numbers(random));
    cases.extend(not_verified(random));
    cases
}

/// One axis with both ends of given kinds and value zero.
fn line(knots: &[f64], kinds: [u8; 2]) -> Grid {
    grid(&[knots], kinds)
}

/// Axes that all have the same ends.
fn grid(knots: &[&[f64]], kinds: [u8; 2]) -> Grid {
    let mut grid = Grid {
        axes: knots.len(),
        points: [0; 4],
        kinds: [0; 8],
        values: [0.0; 8],
        knots: knots.concat(),
    };
    for (axis, knots) in knots.iter().enumerate() {
        grid.points[axis] = knots.len();
        grid.kinds[2 * axis..2 * axis + 2].copy_from_slice(&kinds);
    }
    grid
}

/// A point on axes that all are extended.
fn extended(coordinates: &[f64]) -> Point {
    Point {
        modes: [EXTEND; 4],
        coordinates: coordinates.to_vec(),
    }
}

/// What the reading leaves in a slice of a case.
fn left_in(case: &Case, name: &str) -> Vec<f64> {
    let mut case = case.clone();
    Reading.run(&mut case);
    case.argument(name).floats().to_vec()
}

/// Moments, slopes and the curve at some points.
fn curve(random: &mut Random, line: &Grid, samples: &[f64], points: &[f64]) -> Vec<Case> {
    let solve = lending::moments(random, line, samples);
    let moments = left_in(&solve, "moments");
    let slopes = lending::slopes(random, &line.knots, samples, &moments);
    let mut cases = vec![solve, slopes];
    for point in points {
        let case = lending::curve(random, &line.knots, samples, &moments, *point);
        cases.push(case);
    }
    cases
}

fn natural(random: &mut Random) -> Vec<Case> {
    let line = line(&[0.0, 1.0, 2.0], [SECOND; 2]);
    curve(random, &line, &[0.0, 1.0, 0.0], &[0.5, f64::NAN])
}

fn first_derivatives(random: &mut Random) -> Vec<Case> {
    let line = line(&[0.0, 1.0], [FIRST; 2]);
    curve(random, &line, &[0.0, 1.0], &[0.5])
}

fn not_a_knot(random: &mut Random) -> Vec<Case> {
    let line = line(&[0.0, 1.0, 2.0, 3.0], [NOT_A_KNOT; 2]);
    curve(random, &line, &[1.0, 3.0, 5.0, 7.0], &[1.5, 4.0])
}

fn periodic(random: &mut Random) -> Vec<Case> {
    let unit = line(&[0.0, 1.0], [PERIODIC; 2]);
    // The step is so short that the slope overflows: the moments are zero all the same.
    let shortest = line(&[0.0, 5e-324], [PERIODIC; 2]);
    let mut cases = curve(random, &unit, &[0.0, 5.0], &[]);
    cases.extend(curve(random, &shortest, &[0.0, 1.0], &[]));
    cases
}

/// The square of two natural axes: its build, a query and a change.
fn square(random: &mut Random) -> Vec<Case> {
    let square = grid(&[&[0.0, 1.0], &[0.0, 1.0]], [SECOND; 2]);
    let build = lending::build(random, &square, &[0.0, 0.0, 0.0, 1.0]);
    let tensor = left_in(&build, "tensor");
    let query = lending::query(random, &square, &tensor, &extended(&[0.5, 0.5]));
    let nowhere = lending::query(random, &square, &tensor, &extended(&[0.5, f64::NAN]));
    let change = lending::change(random, &square, &tensor, [0, 1, 0, 0], 2.0);
    vec![build, query, nowhere, change]
}

fn labels(random: &mut Random) -> Vec<Case> {
    let line = line(&[0.0, 1.0, 2.0], [SECOND; 2]);
    let tensor = [0.0, 1.5, 1.0, 0.0, 0.0, -1.5];
    let mut at = |point: f64| lending::query(random, &line, &tensor, &extended(&[point]));
    vec![at(1.0), at(2.0), at(-1.0)]
}

/// Quick queries on knots that rise, that fall off the path and on it, and that are no
/// numbers there; the last is searched past its last cell.
fn quick_queries(random: &mut Random) -> Vec<Case> {
    let rising = [0.0, 1.0, 2.0];
    let falling = [0.0, 5.0, 1.0, 2.0, 9.0];
    let off_the_path = [0.0, f64::NAN, 2.0, 3.0, 4.0, 5.0];
    let last_no_number = [0.0, 1.0, f64::NAN];
    let mut at = |knots: &[f64], point: f64| {
        let line = line(knots, [SECOND; 2]);
        let tensor: Vec<f64> = (0..2 * knots.len()).map(|at| at as f64).collect();
        lending::quick_query(random, &line, &tensor, &extended(&[point]))
    };
    vec![
        at(&rising, 1.0),
        at(&rising, 2.0),
        at(&rising, -1.0),
        at(&falling, 3.0),
        at(&falling, 0.5),
        at(&off_the_path, 2.5),
        at(&off_the_path, f64::NAN),
        at(&last_no_number, 1.5),
        at(&[-1e308, 1e308], 0.0),
    ]
}

/// Both queries below, at and above the ends of three knots, in each mode; past the axis
/// in use stands no mode at all.
fn outside(random: &mut Random) -> Vec<Case> {
    let line = line(&[0.0, 1.0, 2.0], [SECOND; 2]);
    let tensor = [0.0, 1.5, 1.0, 0.0, 0.0, -1.5];
    let mut cases = Vec::new();
    for mode in [EXTEND, HOLD, REFUSE] {
        for coordinate in [-1.0, 0.0, 2.0, 3.0] {
            let point = Point {
                modes: [mode, 3, 3, 3],
                coordinates: vec![coordinate],
            };
            cases.push(lending::query(random, &line, &tensor, &point));
            cases.push(lending::quick_query(random, &line, &tensor, &point));
        }
    }
    cases
}

/// Queries in the profile: at an interior knot, past what a whole number holds, held there, at
/// the tolerance and past it, with a tiny step, out of reach, and uneven on the second axis.
fn even_queries(random: &mut Random) -> Vec<Case> {
    let far = 18_446_744_073_709_551_616.0;
    let (last_even, tiny) = (2.0 + power_of_two(-42), power_of_two(-1030));
    let least = power_of_two(-1072);
    let mut at = |mode: u8, knots: &[f64], coordinate: f64| {
        let tensor: Vec<f64> = (0..2 * knots.len()).map(|at| at as f64).collect();
        let point = Point {
            modes: [mode, 3, 3, 3],
            coordinates: vec![coordinate],
        };
        lending::even_query(random, &line(knots, [SECOND; 2]), &tensor, &point)
    };
    let mut cases = vec![
        at(EXTEND, &[0.0, 1.0, 2.0], 1.0),
        at(EXTEND, &[0.0, 1.0, 2.0], far),
        at(EXTEND, &[0.0, 1.0, 2.0], f64::next_down(far)),
        at(HOLD, &[0.0, 1.0, 2.0], far),
        at(REFUSE, &[0.0, 1.0, 2.0], far),
        at(EXTEND, &[0.0, 1.0, last_even], 0.5),
        at(EXTEND, &[0.0, 1.0, last_even.next_up()], 0.5),
        at(EXTEND, &[0.0, tiny, 2.0 * tiny + least], tiny),
        at(EXTEND, &[0.0, tiny, (2.0 * tiny + least).next_up()], tiny),
        at(EXTEND, &[-1e308, 0.0, 1e308], 1e308),
        at(REFUSE, &[0.0, 1.0, 3.0, 4.0], far),
    ];
    let axes = grid(&[&[0.0, 1.0], &[0.0, 1.0, 2.0, 4.0]], [SECOND; 2]);
    let point = extended(&[0.5, 0.5]);
    cases.push(lending::even_query(random, &axes, &[1.0; 32], &point));
    cases
}

/// The example sheet in each edition, and no bytes, through each call of a sheet.
fn sheets(random: &mut Random) -> Vec<Case> {
    let sheets = [example_sheet(1), example_sheet(2), Vec::new()];
    let mut through = |sheet: &Vec<u8>| {
        [
            lending::read(random, sheet),
            lending::sheet_tensor(random, sheet, 4),
            lending::read_edition_1(random, sheet),
        ]
    };
    sheets.iter().flat_map(&mut through).collect()
}

/// The example sheet written to as many bytes, to one fewer and to more; and one that is
/// refused before its bytes are counted.
fn written(random: &mut Random) -> Vec<Case> {
    let samples = [0.0, 1.0];
    let natural = line(&samples, [SECOND; 2]);
    let too_few = line(&samples, [NOT_A_KNOT; 2]);
    let no_number = [0.0, f64::NAN];
    let mut write = |line: &Grid, samples: &[f64], room| {
        lending::write(random, line, [EXTEND; 4], samples, 1, room)
    };
    vec![
        write(&natural, &samples, 51),
        write(&natural, &samples, 50),
        write(&natural, &samples, 53),
        write(&too_few, &samples, 0),
        write(&natural, &no_number, 51),
    ]
}

/// The example in each mode, in edition 2 and where it has no room for the mode, in an edition that
/// there is not, and in a mode that there is not. Past the axis in use stands no mode at all.
fn written_in_edition_2(random: &mut Random) -> Vec<Case> {
    let samples = [0.0, 1.0];
    let natural = line(&samples, [SECOND; 2]);
    let mut write = |mode: u8, edition: usize, room: usize| {
        let modes = [mode, 3, HOLD, 255];
        lending::write(random, &natural, modes, &samples, edition, room)
    };
    vec![
        write(EXTEND, 2, 51),
        write(HOLD, 2, 51),
        write(REFUSE, 2, 52),
        write(REFUSE, 2, 50),
        write(EXTEND, 1, 51),
        write(HOLD, 1, 51),
        write(REFUSE, 1, 50),
        write(HOLD, 0, 51),
        write(EXTEND, 3, 50),
        write(3, 1, 51),
    ]
}

/// The sheets of the most bytes, 10,308 in edition 1 and 10,309 in edition 2: written to as many
/// bytes and to one fewer, and read.
fn largest_sheets(random: &mut Random) -> Vec<Case> {
    let knots: Vec<f64> = (0..256).map(|knot| knot as f64).collect();
    let grid = grid(&[&knots, &knots[..4]], [FIRST, SECOND]);
    let samples: Vec<f64> = (0..1024).map(|sample| sample as f64).collect();
    let mut cases = Vec::new();
    for (edition, length) in [(1, 10_308), (2, 10_309)] {
        let mut write = |room| lending::write(random, &grid, [EXTEND; 4], &samples, edition, room);
        let (written, short) = (write(length), write(length - 1));
        let mut answered = written.clone();
        Reading.run(&mut answered);
        let sheet = answered.argument("bytes").bytes();
        cases.push(lending::read(random, sheet));
        cases.push(lending::sheet_tensor(random, sheet, 4096));
        cases.extend([written, short]);
    }
    cases
}

/// The sheet of the example in an edition and a mode, asked inside and outside its knots, at no
/// number, with minus zero as an unused coordinate; cut; and tensors of 512 numbers and of 576, which
/// has the fewest bytes of all that are too long.
fn surfaces(random: &mut Random) -> Vec<Case> {
    let example = example_sheet(1);
    let mut held = example_sheet(2);
    held[2] |= HOLD << 3;
    let mut at = |points: [usize; 4]| {
        let knots = points.map(|count| &[0.0, 1.0, 2.0, 3.0][..count]);
        let grid = grid(&knots, [PERIODIC; 2]);
        let samples: Vec<f64> = (0..grid.samples()).map(|sample| sample as f64).collect();
        let mut write = lending::write(random, &grid, [EXTEND; 4], &samples, 1, 400);
        Reading.run(&mut write);
        let length = write.argument("length").numbers()[0];
        lending::surface(&write.argument("bytes").bytes()[..length], &[0.5; 4])
    };
    let (longest, too_long) = (at([2, 2, 2, 4]), at([2, 2, 3, 3]));
    vec![
        lending::surface(&example, &[0.5]),
        lending::surface(&example, &[2.0]),
        lending::surface(&held, &[2.0]),
        lending::surface(&example, &[f64::NAN]),
        lending::surface(&example, &[0.5, 0.0, 0.0, -0.0]),
        lending::surface(&example[..50], &[0.5, 1.0]),
        longest,
        too_long,
    ]
}

/// What a case leaves in its tensor, to be held against the build of its samples.
fn verified(random: &mut Random, grid: &Grid, left: &Case) -> Case {
    lending::verify(random, grid, &left_in(left, "tensor"))
}

/// A hill as it was built, with its middle sample overwritten, and with that changed to itself.
fn overwritten(random: &mut Random) -> Vec<Case> {
    let hill = grid(&[&[0.0, 1.0, 2.0], &[0.0, 1.0, 2.0]], [SECOND; 2]);
    let samples = [0.0, 1.0, 0.0, 1.0, 3.0, 1.0, 0.0, 1.0, 0.0];
    let build = lending::build(random, &hill, &samples);
    let mut tensor = left_in(&build, "tensor");
    tensor[16] = 5.0;
    let change = lending::change(random, &hill, &tensor, [1, 1, 0, 0], 5.0);
    vec![
        verified(random, &hill, &build),
        lending::verify(random, &hill, &tensor),
        verified(random, &hill, &change),
    ]
}

/// A slope damaged where the change of another sample does not reach it, before that and after.
fn out_of_reach(random: &mut Random) -> Vec<Case> {
    let square = grid(&[&[0.0, 1.0], &[0.0, 1.0]], [SECOND; 2]);
    let build = lending::build(random, &square, &[0.0, 0.0, 0.0, 1.0]);
    let mut tensor = left_in(&build, "tensor");
    tensor[1] = 9.0;
    let change = lending::change(random, &square, &tensor, [1, 1, 0, 0], 1.0);
    let damaged = lending::verify(random, &square, &tensor);
    vec![damaged, verified(random, &square, &change)]
}

/// A slope of minus zero where plus zero belongs, one where it belongs itself, and plus zero there.
fn other_zeros(random: &mut Random) -> Vec<Case> {
    let flat = line(&[0.0, 1.0, 2.0], [SECOND; 2]);
    let signed = line(&[0.0, 1.0], [PERIODIC; 2]);
    vec![
        lending::verify(random, &flat, &[1.0, 0.0, 1.0, -0.0, 1.0, 0.0]),
        lending::verify(random, &signed, &[0.0, -0.0, -0.0, 0.0]),
        lending::verify(random, &signed, &[0.0, 0.0, -0.0, 0.0]),
    ]
}

/// On one to four axes a last number that is off by one unit.
fn last_numbers(random: &mut Random) -> Vec<Case> {
    let knots: [&[f64]; 4] = [&[0.0, 1.0]; 4];
    let mut last_off = |axes: usize| {
        let grid = grid(&knots[..axes], [SECOND; 2]);
        let samples: Vec<f64> = (0..grid.samples()).map(|at| (at * at) as f64).collect();
        let mut tensor = left_in(&lending::build(random, &grid, &samples), "tensor");
        let last = tensor.len() - 1;
        tensor[last] = tensor[last].next_up();
        lending::verify(random, &grid, &tensor)
    };
    [1, 2, 3, 4].map(&mut last_off).into()
}

/// A slope that is no number, knots that do not rise, too few points, samples whose build
/// overflows, and slots of other lengths, one beside nothing else and one beside a slope that is no
/// number.
fn not_verified(random: &mut Random) -> Vec<Case> {
    let knots = [0.0, 1.0, 2.0];
    let natural = line(&knots, [SECOND; 2]);
    let falling = line(&[0.0, 1.0, 1.0], [SECOND; 2]);
    let too_few = line(&knots, [NOT_A_KNOT; 2]);
    let no_number = [0.0, 0.0, 0.0, f64::NAN, 0.0, 0.0];
    let steep = [1.7e308, 0.0, -1.7e308, 0.0, 1.7e308, 0.0];
    let mut cases = vec![
        lending::verify(random, &natural, &no_number),
        lending::verify(random, &falling, &[0.0; 6]),
        lending::verify(random, &too_few, &[0.0; 6]),
        lending::verify(random, &natural, &steep),
    ];
    let mut short_place = lending::verify(random, &natural, &[0.0; 6]);
    short_place.argument_mut("place").resize(3);
    let mut long_found = cases[0].clone();
    long_found.argument_mut("found").resize(4);
    cases.extend([short_place, long_found]);
    cases
}

/// NotAKnot with one point too few, and with just enough.
fn fewest_points(random: &mut Random) -> Vec<Case> {
    let knots = [0.0, 1.0, 2.0, 3.0];
    let mut solve = |points: usize, kinds: [u8; 2]| {
        let knots = &knots[..points];
        lending::moments(random, &line(knots, kinds), knots)
    };
    vec![
        solve(3, [NOT_A_KNOT; 2]),
        solve(4, [NOT_A_KNOT; 2]),
        solve(2, [NOT_A_KNOT, FIRST]),
        solve(3, [NOT_A_KNOT, FIRST]),
        solve(2, [SECOND, NOT_A_KNOT]),
        solve(3, [SECOND, NOT_A_KNOT]),
    ]
}

fn knots_that_do_not_rise(random: &mut Random) -> Vec<Case> {
    let pairs = [[0.0, 0.0], [0.0, -0.0], [-1e308, 1e308]];
    let mut solve = |knots: [f64; 2]| {
        let line = line(&knots, [SECOND; 2]);
        lending::moments(random, &line, &[0.0, 1.0])
    };
    pairs.map(&mut solve).into()
}

/// Tensors of 4,096 and 4,100 numbers, and five axes.
fn limits(random: &mut Random) -> Vec<Case> {
    let knots: Vec<f64> = (0..41).map(|knot| knot as f64).collect();
    let mut build = |first: usize, second: usize| {
        let grid = grid(&[&knots[..first], &knots[..second]], [SECOND; 2]);
        lending::build(random, &grid, &vec![0.0; first * second])
    };
    let mut five = build(2, 2);
    *five.argument_mut("axes") = Argument::Number(5);
    vec![build(32, 32), build(25, 41), five]
}

/// Points on, between and beyond the knots 0 1 2, in both directions; a fraction of 1 between two
/// knots, one that overflows, and the cell of a surface in all four directions.
fn steps(random: &mut Random) -> Vec<Case> {
    let knots = [0.0, 1.0, 2.0];
    let points = [-1.0, 0.0, 0.5, 1.0, 1.5, 2.0, 3.0];
    let mut cases = Vec::new();
    for point in points {
        cases.push(lending::locate_step_index(&knots, 0, point));
        cases.push(lending::locate_step_index(&knots, 1, point));
        cases.push(lending::locate_axis(random, &knots, point));
        cases.push(lending::exact_index(&knots, 0, point));
    }
    cases.push(lending::exact_index(&knots, 2, 2.0));
    cases.push(lending::locate_axis(random, &[-1.0, 2e-17], 1e-17));
    cases.push(lending::locate_axis(random, &[0.0, 5e-324], 1e308));
    let grid = grid(&[&[0.0, 1.0], &[10.0, 20.0, 30.0]], [SECOND; 2]);
    let samples = [0.0, 1.0, 2.0, 3.0, 4.0, 5.0];
    for directions in [[0, 0, 2, 2], [0, 1, 2, 2], [1, 0, 2, 2], [1, 1, 2, 2]] {
        let case = lending::stepped(random, &grid, directions, &samples, &[0.5, 25.0]);
        cases.push(case);
    }
    cases
}

/// Cells in whole numbers: a half on either side of zero, the farthest reach, both ends, and the
/// refusals; and the cursor at the start, before the end, at it and past it.
fn cells() -> Vec<Case> {
    let mut cases = vec![
        cell_at([0, 1, 0, 0], 128),
        cell_at([0, -1, 0, 0], 128),
        cell_at([32_767, 32_767, 131_071, -131_072], 128),
        cell_at([-32_768, -32_768, -131_072, 131_071], 128),
        cell_at([-7, 11, 300, -5], 0),
        cell_at([-7, 11, 300, -5], 255),
        cell_at([-7, 11, 300, -5], 256),
        cell_at([32_768, 0, 0, 0], 257),
        cell_at([0, 0, 0, -131_073], 0),
        cell_at([32_767, 0, 0, 0], 257),
        cell_at([0, 0, 0, 0], -1),
    ];
    let good = [1, -2, 256, -131_072].map(i32::to_le_bytes).concat();
    let off = [32_768, 0, 0, 0].map(i32::to_le_bytes).concat();
    for n in [0, 128, 255, 256, 257, u32::MAX as usize] {
        cases.push(step_at(&good, n));
    }
    cases.extend([
        step_at(&good[..14], 0),
        step_at(&off[..14], 0),
        step_at(&off, 257),
        step_at(&[good.clone(), off].concat(), 0),
        step_at(&[], 0),
    ]);
    cases
}
