//! What the example hosts and the example firmware print of the sheet of a gain surface.

use crate::grid::Grid;
use reading::{surface, BUFFER, CURVE_SCRATCH, REFUSED};

/// The gain at a frequency and a level, then with the sample alone overwritten, what is stale then, the changed sample, and the gain
/// after it.
pub fn host(sheet: &[u8]) -> String {
    let (grid, modes, samples) = read(sheet);
    let mut scratch = vec![0.0; (samples.len() << 2) + CURVE_SCRATCH];
    let mut tensor = vec![0.0; samples.len() << 2];
    accepted(grid.build(&samples, &mut tensor, &mut scratch));
    let (rows, columns) = (grid.points[0], grid.points[1]);
    let before = gain(&grid, modes, &tensor);

    let mut stale = tensor.clone();
    stale[(2 * columns + 2) << 2] = 15.0;
    let bulged = gain(&grid, modes, &stale);
    let found = verified(&grid, &stale, &mut scratch);

    let mut changed = samples.clone();
    changed[2 * columns + 2] = 15.0;
    let mut fresh = tensor.clone();
    let (refusal, lanes) = grid.change(&mut tensor, &mut scratch, [2, 2, 0, 0], 15.0);
    accepted(refusal);
    accepted(grid.build(&changed, &mut fresh, &mut scratch));
    let mut pairs = tensor.iter().zip(&fresh);
    let same = pairs.all(|(number, fresh)| number.to_bits() == fresh.to_bits());
    let same = if same { "yes" } else { "no" };

    let (length, old) = (tensor.len(), samples[2 * columns + 2]);
    let after = gain(&grid, modes, &tensor);
    let found_then = verified(&grid, &tensor, &mut scratch);
    let (refusal, _, _) = grid.query(modes, &tensor, &[1.5, f64::NAN]);
    format!(
        "sheet of {} axes, {rows} and {columns} points; tensor of {length} numbers\n\
         {before}\
         sample at 2, 2 overwritten by 15.0\n\
         {bulged}\
         {found}\
         sample at 2, 2: 15.0 in place of {old:.1}, {lanes} lanes solved again\n\
         a fresh build of the new samples has the same bits: {same}\n\
         {after}\
         {found_then}\
         gain at a level that is no number: refused {refusal}\n",
        grid.axes
    )
}

/// What the example firmware prints of the same sheet: a gain, and three refusals.
pub fn firmware(sheet: &[u8]) -> String {
    let [frequency, level] = [1.5_f64, 60.0].map(f64::to_bits);
    let answered = |bytes, level, third| match surface(bytes, [frequency, level, third, 0]) {
        answer if answer & REFUSED == REFUSED => format!("refused {}", answer - REFUSED),
        answer => format!("{:.6} dB", f64::from_bits(answer)),
    };
    format!(
        "gain at 1.5 kHz and 60.0 dB: {}\n\
         at a level that is no number: {}\n\
         with a third coordinate of -0: {}\n\
         of half the sheet: {}\n",
        answered(sheet, level, 0),
        answered(sheet, f64::NAN.to_bits(), 0),
        answered(sheet, level, (-0.0_f64).to_bits()),
        answered(&sheet[..sheet.len() / 2], level, 0)
    )
}

fn accepted(refusal: usize) {
    assert_eq!(refusal, 0, "the example's calls are accepted");
}

/// The grid, the modes and the samples of a sheet.
fn read(sheet: &[u8]) -> (Grid, [u8; 4], Vec<f64>) {
    let (mut grid, mut modes) = (Grid::new(&[]), [0; 4]);
    let (mut knots, mut samples, mut axes) = (vec![0.0; BUFFER], vec![0.0; BUFFER], [0]);
    accepted(reading::read(
        sheet,
        &mut knots,
        &mut samples,
        &mut axes,
        &mut grid.points,
        &mut grid.kinds,
        &mut grid.values,
        &mut modes,
        &mut [0],
    ));
    grid.axes = axes[0];
    let points = &grid.points[..grid.axes];
    knots.truncate(points.iter().sum());
    samples.truncate(points.iter().product());
    grid.knots = knots;
    (grid, modes, samples)
}

/// Whether a tensor is that of its own samples, and else where it first is not.
fn verified(grid: &Grid, tensor: &[f64], scratch: &mut [f64]) -> String {
    let (refusal, found) = grid.verify(tensor, scratch);
    accepted(refusal);
    if found.whole {
        return "the tensor is whole\n".to_owned();
    }
    format!(
        "the tensor is stale: {} of its numbers differ, the first at {}, {} with mask {}\n",
        found.differing, found.place[0], found.place[1], found.mask
    )
}

fn gain(grid: &Grid, modes: [u8; 4], tensor: &[f64]) -> String {
    let (refusal, gain, cell) = grid.query(modes, tensor, &[1.5, 60.0]);
    accepted(refusal);
    format!(
        "gain at 1.5 kHz and 60.0 dB: {gain:.6} dB, in cell {}, {}\n",
        cell[0], cell[1]
    )
}
