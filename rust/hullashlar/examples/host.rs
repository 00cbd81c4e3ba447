//! A host in Rust: it loads the sheet of a gain surface, asks for a gain,
//! finds a tensor that a loader left stale, changes the sample as it should
//! have been, asks again and writes the sheet back.

use hullashlar::{Axes, Refusal, Stale, Surface};
use std::process::ExitCode;
use std::{env, fs};

fn main() -> ExitCode {
    assert!(
        hullashlar::floats_ready(),
        "numbers would be rounded or flushed otherwise than the calls need it"
    );
    let (Some(path), Some(written)) = (env::args().nth(1), env::args().nth(2)) else {
        eprintln!("host SHEET WRITTEN");
        return ExitCode::from(2);
    };
    let sheet = fs::read(path).expect("the sheet can be read");
    match show(&sheet) {
        Ok(changed) => {
            fs::write(written, changed).expect("the sheet can be written");
            ExitCode::SUCCESS
        }
        Err(refusal) => {
            eprintln!("{refusal}");
            ExitCode::FAILURE
        }
    }
}

/// The sheet as it stands after the change.
fn show(sheet: &[u8]) -> Result<Vec<u8>, Refusal> {
    let mut surface = Surface::of_sheet(sheet)?;
    let Axes { count, points, .. } = surface.axes();
    println!(
        "sheet of {count} axes, {} and {} points; tensor of {} numbers",
        points[0],
        points[1],
        surface.tensor().len()
    );
    // A point outside what was measured has the gain of the nearest end: the sheet says so.
    let point = [1.5, 60.0];
    print_gain(&surface, point)?;
    let (place, sample) = ([2, 2], 15.0);
    overwrite(&mut surface, place, sample);
    print_gain(&surface, point)?;
    print_verified(&mut surface)?;
    change_and_compare(&mut surface, place, sample)?;
    print_gain(&surface, point)?;
    print_verified(&mut surface)?;
    let refusal = surface.query(&[1.5, f64::NAN]).err();
    println!(
        "gain at a level that is no number: refused {}",
        refusal.map_or(0, Refusal::number)
    );
    surface.sheet()
}

fn print_gain(surface: &Surface, point: [f64; 2]) -> Result<(), Refusal> {
    let (gain, cell) = surface.query(&point)?;
    println!(
        "gain at {:.1} kHz and {:.1} dB: {gain:.6} dB, in cell {}, {}",
        point[0], point[1], cell[0], cell[1]
    );
    Ok(())
}

fn sample_number(surface: &Surface, [row, column]: [usize; 2]) -> usize {
    row * surface.axes().points[1] + column
}

/// What a loader does that knows nothing of derivatives: the new sample is
/// written where it stands in the tensor, at mask 0.
fn overwrite(surface: &mut Surface, place: [usize; 2], sample: f64) {
    let number = sample_number(surface, place) << surface.axes().count;
    surface.tensor_mut()[number] = sample;
    let [row, column] = place;
    println!("sample at {row}, {column} overwritten by {sample:.1}");
}

fn print_verified(surface: &mut Surface) -> Result<(), Refusal> {
    match surface.verify()? {
        None => println!("the tensor is whole"),
        Some(Stale {
            place,
            mask,
            numbers,
        }) => println!(
            "the tensor is stale: {numbers} of its numbers differ, the first at {}, {} with mask {mask}",
            place[0], place[1]
        ),
    }
    Ok(())
}

/// The gain between measured points moves with the sample, and no number of the
/// tensor is an old one.
fn change_and_compare(
    surface: &mut Surface,
    place: [usize; 2],
    sample: f64,
) -> Result<(), Refusal> {
    let [row, column] = place;
    let old = surface.samples()[sample_number(surface, place)];
    let lanes = surface.change(&place, sample)?;
    println!(
        "sample at {row}, {column}: {sample:.1} in place of {old:.1}, {lanes} lanes solved again"
    );
    let changed = bits(surface);
    surface.rebuild()?;
    let same = if changed == bits(surface) {
        "yes"
    } else {
        "no"
    };
    println!("a fresh build of the new samples has the same bits: {same}");
    Ok(())
}

/// The bits of every number of the tensor.
fn bits(surface: &Surface) -> Vec<u64> {
    let numbers = surface.tensor().iter();
    numbers.map(|number| number.to_bits()).collect()
}
