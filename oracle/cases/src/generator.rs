//! One case of each kind from a sequence of random numbers.

use crate::any_knots::disturb;
use crate::case::{Call, Calls, Case};
use crate::device;
use crate::even_knots::{far, make_even};
use crate::faults::spoil;
use crate::grid::Grid;
use crate::lending::{self, Point};
use crate::numbers::list;
use crate::overflow::take_an_end_to_the_edge;
use crate::random::Random;
use crate::reading_calls::Reading;
use crate::sheet::{damaged_sheet, good_sheet, length_of, swept_sheet};
use crate::stream::STOPPING;
use crate::verification;
use reading::{CURVE_SCRATCH, EDITIONS, EXTEND, LONGEST_TENSOR};

/// The kinds of cases: the worked examples, one kind for each call, lists
/// of changes, the sheets of up to two bytes, changes in two orders, quick queries
/// beside full ones, direct queries beside those of even axes, and these where the knots were looked at once, the
/// reader's sheets written back, surfaces asked at every place, the
/// device's program, streams of sheets for the report, sheets for the program that prints
/// their tensors, and slices of no items.
#[derive(Debug, Clone, Copy, PartialEq, Eq)]
pub enum Kind {
    Example,
    Moments,
    Curve,
    Slopes,
    Build,
    Change,
    ChangeList,
    Query,
    Read,
    SheetTensor,
    ShortSheet,
    EitherOrder,
    QuickQuery,
    QuickBesideFull,
    EvenQuery,
    Write,
    WrittenBack,
    ExactIndex,
    LocateAxis,
    LocateStepIndex,
    Stepped,
    AtEveryPlace,
    CellValue,
    CursorNext,
    DeviceCurve,
    ReadEdition1,
    Surface,
    Report,
    Verify,
    DirectQuery,
    DirectBesideEven,
    QuickQueries,
    DirectQueries,
    SheetText,
    EmptySlice,
    EvenProfile,
    ProfiledDirect,
    SteppedMany,
}

/// Every kind, in the order of the report.
pub const KINDS: [Kind; 38] = [
    Kind::Example,
    Kind::Moments,
    Kind::Curve,
    Kind::Slopes,
    Kind::Build,
    Kind::Change,
    Kind::ChangeList,
    Kind::Query,
    Kind::Read,
    Kind::SheetTensor,
    Kind::ShortSheet,
    Kind::EitherOrder,
    Kind::QuickQuery,
    Kind::QuickBesideFull,
    Kind::EvenQuery,
    Kind::Write,
    Kind::WrittenBack,
    Kind::ExactIndex,
    Kind::LocateAxis,
    Kind::LocateStepIndex,
    Kind::Stepped,
    Kind::AtEveryPlace,
    Kind::CellValue,
    Kind::CursorNext,
    Kind::DeviceCurve,
    Kind::ReadEdition1,
    Kind::Surface,
    Kind::Report,
    Kind::Verify,
    Kind::DirectQuery,
    Kind::DirectBesideEven,
    Kind::QuickQueries,
    Kind::DirectQueries,
    Kind::SteppedMany,
    Kind::SheetText,
    Kind::EmptySlice,
    Kind::EvenProfile,
    Kind::ProfiledDirect,
];

impl Kind {
    /// The name that the runner prints and takes.
    pub fn name(self) -> &'static str {
        match self {
            Kind::Example => "example",
            Kind::Moments => "moments",
            Kind::Curve => "curve",
            Kind::Slopes => "slopes",
            Kind::Build => "build",
            Kind::Change => "change",
            Kind::ChangeList => "change_list",
            Kind::Query => "query",
            Kind::Read => "read",
            Kind::SheetTensor => "sheet_tensor",
            Kind::ShortSheet => "short_sheet",
            Kind::EitherOrder => "either_order",
            Kind::QuickQuery => "quick_query",
            Kind::QuickBesideFull => "quick_beside_full",
            Kind::EvenQuery => "even_query",
            Kind::Write => "write",
            Kind::WrittenBack => "written_back",
            Kind::ExactIndex => "exact_index",
            Kind::LocateAxis => "locate_axis",
            Kind::LocateStepIndex => "locate_step_index",
            Kind::Stepped => "stepped",
            Kind::AtEveryPlace => "at_every_place",
            Kind::CellValue => "cell_value",
            Kind::CursorNext => "cursor_next",
            Kind::DeviceCurve => "device_curve",
            Kind::ReadEdition1 => "read_edition_1",
            Kind::Surface => "surface",
            Kind::Report => "report",
            Kind::Verify => "verify",
            Kind::DirectQuery => "direct_query",
            Kind::DirectBesideEven => "direct_beside_even",
            Kind::QuickQueries => "quick_queries",
            Kind::DirectQueries => "direct_queries",
            Kind::SteppedMany => "stepped_many",
            Kind::SheetText => "sheet_text",
            Kind::EmptySlice => "empty_slice",
            Kind::EvenProfile => "even_profile",
            Kind::ProfiledDirect => "profiled_direct",
        }
    }

    /// Whether a case of the kind runs a program.
    pub fn runs_a_program(self) -> bool {
        matches!(self, Kind::DeviceCurve | Kind::Report | Kind::SheetText)
    }

    /// The refusals that the calls of the kind have.
    pub fn refusals(self) -> &'static [usize] {
        match self {
            Kind::Example => &[
                1, 3, 4, 6, 7, 8, 9, 10, 11, 12, 15, 16, 17, 18, 19, 20, 21, 22, 23,
            ],
            Kind::Moments => &[2, 4, 5, 7, 8, 9, 10, 13],
            Kind::Curve | Kind::Slopes => &[2, 4, 7, 8, 10],
            Kind::Build => &[1, 2, 3, 4, 5, 7, 8, 9, 10, 13],
            Kind::Change | Kind::ChangeList | Kind::EitherOrder => {
                &[1, 2, 3, 4, 5, 6, 7, 8, 9, 10, 13]
            }
            Kind::Query | Kind::QuickQuery => &[1, 2, 3, 4, 7, 8, 10, 18, 22],
            Kind::Read => &[1, 2, 3, 4, 11, 12, 13, 14, 22],
            Kind::ReadEdition1 => &[1, 2, 3, 4, 11, 12, 13, 14],
            Kind::SheetTensor => &[1, 2, 3, 4, 5, 7, 8, 9, 10, 11, 12, 13, 14, 22],
            Kind::ShortSheet => &[1, 11, 12],
            Kind::EvenQuery => &[1, 2, 3, 4, 7, 8, 10, 18, 21, 22],
            Kind::Write => &[1, 2, 3, 4, 7, 8, 9, 12, 13, 15, 22, 23],
            Kind::WrittenBack => &[1, 2, 3, 4, 7, 8, 9, 11, 12, 13, 14, 15, 22, 23],
            Kind::QuickBesideFull => &[1, 2, 3, 4, 7, 10, 18, 22],
            Kind::ExactIndex => &[2, 4, 6, 7, 8],
            Kind::LocateAxis => &[2, 4, 7, 8, 10],
            Kind::LocateStepIndex => &[2, 4, 7, 8, 22],
            Kind::Stepped => &[1, 2, 3, 4, 7, 8, 22],
            Kind::AtEveryPlace => &[5, 6, 7, 10],
            Kind::CellValue | Kind::CursorNext => &[4, 19, 20],
            // What the program prints is compared, its refusals too.
            Kind::DeviceCurve => &[],
            Kind::Surface => &[1, 2, 3, 7, 8, 9, 10, 11, 12, 13, 14, 16, 17, 18, 22],
            // Those at which a report stops.
            Kind::Report => &STOPPING,
            Kind::Verify => &[1, 2, 3, 4, 5, 7, 8, 9, 10, 13],
            Kind::DirectQuery => &[1, 2, 3, 4, 7, 8, 10, 18, 22],
            Kind::DirectBesideEven => &[1, 2, 3, 4, 7, 10, 18, 21, 22],
            // From 7 on each point has its own.
            Kind::QuickQueries | Kind::DirectQueries | Kind::SteppedMany => &[1, 2, 3, 4, 22],
            Kind::SheetText => &[1, 2, 3, 7, 8, 9, 10, 11, 12, 13, 14, 22],
            Kind::EmptySlice => &[4, 5, 11, 15, 20],
            Kind::EvenProfile => &[1, 2, 3, 4, 7, 8, 21],
            Kind::ProfiledDirect => &[1, 2, 3, 4, 7, 8, 10, 18, 21, 22],
        }
    }

    /// Whether a case of the kind is one call that is generated.
    pub fn is_single_call(self) -> bool {
        !matches!(
            self,
            Kind::Example
                | Kind::ChangeList
                | Kind::ShortSheet
                | Kind::EitherOrder
                | Kind::QuickBesideFull
                | Kind::WrittenBack
                | Kind::AtEveryPlace
                | Kind::DeviceCurve
                | Kind::Report
                | Kind::DirectBesideEven
                | Kind::SheetText
                | Kind::EmptySlice
                | Kind::ProfiledDirect
        )
    }
}

/// So many cases in a hundred get a fault; some fail without one.
const FAULTY: usize = 36;

/// So many get an end's value at the edge of overflow, where they have an end.
const AT_THE_EDGE: usize = 1;

/// A damaged sheet is often still a good one for the reader, so it gets more
/// faults; of what it accepts the build refuses some.
const FAULTY_TO_READ: usize = 46;
const FAULTY_TO_BUILD: usize = 30;

/// On knots of any sort many a cell is refused without another fault; on knots that
/// a full query accepts the two are to be compared, and not their refusals.
const FAULTY_QUICK: usize = 4;
const FAULTY_BESIDE: usize = 4;

/// Some buffers are too short without a fault; what is accepted is read back, and counted
/// once more.
const FAULTY_TO_WRITE: usize = 52;

/// Of surfaces some sheets are damaged, and some coordinates off, often both; some tensors are too
/// long without either.
const DAMAGED_SURFACES: usize = 12;
const FAULTY_SURFACES: usize = 9;
const FAULTY_BESIDE_DAMAGE: usize = 60;

/// Axes that are not even are refused without another fault.
const FAULTY_EVEN: usize = 18;

/// Of knots that are looked at once fewer are refused without a fault.
const FAULTY_PROFILE: usize = 30;

/// Of many points a fault of a coordinate refuses that point alone.
const FAULTY_MANY: usize = 44;

/// The same of a knot or a sample.
const FAULTY_STEPPED_MANY: usize = 54;

/// Of the tensors to be verified some have samples that cannot be built.
const FAULTY_TO_VERIFY: usize = 28;

/// The case of a kind that is a single call, by its number.
pub fn single(kind: Kind, number: usize, random: &mut Random) -> Case {
    match kind {
        Kind::Moments => moments(random),
        Kind::Curve => curve(random),
        Kind::Slopes => slopes(random),
        Kind::Build => build(random),
        Kind::Change => change(random),
        Kind::Query => query(random),
        Kind::Read => read(random, number),
        Kind::SheetTensor => sheet_tensor(random, number),
        Kind::QuickQuery => quick_query(random),
        Kind::EvenQuery => even_query(random),
        Kind::Write => write(random),
        Kind::ExactIndex => exact_index(random),
        Kind::LocateAxis => locate_axis(random),
        Kind::LocateStepIndex => locate_step_index(random),
        Kind::Stepped => stepped(random),
        Kind::CellValue => device::cell_value(number),
        Kind::CursorNext => device::cursor_next(random),
        Kind::ReadEdition1 => read_edition_1(random, number),
        Kind::Surface => surface(random, number),
        Kind::Verify => verify(random),
        Kind::DirectQuery => direct_query(random),
        Kind::QuickQueries => queries(random, Call::QuickQueries),
        Kind::DirectQueries => queries(random, Call::DirectQueries),
        Kind::EvenProfile => even_profile(random),
        Kind::SteppedMany => stepped_many(random),
        Kind::Example
        | Kind::ChangeList
        | Kind::ShortSheet
        | Kind::EitherOrder
        | Kind::QuickBesideFull
        | Kind::WrittenBack
        | Kind::AtEveryPlace
        | Kind::DeviceCurve
        | Kind::Report
        | Kind::DirectBesideEven
        | Kind::SheetText
        | Kind::EmptySlice
        | Kind::ProfiledDirect => {
            panic!("not one call: {}", kind.name())
        }
    }
}

/// The moments of generated samples.
fn moments(random: &mut Random) -> Case {
    let line = Grid::line(random);
    let samples = list(random, line.samples());
    let case = lending::moments(random, &line, &samples);
    altered_at_times(random, case)
}

/// The curve at a generated point.
fn curve(random: &mut Random) -> Case {
    let (line, samples, moments) = solved_curve(random);
    let point = line.coordinates(random)[0];
    let case = lending::curve(random, &line.knots, &samples, &moments, point);
    altered_at_times(random, case)
}

/// The slopes of a generated curve.
fn slopes(random: &mut Random) -> Case {
    let (line, samples, moments) = solved_curve(random);
    let case = lending::slopes(random, &line.knots, &samples, &moments);
    altered_at_times(random, case)
}

/// The build of generated samples.
fn build(random: &mut Random) -> Case {
    let grid = Grid::generate(random);
    let samples = list(random, grid.samples());
    let case = lending::build(random, &grid, &samples);
    altered_at_times(random, case)
}

/// A change in a generated tensor.
fn change(random: &mut Random) -> Case {
    let grid = Grid::generate(random);
    let tensor = tensor(random, &grid);
    let case = change_of(random, &grid, &tensor);
    altered_at_times(random, case)
}

/// A change somewhere in a tensor on a grid.
pub fn change_of(random: &mut Random, grid: &Grid, tensor: &[f64]) -> Case {
    let place = grid.place(random);
    let sample = list(random, 1)[0];
    lending::change(random, grid, tensor, place, sample)
}

/// A tensor that is whole, stale or damaged, to be held against the build of its samples.
fn verify(random: &mut Random) -> Case {
    let case = verification::verify(random);
    altered(random, case, FAULTY_TO_VERIFY)
}

/// A query of a generated tensor.
fn query(random: &mut Random) -> Case {
    let grid = Grid::generate(random);
    let tensor = tensor(random, &grid);
    let point = Point::generate(random, &grid);
    let case = lending::query(random, &grid, &tensor, &point);
    altered_at_times(random, case)
}

/// A quick query, most often on knots that a full one refuses.
fn quick_query(random: &mut Random) -> Case {
    let mut grid = searched_grid(random);
    let point = if random.percent(75) {
        disturb(random, &mut grid)
    } else {
        Point::generate(random, &grid)
    };
    let tensor = list(random, grid.tensor());
    let mut case = lending::quick_query(random, &grid, &tensor, &point);
    if random.percent(FAULTY_QUICK) {
        spoil(random, &mut case);
    }
    case
}

/// A grid of any shape, or an axis that it takes some halvings to search, or all eight.
fn searched_grid(random: &mut Random) -> Grid {
    let points = match random.below(100) {
        0..=2 => random.between(129, 256),
        3..=39 => random.between(9, 40),
        _ => return Grid::generate(random),
    };
    Grid::of_shape(random, &[points])
}

/// A quick query on knots that a full one accepts, at times with another fault.
pub fn quick_beside_full(random: &mut Random) -> Case {
    let grid = Grid::generate(random);
    let tensor = tensor(random, &grid);
    let point = Point::generate(random, &grid);
    let mut case = lending::quick_query(random, &grid, &tensor, &point);
    if random.percent(FAULTY_BESIDE) {
        spoil(random, &mut case);
    }
    case
}

/// A query on axes of which most are even.
fn even_query(random: &mut Random) -> Case {
    let mut grid = Grid::generate(random);
    make_even(random, &mut grid);
    let tensor = tensor(random, &grid);
    let mut point = Point::generate(random, &grid);
    if random.percent(8) {
        let first = &grid.knots[..grid.points[0]];
        let coordinate = &mut point.coordinates[0];
        *coordinate = far(random, first).unwrap_or(*coordinate);
    }
    let mut case = lending::even_query(random, &grid, &tensor, &point);
    if random.percent(FAULTY_EVEN) {
        spoil(random, &mut case);
    }
    case
}

/// A direct query, on axes that are even or on any knots.
fn direct_query(random: &mut Random) -> Case {
    let mut grid = searched_grid(random);
    let point = if random.percent(60) {
        make_even(random, &mut grid);
        Point::generate(random, &grid)
    } else {
        disturb(random, &mut grid)
    };
    let tensor = list(random, grid.tensor());
    let mut case = lending::direct_query(random, &grid, &tensor, &point);
    if random.percent(FAULTY_QUICK) {
        spoil(random, &mut case);
    }
    case
}

/// A direct query on axes of which most are even, at times with another fault.
pub fn direct_beside_even(random: &mut Random) -> Case {
    let mut grid = Grid::generate(random);
    make_even(random, &mut grid);
    let tensor = tensor(random, &grid);
    let point = Point::generate(random, &grid);
    let mut case = lending::direct_query(random, &grid, &tensor, &point);
    if random.percent(FAULTY_BESIDE) {
        spoil(random, &mut case);
    }
    case
}

/// Knots of which most are even, to be looked at once; of those that are not, on some axes two things are refused.
fn even_profile(random: &mut Random) -> Case {
    let mut grid = Grid::generate(random);
    make_even(random, &mut grid);
    let mut case = lending::even_profile(&grid);
    if random.percent(FAULTY_PROFILE) {
        spoil(random, &mut case);
    }
    case
}

/// A query on axes of which most are even and some are refused by their knots, to be asked directly where they are not.
pub fn profiled(random: &mut Random) -> Case {
    let mut grid = Grid::generate(random);
    make_even(random, &mut grid);
    let tensor = tensor(random, &grid);
    let point = Point::generate(random, &grid);
    let mut case = lending::even_query(random, &grid, &tensor, &point);
    if random.percent(FAULTY_EVEN) {
        spoil(random, &mut case);
    }
    case
}

/// None to six points by one call, of which some are refused.
fn queries(random: &mut Random, call: Call) -> Case {
    let mut grid = Grid::generate(random);
    if random.percent(50) {
        make_even(random, &mut grid);
    }
    let mut points = if random.percent(30) {
        disturb(random, &mut grid)
    } else {
        Point::generate(random, &grid)
    };
    let tensor = tensor(random, &grid);
    let first = points.coordinates.clone();
    points.coordinates.clear();
    for number in 0..random.below(7) {
        let at_first = number == 0 || random.percent(10);
        let point = if at_first {
            first.clone()
        } else {
            grid.coordinates(random)
        };
        points.coordinates.extend(point);
    }
    let mut case = lending::queries(random, call, &grid, &tensor, &points);
    if random.percent(FAULTY_MANY) {
        spoil(random, &mut case);
    }
    case
}

/// Two neighbouring knots and a point, which is often one of them.
fn exact_index(random: &mut Random) -> Case {
    let line = Grid::line(random);
    let lower = random.below(line.points[0] - 1);
    let elsewhere = line.coordinates(random)[0];
    let point = random.pick(&[line.knots[lower], line.knots[lower + 1], elsewhere]);
    let case = lending::exact_index(&line.knots, lower, point);
    altered_at_times(random, case)
}

/// Where a generated point lies.
fn locate_axis(random: &mut Random) -> Case {
    let line = Grid::line(random);
    let point = line.coordinates(random)[0];
    let case = lending::locate_axis(random, &line.knots, point);
    altered_at_times(random, case)
}

/// The knot that a generated point steps to.
fn locate_step_index(random: &mut Random) -> Case {
    let line = Grid::line(random);
    let point = line.coordinates(random)[0];
    let case = lending::locate_step_index(&line.knots, random.below(2), point);
    altered_at_times(random, case)
}

/// The sample that generated coordinates step to.
fn stepped(random: &mut Random) -> Case {
    let grid = Grid::generate(random);
    let directions = directions(random, &grid);
    let samples = list(random, grid.samples());
    let coordinates = grid.coordinates(random);
    let case = lending::stepped(random, &grid, directions, &samples, &coordinates);
    altered_at_times(random, case)
}

/// A direction for each axis. What stands past the axes in use is not read.
fn directions(random: &mut Random, grid: &Grid) -> [u8; 4] {
    let mut directions = [2, 255, 3, 4];
    for direction in &mut directions[..grid.axes] {
        *direction = random.below(2) as u8;
    }
    directions
}

/// The samples that up to six points step to. A fault of the knots, the samples or a coordinate is one of
/// points, and the call is accepted.
fn stepped_many(random: &mut Random) -> Case {
    let grid = Grid::generate(random);
    let directions = directions(random, &grid);
    let samples = list(random, grid.samples());
    let mut coordinates = Vec::new();
    for _ in 0..random.below(7) {
        coordinates.extend(grid.coordinates(random));
    }
    let mut case = lending::stepped_many(random, &grid, directions, &samples, &coordinates);
    if random.percent(FAULTY_STEPPED_MANY) {
        spoil(random, &mut case);
    }
    case
}

/// A sheet to be read: first a small one with all that a sweep does to it, by the number of the
/// case, and then generated ones.
fn read(random: &mut Random, number: usize) -> Case {
    swept_or_generated(random, number, |random, bytes, _| {
        lending::read(random, bytes)
    })
}

/// The same for the reader of edition 1.
fn read_edition_1(random: &mut Random, number: usize) -> Case {
    swept_or_generated(random, number, |random, bytes, _| {
        lending::read_edition_1(random, bytes)
    })
}

fn swept_or_generated(random: &mut Random, number: usize, lend: LendSheet) -> Case {
    match swept_sheet(number) {
        Some(bytes) => lend(random, &bytes, LONGEST_TENSOR),
        None => sheet_case(random, number, FAULTY_TO_READ, lend),
    }
}

/// A sheet to be read and built.
fn sheet_tensor(random: &mut Random, number: usize) -> Case {
    sheet_case(random, number, FAULTY_TO_BUILD, lending::sheet_tensor)
}

/// A case of one of the calls, by the number, that would be accepted, and in which a lent slice has no
/// item, or none has.
pub fn empty_slice(random: &mut Random, number: usize) -> Case {
    let mut kinds = KINDS.to_vec();
    kinds.retain(|kind| kind.is_single_call());
    let kind = kinds[number % kinds.len()];
    let mut case = single(kind, number, random);
    while case.call.refusal(
        Reading
            .run(&mut case.clone())
            .expect("the reading answers all"),
    ) != 0
    {
        case = single(kind, random.below(1 << 20), random);
    }
    let (all, chosen) = (random.percent(25), random.below(case.slices()));
    for (at, slice) in case.slices_mut().enumerate() {
        if all || at == chosen {
            slice.resize(0);
        }
    }
    case
}

/// A sheet for the program that prints its tensor.
pub fn sheet_text(random: &mut Random, number: usize) -> Case {
    let swept = swept_sheet(number);
    let bytes = swept.unwrap_or_else(|| {
        let grid = Grid::generate(random);
        if random.percent(FAULTY_TO_BUILD) {
            damaged_sheet(random, number, &grid)
        } else {
            good_sheet(random, number, &grid)
        }
    });
    lending::sheet_text(&bytes)
}

/// A sheet that is asked at a point: first the small one with all that a sweep does to it.
fn surface(random: &mut Random, number: usize) -> Case {
    if let Some(bytes) = swept_sheet(number) {
        return lending::surface(&bytes, &[0.5]);
    }
    let grid = Grid::around_the_longest_of_a_surface(random);
    let (bytes, faulty) = if random.percent(DAMAGED_SURFACES) {
        let bytes = damaged_sheet(random, number, &grid);
        (bytes, FAULTY_BESIDE_DAMAGE)
    } else {
        (good_sheet(random, number, &grid), FAULTY_SURFACES)
    };
    let mut case = lending::surface(&bytes, &grid.coordinates(random));
    if random.percent(faulty) {
        spoil(random, &mut case);
    }
    case
}

/// A sheet to be written, in edition 1 most often with no mode that it has no room for.
pub fn write(random: &mut Random) -> Case {
    let grid = Grid::generate(random);
    let samples = list(random, grid.samples());
    let edition = random.pick(&EDITIONS);
    let mut modes = grid.modes(random);
    if edition == 1 && random.percent(85) {
        modes[..grid.axes].fill(EXTEND);
    }
    let (points, kinds) = (&grid.points[..grid.axes], &grid.kinds[..2 * grid.axes]);
    let room = room(random, length_of(edition, points, kinds));
    let mut case = lending::write(random, &grid, modes, &samples, edition, room);
    if random.percent(FAULTY_TO_WRITE) {
        spoil(random, &mut case);
    }
    case
}

/// The bytes that are lent for a sheet of a length: as many, one fewer, or more.
pub fn room(random: &mut Random, length: usize) -> usize {
    match random.below(16) {
        0..=6 => length,
        7 => length - 1,
        8..=13 => length + random.between(1, 9),
        14 => length + 300,
        _ => random.below(length),
    }
}

fn altered_at_times(random: &mut Random, case: Case) -> Case {
    altered(random, case, FAULTY)
}

/// A case that so many times in a hundred gets a fault.
fn altered(random: &mut Random, mut case: Case, faulty: usize) -> Case {
    let share = random.below(100);
    if share < faulty {
        spoil(random, &mut case);
    } else if share < faulty + AT_THE_EDGE {
        take_an_end_to_the_edge(random, &mut case);
    }
    case
}

/// Makes a case of a sheet, whose tensor has a length.
type LendSheet = fn(&mut Random, &[u8], usize) -> Case;

/// A case of a sheet that is good or damaged, or whose other arguments are.
fn sheet_case(random: &mut Random, number: usize, faulty: usize, lend: LendSheet) -> Case {
    let faulty = random.percent(faulty);
    let damaged = faulty && random.percent(80);
    let grid = Grid::generate(random);
    let bytes = if damaged {
        damaged_sheet(random, number, &grid)
    } else {
        good_sheet(random, number, &grid)
    };
    let mut case = lend(random, &bytes, grid.tensor());
    if faulty && (!damaged || random.percent(10)) {
        spoil(random, &mut case);
    }
    case
}

/// A line, samples on it and their moments, which are now and then any numbers.
fn solved_curve(random: &mut Random) -> (Grid, Vec<f64>, Vec<f64>) {
    let line = Grid::line(random);
    let points = line.points[0];
    let samples = list(random, points);
    let mut moments = list(random, points);
    if random.percent(70) {
        reading::moments(
            points,
            &line.knots,
            &samples,
            &line.kinds[..2],
            &line.values[..2],
            &mut moments,
            &mut [0.0; CURVE_SCRATCH],
        );
    }
    (line, samples, moments)
}

/// A tensor that was built where the samples allow it, or any numbers at all.
fn tensor(random: &mut Random, grid: &Grid) -> Vec<f64> {
    let tensor = list(random, grid.tensor());
    if random.percent(60) {
        let samples = list(random, grid.samples());
        return grid.built_over(tensor, &samples);
    }
    tensor
}
