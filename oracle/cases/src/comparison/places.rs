//! What was measured is read: surfaces that are asked at every place of their grid.

use super::{sample_number, Run};
use crate::case::{Argument, Call, Case};
use crate::faults::{place_off, scratch_short, LARGEST};
use crate::generator;
use crate::grid::Grid;
use crate::lending::{self, Point};
use crate::numbers::{any_finite, list, not_finite};
use crate::random::Random;
use crate::report::describe;

/// How many modes an axis can have; each place is asked in all of them.
const MODES: u8 = 3;

/// A tensor on a grid, and the samples that stand in it.
struct Surface {
    grid: Grid,
    samples: Vec<f64>,
    tensor: Vec<f64>,
}

impl Run<'_> {
    /// A surface asked at every place, and anew after each of some changes, refused ones among
    /// them: every answer equals the sample that stands there. Fewer changes on a large one.
    pub(super) fn at_every_place(&mut self, random: &mut Random) {
        let grid = Grid::generate(random);
        let surface = if random.percent(75) {
            self.built(random, grid)
        } else {
            Some(of_any_numbers(random, grid))
        };
        let Some(mut surface) = surface else {
            return;
        };
        self.ask_everywhere(random, &surface);
        let most = if surface.tensor.len() > 1000 { 1 } else { 4 };
        for _ in 0..random.between(1, most) {
            if !self.change(random, &mut surface) {
                return;
            }
            self.ask_everywhere(random, &surface);
        }
    }

    /// The tensor that the subject builds, or none where a build is refused or differs.
    fn built(&mut self, random: &mut Random, grid: Grid) -> Option<Surface> {
        let samples = list(random, grid.samples());
        let (refusal, built, same) = self.compare(&lending::build(random, &grid, &samples));
        let accepted = same && refusal == 0;
        accepted.then(|| Surface {
            grid,
            samples,
            tensor: built.argument("tensor").floats().to_vec(),
        })
    }

    /// Changes a surface, or asks for a change that is refused, and keeps the tensor that is left.
    /// False where the two sides differ.
    fn change(&mut self, random: &mut Random, surface: &mut Surface) -> bool {
        let given = change_of(random, surface);
        let (refusal, left, same) = self.compare(&given);
        if same && refusal == 0 {
            let number = sample_number(&surface.grid, &given);
            surface.samples[number] = given.argument("sample").float();
        }
        surface.tensor = left.argument("tensor").floats().to_vec();
        same
    }

    /// Both queries at every place, once in each mode on every axis.
    fn ask_everywhere(&mut self, random: &mut Random, surface: &Surface) {
        for number in 0..surface.samples.len() {
            self.report.of_mut(self.kind).places += 1;
            let mut point = Point {
                coordinates: knots_at(random, &surface.grid, number),
                modes: surface.grid.modes(random),
            };
            for _ in 0..MODES {
                self.ask(random, surface, &point, surface.samples[number]);
                for mode in &mut point.modes[..surface.grid.axes] {
                    *mode = (*mode + 1) % MODES;
                }
            }
        }
    }

    /// Both queries at a point, where a sample stands.
    fn ask(&mut self, random: &mut Random, surface: &Surface, point: &Point, sample: f64) {
        let full = lending::query(random, &surface.grid, &surface.tensor, point);
        let quick = Case::new(Call::QuickQuery, full.arguments.clone());
        for given in [full, quick] {
            let (refusal, found, _) = self.compare(&given);
            if refusal == 0 && found.argument("value").floats()[0] == sample {
                continue;
            }
            let mut expected = found.clone();
            expected.argument_mut("value").floats_mut()[0] = sample;
            let title = format!("{}, held against the sample", self.title);
            self.report.difference(self.kind, || {
                describe(&title, &given, (0, &expected), (refusal, &found))
            });
        }
    }
}

/// A tensor of any finite numbers, which no build gives.
fn of_any_numbers(random: &mut Random, grid: Grid) -> Surface {
    let numbers = (0..grid.tensor()).map(|_| any_finite(random));
    let tensor: Vec<f64> = numbers.collect();
    let samples = tensor.iter().step_by(1 << grid.axes).copied().collect();
    Surface {
        grid,
        samples,
        tensor,
    }
}

/// A change somewhere; of two one is refused: by 5, 6 or 7, or by 10 for a sample so large that
/// hardly a surface takes it.
fn change_of(random: &mut Random, surface: &Surface) -> Case {
    let mut change = generator::change_of(random, &surface.grid, &surface.tensor);
    match random.below(8) {
        0 => scratch_short(random, &mut change),
        1 => place_off(random, &mut change),
        2 => *change.argument_mut("sample") = Argument::Float(not_finite(random)),
        3 => *change.argument_mut("sample") = Argument::Float(random.pick(&LARGEST)),
        _ => (),
    }
    change
}

/// The knots of the place of a sample; a zero has either sign.
fn knots_at(random: &mut Random, grid: &Grid, number: usize) -> Vec<f64> {
    let mut end = grid.knots.len();
    let mut rest = number;
    let mut knots = Vec::new();
    for points in grid.points[..grid.axes].iter().rev() {
        end -= points;
        let knot = grid.knots[end + rest % points];
        let other_zero = knot == 0.0 && random.percent(50);
        knots.push(if other_zero { -knot } else { knot });
        rest /= points;
    }
    knots.reverse();
    knots
}

#[cfg(test)]
mod tests {
    use crate::case::{Call, Calls, Case};
    use crate::comparison::Run;
    use crate::generator::Kind;
    use crate::random::Random;
    use crate::reading_calls::Reading;
    use crate::report::{Counts, Report};

    fn seen(subject: &dyn Calls) -> Counts {
        let mut report = Report::default();
        for number in 0..100 {
            let mut run = Run {
                subject,
                kind: Kind::AtEveryPlace,
                title: String::new(),
                report: &mut report,
            };
            run.at_every_place(&mut Random::of_case(7, 0, number));
        }
        report.total()
    }

    /// Every place is asked six times, and beside these calls are builds and changes of both sorts.
    #[test]
    fn every_place_is_asked_in_all_modes() {
        let seen = seen(&Reading);
        let others = seen.calls - 6 * seen.places;
        assert!(seen.places > 4000);
        assert!((250..500).contains(&others));
        let refused = seen.refusals[1..].iter().sum::<u64>();
        assert!(refused > others / 5 && refused < others / 2);
        assert_eq!(seen.differences, 0);
    }

    /// A query that answers the next number, with no other fault.
    struct NextNumber;

    impl Calls for NextNumber {
        fn run(&self, case: &mut Case) -> Option<usize> {
            let refusal = Reading.run(case);
            if matches!(case.call, Call::Query | Call::QuickQuery) {
                let value = &mut case.argument_mut("value").floats_mut()[0];
                *value = value.next_up();
            }
            refusal
        }
    }

    /// Each of its answers differs twice, from the reading's and from the sample.
    #[test]
    fn an_answer_that_is_not_the_sample_is_found() {
        let seen = seen(&NextNumber);
        assert_eq!(seen.differences, 2 * 6 * seen.places);
    }
}
