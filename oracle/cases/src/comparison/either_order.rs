//! The same changes in two orders, from one built tensor.

use super::{fresh_build, same_arguments, sample_number, Run};
use crate::case::Case;
use crate::faults::spoil;
use crate::grid::Grid;
use crate::lending;
use crate::numbers::ordinary;
use crate::random::Random;
use crate::report::describe;

/// What a change asks: the number of the sample, and what it becomes.
#[derive(Debug, Clone, Copy)]
struct Change {
    number: usize,
    sample: f64,
}

/// A built tensor, and the samples that stand in it.
#[derive(Debug, Clone)]
struct Standing {
    samples: Vec<f64>,
    tensor: Vec<f64>,
}

/// The last change of a list: what it was given, its refusal, and what it left.
type Last = (Case, usize, Case);

/// What came of two lists of changes from one build.
#[derive(Debug, PartialEq, Eq)]
pub(super) enum Outcome {
    /// There was no build to change, or a step differed.
    Nothing,
    /// The lists left the same samples, and with them the same tensor or not.
    SameSamples,
    /// A change was refused in one list and accepted in the other.
    OtherSamples,
}

impl Run<'_> {
    /// Changes at different places in two orders, or two at one place and the later
    /// alone. Where the lists leave the same samples they leave the same tensor.
    pub(super) fn either_order(&mut self, random: &mut Random) -> Outcome {
        let grid = Grid::generate(random);
        let Some((scale, built)) = built(random, &grid) else {
            return Outcome::Nothing;
        };
        let (one, other) = two_lists(random, &grid, scale);
        let one = self.after(random, &grid, &built, &one);
        let other = self.after(random, &grid, &built, &other);
        match (one, other) {
            (Some((one, _)), Some((other, last))) => self.same_tensor(&one, &other, last),
            _ => Outcome::Nothing,
        }
    }

    /// What stands after a list of changes, and its last change; nothing where a
    /// step differed. Spoiled changes stand between them; what they are lent is
    /// thrown away.
    fn after(
        &mut self,
        random: &mut Random,
        grid: &Grid,
        built: &Standing,
        changes: &[Change],
    ) -> Option<(Standing, Last)> {
        let mut standing = built.clone();
        let mut last = None;
        for change in changes {
            let place = place(random, grid, change.number);
            let given = lending::change(random, grid, &standing.tensor, place, change.sample);
            if random.percent(55) {
                let mut spoiled = given.clone();
                spoil(random, &mut spoiled);
                self.compare(&spoiled);
            }
            let (refusal, found, same) = self.compare(&given);
            if !same {
                return None;
            }
            if refusal == 0 {
                standing.samples[sample_number(grid, &given)] = change.sample;
                standing.tensor = found.argument("tensor").floats().to_vec();
            }
            last = Some((given, refusal, found));
        }
        last.map(|last| (standing, last))
    }

    /// Whether two lists left the same tensor, where they left the same samples.
    fn same_tensor(&mut self, one: &Standing, other: &Standing, last: Last) -> Outcome {
        let patterns = |samples: &[f64]| samples.iter().map(|s| s.to_bits()).collect::<Vec<_>>();
        if patterns(&one.samples) != patterns(&other.samples) {
            return Outcome::OtherSamples;
        }
        let (given, refusal, found) = last;
        let mut expected = found.clone();
        let slots = expected.argument_mut("tensor").floats_mut();
        slots.copy_from_slice(&one.tensor);
        if !same_arguments(&expected, &found) {
            let title = format!("{}, held against another order", self.title);
            self.report.difference(self.kind, || {
                describe(&title, &given, (refusal, &expected), (refusal, &found))
            });
        }
        Outcome::SameSamples
    }
}

/// How far samples are scaled down before there is no build.
const HALVINGS: i32 = 40;

/// A build of ordinary samples; or of the largest that they can be scaled to, so that
/// a change is often refused by 10, and accepted after another one. With the scale.
fn built(random: &mut Random, grid: &Grid) -> Option<(f64, Standing)> {
    let ordinary: Vec<f64> = (0..grid.samples()).map(|_| ordinary(random)).collect();
    let largest = (0..HALVINGS).map(|halvings| 2f64.powi(1020 - halvings));
    let scales = if random.percent(30) {
        largest.collect()
    } else {
        vec![1.0]
    };
    scales.into_iter().find_map(|scale| {
        let samples: Vec<f64> = ordinary.iter().map(|sample| sample * scale).collect();
        let (refusal, tensor) = fresh_build(random, grid, &samples);
        (refusal == 0).then_some((scale, Standing { samples, tensor }))
    })
}

/// Two lists of changes that leave the same samples where all are accepted: two at
/// one place and the later alone, or some at different places in two orders.
fn two_lists(random: &mut Random, grid: &Grid, scale: f64) -> (Vec<Change>, Vec<Change>) {
    let most = match random.below(4) {
        0 => 1,
        1..=2 => 2,
        _ => 7,
    };
    let mut numbers: Vec<usize> = (0..grid.samples()).collect();
    shuffle(random, &mut numbers);
    numbers.truncate(most);
    let change = |number| Change {
        number,
        sample: ordinary(random) * scale,
    };
    let changes: Vec<Change> = numbers.iter().copied().map(change).collect();
    if let [later] = changes[..] {
        let earlier = Change {
            number: later.number,
            sample: ordinary(random) * scale,
        };
        return (vec![earlier, later], changes);
    }
    let mut reordered = changes.clone();
    shuffle(random, &mut reordered);
    if reordered[0].number == changes[0].number {
        reordered.rotate_left(1);
    }
    (changes, reordered)
}

/// Puts a list into some order.
fn shuffle<T>(random: &mut Random, list: &mut [T]) {
    for last in (1..list.len()).rev() {
        list.swap(last, random.below(last + 1));
    }
}

/// The place of a sample. Past the axes in use stands anything.
fn place(random: &mut Random, grid: &Grid, number: usize) -> [usize; 4] {
    let mut place = [0; 4].map(|_| random.pick(&[0, 1, 9, usize::MAX]));
    let mut rest = number;
    for axis in (0..grid.axes).rev() {
        place[axis] = rest % grid.points[axis];
        rest /= grid.points[axis];
    }
    place
}

#[cfg(test)]
mod tests {
    use super::Outcome;
    use crate::comparison::Run;
    use crate::generator::Kind;
    use crate::random::Random;
    use crate::reading_calls::Reading;
    use crate::report::Report;

    /// Both outcomes are reached, so that neither the comparison nor the condition
    /// on it stands idle.
    #[test]
    fn orders_meet_and_part() {
        let mut report = Report::default();
        let mut outcomes = Vec::new();
        for number in 0..1000 {
            let mut run = Run {
                subject: &Reading,
                kind: Kind::EitherOrder,
                title: String::new(),
                report: &mut report,
            };
            outcomes.push(run.either_order(&mut Random::of_case(7, 0, number)));
        }
        let times = |outcome| outcomes.iter().filter(|seen| **seen == outcome).count();
        assert!(times(Outcome::SameSamples) > 700);
        assert!(times(Outcome::OtherSamples) > 10);
        assert_eq!(report.total().differences, 0);
    }
}
