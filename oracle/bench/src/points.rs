//! What is asked at points, ours beside another side: at points that follow no pattern, which no processor learns, and at few, which it
//! does. What is measured is one point, of a call of many points as of a call of one.

use crate::inputs::Surface;
use crate::lines::Work;
use std::hint::black_box;
use std::time::Instant;

/// One call at the coordinates of a point, or of many, and the last number of its outcome.
pub type Call<'a> = Box<dyn FnMut(&[f64]) -> f64 + 'a>;

/// How many different points there are where they are few.
const FEW: usize = 8;

/// At how many points the instructions of a call are counted, where it does not ask at more.
const COUNTED: usize = 64;

/// How often each side has its turn.
const TURNS: usize = 101;

/// At how many points a turn asks, new ones in every turn, and at how many of them each call asks.
#[derive(Clone, Copy)]
pub struct Way {
    points: usize,
    pub at_once: usize,
}

pub const ONE: Way = Way {
    points: 4096,
    at_once: 1,
};

pub const MANY: Way = Way {
    at_once: ONE.points,
    ..ONE
};

/// Of calls that are given no point, and take longer.
pub const NONE: Way = Way { points: 64, ..ONE };

/// Two calls that end in the same bits at every point, and the surface between whose knots the points lie.
pub struct Asked<'a> {
    pub name: String,
    pub surface: &'a Surface,
    pub way: Way,
    pub sides: [Call<'a>; 2],
}

/// What was measured of both sides, of one point: the medians without a pattern and at few.
pub struct Timed {
    pub name: String,
    pub without_pattern: [f64; 2],
    pub few: [f64; 2],
    /// At how many points the instructions are counted.
    pub counted: usize,
}

/// Points between the knots of a surface, by a xorshift.
struct Random(u64);

impl Random {
    fn new() -> Self {
        Self(88_172_645_463_325_252)
    }

    fn below_one(&mut self) -> f64 {
        self.0 ^= self.0 << 13;
        self.0 ^= self.0 >> 7;
        self.0 ^= self.0 << 17;
        (self.0 >> 11) as f64 / (1_u64 << 53) as f64
    }

    /// The coordinates of so many points, one after the other.
    fn points(&mut self, surface: &Surface, count: usize) -> Vec<f64> {
        let by_axis = surface.knots_by_axis();
        let last = by_axis.iter().map(|knots| knots[knots.len() - 1]);
        let all = last.collect::<Vec<_>>().repeat(count).into_iter();
        all.map(|last| last * self.below_one()).collect()
    }
}

impl<'a> Asked<'a> {
    /// How many coordinates each call is given.
    fn given(&self) -> usize {
        self.surface.axes.count * self.way.at_once
    }

    fn counted(&self) -> usize {
        COUNTED.max(self.way.at_once)
    }

    /// Both sides as they are counted.
    pub fn works(self) -> [Work<'a>; 2] {
        let given = self.given();
        let points = Random::new().points(self.surface, self.counted());
        self.sides.map(|mut call| {
            let points = points.clone();
            Box::new(move || ask(&mut call, &points, given)) as Work
        })
    }

    /// Both sides in turn, at new points in every turn, and at few.
    pub fn timed(mut self) -> Timed {
        let mut random = Random::new();
        self.check_same_outcomes(&random.points(self.surface, self.way.points));
        let without_pattern = self.medians(&mut random, self.way.points);
        let few = self.medians(&mut random, FEW);
        Timed {
            counted: self.counted(),
            name: self.name,
            without_pattern,
            few,
        }
    }

    /// What is compared must do the same work: both sides end in the same bits at every point, and by calls as they are measured.
    fn check_same_outcomes(&mut self, points: &[f64]) {
        for given in [self.surface.axes.count, self.given()] {
            let [ours, other] = &mut self.sides;
            for point in points.chunks(given) {
                let same = ours(point).to_bits() == other(point).to_bits();
                assert!(same, "{} at {point:?}", self.name);
            }
        }
    }

    /// The medians where a turn has so many different points.
    fn medians(&mut self, random: &mut Random, different: usize) -> [f64; 2] {
        let given = self.given();
        let mut times = [Vec::new(), Vec::new()];
        for _ in 0..TURNS {
            let some = random.points(self.surface, different);
            let points = some.repeat(self.way.points / different);
            for (call, times) in self.sides.iter_mut().zip(&mut times) {
                let begin = Instant::now();
                ask(call, &points, given);
                times.push(begin.elapsed().as_nanos() as f64 / self.way.points as f64);
            }
        }
        times.map(median)
    }
}

/// Calls at all points, each with so many coordinates.
fn ask(call: &mut Call, points: &[f64], given: usize) -> f64 {
    let calls = points.chunks(given);
    calls.fold(0.0, |_, point| black_box(call(point)))
}

fn median(mut times: Vec<f64>) -> f64 {
    times.sort_by(f64::total_cmp);
    times[times.len() / 2]
}
