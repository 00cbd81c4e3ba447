//! A surface that owns every slice its calls are lent.

use crate::axes::Axes;
use crate::many::{direct_queries, quick_queries};
use crate::query::{direct_query, even_profile, even_query, query, quick_query};
use crate::refusal::Refusal;
use crate::sheet::{sheet_tensor, write};
use crate::step::stepped;
use crate::tensor::{build, change, verify, Stale};
use crate::{BUFFER, LONGEST_SHEET, LONGEST_TENSOR, SCRATCH};

/// A surface: axes, knots, samples, the tensor of the samples, and the scratch of its calls.
///
/// ```
/// use hullashlar::{Axes, Surface};
///
/// let axes = Axes { count: 1, points: [4, 0, 0, 0], ..Axes::default() };
/// let surface = Surface::build(axes, &[0.0, 1.0, 2.0, 3.0], &[0.0, 1.0, 4.0, 9.0])?;
/// assert_eq!(surface.query(&[1.5])?, (2.25, [1, 0, 0, 0]));
/// # Ok::<(), hullashlar::Refusal>(())
/// ```
#[derive(Debug, Clone)]
pub struct Surface {
    axes: Axes,
    edition: usize,
    knots: Vec<f64>,
    samples: Vec<f64>,
    tensor: Vec<f64>,
    scratch: Vec<f64>,
}

/// A value at a point, and for each axis the cell that was evaluated; past the axes in use 0.
type Answer = (f64, [usize; 4]);

impl Surface {
    /// The surface through samples on a grid. It is written as a sheet of edition 2.
    ///
    /// ```
    /// use hullashlar::{Axes, Refusal, Surface};
    ///
    /// let axes = Axes { count: 1, points: [4, 0, 0, 0], ..Axes::default() };
    /// let refused = Surface::build(axes, &[0.0, 1.0, 1.0, 3.0], &[0.0, 1.0, 4.0, 9.0]);
    /// assert_eq!(refused.unwrap_err(), Refusal::Knots);
    /// ```
    pub fn build(axes: Axes, knots: &[f64], samples: &[f64]) -> Result<Self, Refusal> {
        // A tensor that is longer is refused before its length is looked at.
        let length = axes.tensor_length().min(LONGEST_TENSOR);
        let mut surface = Self {
            axes,
            edition: 2,
            knots: knots.to_vec(),
            samples: samples.to_vec(),
            tensor: vec![0.0; length],
            scratch: vec![0.0; length + SCRATCH],
        };
        surface.rebuild()?;
        Ok(surface)
    }

    /// The surface of a packed sheet.
    ///
    /// ```
    /// use hullashlar::{Axes, Surface};
    ///
    /// let axes = Axes { count: 1, points: [4, 0, 0, 0], ..Axes::default() };
    /// let sheet = Surface::build(axes, &[0.0, 1.0, 2.0, 3.0], &[0.0, 1.0, 4.0, 9.0])?.sheet()?;
    /// assert_eq!(Surface::of_sheet(&sheet)?.samples(), [0.0, 1.0, 4.0, 9.0]);
    /// # Ok::<(), hullashlar::Refusal>(())
    /// ```
    pub fn of_sheet(bytes: &[u8]) -> Result<Self, Refusal> {
        let (mut knots, mut samples) = (vec![0.0; BUFFER], vec![0.0; BUFFER]);
        let mut tensor = vec![0.0; LONGEST_TENSOR];
        let mut scratch = vec![0.0; LONGEST_TENSOR + SCRATCH];
        let (sheet, length) =
            sheet_tensor(bytes, &mut knots, &mut samples, &mut tensor, &mut scratch)?;
        knots.truncate(sheet.axes.knots_length());
        samples.truncate(sheet.axes.samples_length());
        tensor.truncate(length);
        scratch.truncate(length + SCRATCH);
        Ok(Self {
            axes: sheet.axes,
            edition: sheet.edition,
            knots,
            samples,
            tensor,
            scratch,
        })
    }

    /// The axes.
    ///
    /// ```
    /// # let axes = hullashlar::Axes { count: 1, points: [4, 0, 0, 0], ..Default::default() };
    /// # let surface = hullashlar::Surface::build(axes, &[0.0, 1.0, 2.0, 3.0], &[0.0, 1.0, 4.0, 9.0])?;
    /// assert_eq!(surface.axes().points, [4, 0, 0, 0]);
    /// # Ok::<(), hullashlar::Refusal>(())
    /// ```
    pub fn axes(&self) -> &Axes {
        &self.axes
    }

    /// The knots of all axes, those of an axis after those of the axis before it.
    ///
    /// ```
    /// # let axes = hullashlar::Axes { count: 1, points: [4, 0, 0, 0], ..Default::default() };
    /// # let surface = hullashlar::Surface::build(axes, &[0.0, 1.0, 2.0, 3.0], &[0.0, 1.0, 4.0, 9.0])?;
    /// assert_eq!(surface.knots(), [0.0, 1.0, 2.0, 3.0]);
    /// # Ok::<(), hullashlar::Refusal>(())
    /// ```
    pub fn knots(&self) -> &[f64] {
        &self.knots
    }

    /// The samples that stand now, last axis fastest.
    ///
    /// ```
    /// # let axes = hullashlar::Axes { count: 1, points: [4, 0, 0, 0], ..Default::default() };
    /// # let mut surface = hullashlar::Surface::build(axes, &[0.0, 1.0, 2.0, 3.0], &[0.0, 1.0, 4.0, 9.0])?;
    /// surface.change(&[2], 5.0)?;
    /// assert_eq!(surface.samples(), [0.0, 1.0, 5.0, 9.0]);
    /// # Ok::<(), hullashlar::Refusal>(())
    /// ```
    pub fn samples(&self) -> &[f64] {
        &self.samples
    }

    /// The tensor: for each sample a number of each mask, side by side.
    ///
    /// ```
    /// # let axes = hullashlar::Axes { count: 1, points: [4, 0, 0, 0], ..Default::default() };
    /// # let surface = hullashlar::Surface::build(axes, &[0.0, 1.0, 2.0, 3.0], &[0.0, 1.0, 4.0, 9.0])?;
    /// assert_eq!(surface.tensor()[2..4], [1.0, 2.0]); // at knot 1 the sample and the slope
    /// # Ok::<(), hullashlar::Refusal>(())
    /// ```
    pub fn tensor(&self) -> &[f64] {
        &self.tensor
    }

    /// The tensor, for a loader that writes it. [`verify`](Self::verify) says whether it is whole
    /// afterwards; [`rebuild`](Self::rebuild) makes it so.
    ///
    /// ```
    /// # let axes = hullashlar::Axes { count: 1, points: [4, 0, 0, 0], ..Default::default() };
    /// # let mut surface = hullashlar::Surface::build(axes, &[0.0, 1.0, 2.0, 3.0], &[0.0, 1.0, 4.0, 9.0])?;
    /// surface.tensor_mut()[2] = 1.5; // a sample alone, and its derivatives are stale
    /// assert!(surface.verify()?.is_some());
    /// # Ok::<(), hullashlar::Refusal>(())
    /// ```
    pub fn tensor_mut(&mut self) -> &mut [f64] {
        &mut self.tensor
    }

    /// The tensor built anew from the samples.
    ///
    /// ```
    /// # let axes = hullashlar::Axes { count: 1, points: [4, 0, 0, 0], ..Default::default() };
    /// # let mut surface = hullashlar::Surface::build(axes, &[0.0, 1.0, 2.0, 3.0], &[0.0, 1.0, 4.0, 9.0])?;
    /// surface.tensor_mut()[3] = 1.5;
    /// surface.rebuild()?;
    /// assert_eq!(surface.verify()?, None);
    /// # Ok::<(), hullashlar::Refusal>(())
    /// ```
    pub fn rebuild(&mut self) -> Result<(), Refusal> {
        build(
            &self.axes,
            &self.knots,
            &self.samples,
            &mut self.tensor,
            &mut self.scratch,
        )
    }

    /// One sample changed at a place, an index for each axis, and every lane that can differ
    /// solved again; gives how many these were.
    ///
    /// ```
    /// # let axes = hullashlar::Axes { count: 1, points: [4, 0, 0, 0], ..Default::default() };
    /// # let mut surface = hullashlar::Surface::build(axes, &[0.0, 1.0, 2.0, 3.0], &[0.0, 1.0, 4.0, 9.0])?;
    /// assert_eq!(surface.change(&[2], 5.0), Ok(1));
    /// assert_eq!(surface.change(&[4], 5.0), Err(hullashlar::Refusal::Place));
    /// # Ok::<(), hullashlar::Refusal>(())
    /// ```
    pub fn change(&mut self, place: &[usize], sample: f64) -> Result<usize, Refusal> {
        if place.len() != self.axes.count {
            return Err(Refusal::Length);
        }
        let mut indices = [0; 4];
        indices[..place.len()].copy_from_slice(place);
        let lanes = change(
            &self.axes,
            &self.knots,
            &mut self.tensor,
            &mut self.scratch,
            indices,
            sample,
        )?;
        let number = self.sample_number(place);
        self.samples[number] = sample;
        Ok(lanes)
    }

    /// Which of the samples stands at a place of the grid.
    fn sample_number(&self, place: &[usize]) -> usize {
        let axes = place.iter().zip(&self.axes.points);
        axes.fold(0, |number, (index, points)| number * points + index)
    }

    /// What of the tensor is not that of its own samples; nothing of a whole one.
    ///
    /// ```
    /// # let axes = hullashlar::Axes { count: 1, points: [4, 0, 0, 0], ..Default::default() };
    /// # let mut surface = hullashlar::Surface::build(axes, &[0.0, 1.0, 2.0, 3.0], &[0.0, 1.0, 4.0, 9.0])?;
    /// assert_eq!(surface.verify()?, None);
    /// # Ok::<(), hullashlar::Refusal>(())
    /// ```
    pub fn verify(&mut self) -> Result<Option<Stale>, Refusal> {
        verify(&self.axes, &self.knots, &self.tensor, &mut self.scratch)
    }

    /// The value at a point and the cell that was evaluated; see [`query`](crate::query()).
    ///
    /// ```
    /// # let axes = hullashlar::Axes { count: 1, points: [4, 0, 0, 0], ..Default::default() };
    /// # let surface = hullashlar::Surface::build(axes, &[0.0, 1.0, 2.0, 3.0], &[0.0, 1.0, 4.0, 9.0])?;
    /// assert_eq!(surface.query(&[2.5])?, (6.25, [2, 0, 0, 0]));
    /// # Ok::<(), hullashlar::Refusal>(())
    /// ```
    pub fn query(&self, coordinates: &[f64]) -> Result<Answer, Refusal> {
        query(&self.axes, &self.knots, &self.tensor, coordinates)
    }

    /// The same without a walk over the knots; see [`quick_query`](crate::quick_query).
    ///
    /// ```
    /// # let axes = hullashlar::Axes { count: 1, points: [4, 0, 0, 0], ..Default::default() };
    /// # let surface = hullashlar::Surface::build(axes, &[0.0, 1.0, 2.0, 3.0], &[0.0, 1.0, 4.0, 9.0])?;
    /// assert_eq!(surface.quick_query(&[2.5]), surface.query(&[2.5]));
    /// # Ok::<(), hullashlar::Refusal>(())
    /// ```
    pub fn quick_query(&self, coordinates: &[f64]) -> Result<Answer, Refusal> {
        quick_query(&self.axes, &self.knots, &self.tensor, coordinates)
    }

    /// The same on even axes; see [`even_query`](crate::even_query).
    ///
    /// ```
    /// # let axes = hullashlar::Axes { count: 1, points: [4, 0, 0, 0], ..Default::default() };
    /// # let surface = hullashlar::Surface::build(axes, &[0.0, 1.0, 2.0, 3.0], &[0.0, 1.0, 4.0, 9.0])?;
    /// assert_eq!(surface.even_query(&[2.5]), Ok((6.25, [2, 0, 0, 0])));
    /// # Ok::<(), hullashlar::Refusal>(())
    /// ```
    pub fn even_query(&self, coordinates: &[f64]) -> Result<Answer, (Refusal, [usize; 2])> {
        even_query(&self.axes, &self.knots, &self.tensor, coordinates)
    }

    /// Whether the axes are even, so that direct queries answer as those of even axes; see
    /// [`even_profile`](crate::even_profile).
    ///
    /// ```
    /// # let axes = hullashlar::Axes { count: 1, points: [4, 0, 0, 0], ..Default::default() };
    /// # let surface = hullashlar::Surface::build(axes, &[0.0, 1.0, 2.0, 3.0], &[0.0, 1.0, 4.0, 9.0])?;
    /// assert_eq!(surface.even_profile(), Ok(()));
    /// # Ok::<(), hullashlar::Refusal>(())
    /// ```
    pub fn even_profile(&self) -> Result<(), (Refusal, [usize; 2])> {
        even_profile(&self.axes, &self.knots)
    }

    /// The value in the cell that a division finds; see [`direct_query`](crate::direct_query).
    ///
    /// ```
    /// # let axes = hullashlar::Axes { count: 1, points: [4, 0, 0, 0], ..Default::default() };
    /// # let surface = hullashlar::Surface::build(axes, &[0.0, 1.0, 2.0, 3.0], &[0.0, 1.0, 4.0, 9.0])?;
    /// assert_eq!(surface.direct_query(&[2.5])?, (6.25, [2, 0, 0, 0]));
    /// # Ok::<(), hullashlar::Refusal>(())
    /// ```
    pub fn direct_query(&self, coordinates: &[f64]) -> Result<Answer, Refusal> {
        direct_query(&self.axes, &self.knots, &self.tensor, coordinates)
    }

    /// The quick query at many points, whose coordinates follow each other: a value or a refusal
    /// for each.
    ///
    /// ```
    /// # use hullashlar::Refusal;
    /// # let axes = hullashlar::Axes { count: 1, points: [4, 0, 0, 0], ..Default::default() };
    /// # let surface = hullashlar::Surface::build(axes, &[0.0, 1.0, 2.0, 3.0], &[0.0, 1.0, 4.0, 9.0])?;
    /// let answers = surface.quick_queries(&[0.5, f64::NAN, 2.5])?;
    /// assert_eq!(answers, [Ok(0.25), Err(Refusal::Number), Ok(6.25)]);
    /// # Ok::<(), hullashlar::Refusal>(())
    /// ```
    pub fn quick_queries(&self, coordinates: &[f64]) -> Result<Vec<Result<f64, Refusal>>, Refusal> {
        self.many(coordinates, quick_queries)
    }

    /// The direct query at many points, likewise.
    ///
    /// ```
    /// # use hullashlar::Refusal;
    /// # let axes = hullashlar::Axes { count: 1, points: [4, 0, 0, 0], ..Default::default() };
    /// # let surface = hullashlar::Surface::build(axes, &[0.0, 1.0, 2.0, 3.0], &[0.0, 1.0, 4.0, 9.0])?;
    /// let answers = surface.direct_queries(&[0.5, f64::NAN, 2.5])?;
    /// assert_eq!(answers, [Ok(0.25), Err(Refusal::Number), Ok(6.25)]);
    /// # Ok::<(), hullashlar::Refusal>(())
    /// ```
    pub fn direct_queries(
        &self,
        coordinates: &[f64],
    ) -> Result<Vec<Result<f64, Refusal>>, Refusal> {
        self.many(coordinates, direct_queries)
    }

    /// A call of many points over buffers of its own.
    fn many(&self, coordinates: &[f64], call: Many) -> Result<Vec<Result<f64, Refusal>>, Refusal> {
        let points = coordinates.len() / self.axes.count.max(1);
        let (mut values, mut labels) = (vec![0.0; points], vec![0; 4 * points]);
        let mut refusals = vec![0; points];
        call(
            &self.axes,
            &self.knots,
            &self.tensor,
            coordinates,
            &mut values,
            &mut labels,
            &mut refusals,
        )?;
        let answers = values.into_iter().zip(refusals);
        Ok(answers
            .map(|(value, number)| Refusal::of(number).map_or(Ok(value), Err))
            .collect())
    }

    /// The sample that a point steps to, and its place; see [`stepped`](crate::stepped).
    ///
    /// ```
    /// # use hullashlar::direction;
    /// # let axes = hullashlar::Axes { count: 1, points: [4, 0, 0, 0], ..Default::default() };
    /// # let surface = hullashlar::Surface::build(axes, &[0.0, 1.0, 2.0, 3.0], &[0.0, 1.0, 4.0, 9.0])?;
    /// assert_eq!(surface.stepped([direction::UPPER; 4], &[1.5])?, (4.0, [2, 0, 0, 0]));
    /// # Ok::<(), hullashlar::Refusal>(())
    /// ```
    pub fn stepped(&self, directions: [u8; 4], coordinates: &[f64]) -> Result<Answer, Refusal> {
        stepped(
            &self.axes,
            directions,
            &self.knots,
            &self.samples,
            coordinates,
        )
    }

    /// The packed sheet with the samples that stand now, in the edition it came in.
    ///
    /// ```
    /// # let axes = hullashlar::Axes { count: 1, points: [4, 0, 0, 0], ..Default::default() };
    /// # let surface = hullashlar::Surface::build(axes, &[0.0, 1.0, 2.0, 3.0], &[0.0, 1.0, 4.0, 9.0])?;
    /// assert_eq!(surface.sheet()?.len(), 67);
    /// # Ok::<(), hullashlar::Refusal>(())
    /// ```
    pub fn sheet(&self) -> Result<Vec<u8>, Refusal> {
        let mut bytes = vec![0; LONGEST_SHEET];
        let length = write(
            self.edition,
            &self.axes,
            &self.knots,
            &self.samples,
            &mut bytes,
        )?;
        bytes.truncate(length);
        Ok(bytes)
    }
}

/// One of the calls of many points.
type Many = fn(
    &Axes,
    &[f64],
    &[f64],
    &[f64],
    &mut [f64],
    &mut [usize],
    &mut [usize],
) -> Result<(), Refusal>;
