//! Hullashlar for Rust: safe functions over the calls of the proved archive.
//!
//! A smooth surface through a grid of samples on one to four axes, by cubic splines. The tensor of a grid holds its samples and their
//! derivatives. A [`Surface`] owns all that a grid needs:
//!
//! ```
//! use hullashlar::{kind, mode, Axes, Surface};
//!
//! // Gains at three frequencies and three levels; outside them the gain is that of the nearest end.
//! let mut axes = Axes::default();
//! axes.count = 2;
//! axes.points = [3, 3, 0, 0];
//! axes.kinds = [kind::SECOND_DERIVATIVE; 8];
//! axes.modes = [mode::HOLD; 4];
//! let knots = [0.5, 1.0, 2.0, 40.0, 60.0, 80.0];
//! let samples = [20.0, 15.0, 10.0, 24.0, 18.0, 12.0, 28.0, 21.0, 14.0];
//!
//! let mut surface = Surface::build(axes, &knots, &samples)?;
//! assert_eq!(surface.query(&[1.0, 60.0])?.0, 18.0);
//! let before = surface.query(&[1.5, 50.0])?.0;
//! surface.change(&[1, 1], 19.0)?;
//! assert_ne!(surface.query(&[1.5, 50.0])?.0, before);
//! assert_eq!(surface.verify()?, None);
//! # Ok::<(), hullashlar::Refusal>(())
//! ```
//!
//! Every other function is one call of the archive over slices that the caller lends: nothing is allocated, and a call that refuses says
//! by which [`Refusal`]. The slices must have the lengths that the function names; any other length is refused.
//!
//! A host asks [`floats_ready`] once on each thread that is to call.

#[cfg(not(target_pointer_width = "64"))]
compile_error!(
    "this crate is for processors of 64 bits; firmware of 32 bits takes the header for C"
);

mod asked;
mod axes;
mod curve;
mod declared;
mod device;
mod many;
mod owned;
mod query;
mod refusal;
mod sheet;
mod step;
mod tensor;

pub use axes::{direction, kind, mode, Axes};
pub use curve::{curve, moments, slopes};
pub use declared::floats_ready;
pub use device::{cell_value, cursor_next};
pub use many::{direct_queries, quick_queries, stepped_many};
pub use owned::Surface;
pub use query::{direct_query, even_profile, even_query, query, quick_query};
pub use refusal::Refusal;
pub use sheet::{read, read_edition_1, sheet_tensor, surface, write, Sheet, REFUSED};
pub use step::{exact_index, locate_axis, locate_step_index, stepped, Location};
pub use tensor::{build, change, verify, Stale};

/// The numbers of scratch that a call wants beside the length of its tensor.
///
/// ```
/// let axes = hullashlar::Axes { count: 1, points: [5, 0, 0, 0], ..Default::default() };
/// let scratch = vec![0.0; axes.tensor_length() + hullashlar::SCRATCH];
/// assert_eq!(scratch.len(), 2058);
/// ```
pub const SCRATCH: usize = 2048;

/// The length of the buffers that a sheet is read into.
///
/// ```
/// let (mut knots, mut samples) = ([0.0; hullashlar::BUFFER], [0.0; hullashlar::BUFFER]);
/// assert!(hullashlar::read(&[], &mut knots, &mut samples).is_err());
/// ```
pub const BUFFER: usize = 1024;

/// The most numbers that a tensor holds.
///
/// ```
/// let tensor = [0.0; hullashlar::LONGEST_TENSOR];
/// assert_eq!(tensor.len(), 4096);
/// ```
pub const LONGEST_TENSOR: usize = 4096;

/// The bytes of the longest sheet.
///
/// ```
/// let bytes = [0_u8; hullashlar::LONGEST_SHEET];
/// assert_eq!(bytes.len(), 10_309);
/// ```
pub const LONGEST_SHEET: usize = 10309;

// The example of README.md is run as a test too.
#[cfg(doctest)]
#[doc = include_str!("../README.md")]
struct Readme;
