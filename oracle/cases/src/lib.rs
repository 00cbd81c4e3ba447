//! Generated calls, and their comparison with the reading of the rules.

mod any_knots;
mod case;
mod comparison;
mod device;
mod even_knots;
mod examples;
mod faults;
mod generator;
mod grid;
mod lending;
mod lent;
mod list;
mod numbers;
mod overflow;
mod random;
mod reached;
mod reached_sheets;
mod reached_streams;
mod reached_tensors;
mod reading_calls;
mod report;
mod sheet;
mod stream;
mod verification;

pub use case::{Argument, Call, Calls, Case};
pub use comparison::{compare_all, compare_bytes, compare_more, Bytes, Plan};
pub use device::{integer, LENGTHS};
pub use generator::{Kind, KINDS};
pub use lent::Lent;
pub use list::{list, CALLS};
pub use random::Random;
pub use reading_calls::Reading;
pub use report::{Counts, Report, NUMBERS};
pub use sheet::SHORT_SHEETS;
pub use stream::{refused_by, stopped_by, PASSED_OVER, STOPPING};
