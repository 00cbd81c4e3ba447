//! Every call is made and every refusal is met; what the crate says twice is held against the header for C.

mod curves;
mod device;
mod grids;
mod header;
mod many;
mod points;
mod sheets;
mod steps;
mod surfaces;
