//! The calls of include/hullashlar.h as Rust declares them. A slice is a pointer, then its length in elements.

/// A length or an index: 64 bits on every processor, and `usize` where that has 64.
#[cfg(target_pointer_width = "64")]
pub type Count = usize;
#[cfg(not(target_pointer_width = "64"))]
pub type Count = u64;

/// Whether this thread rounds to nearest and keeps subnormal numbers, as the calls need it.
///
/// ```
/// assert!(hullashlar::floats_ready());
/// ```
#[allow(dead_code)]
pub fn floats_ready() -> bool {
    let asked = core::hint::black_box::<f64>;
    let (least, little) = (asked(f64::MIN_POSITIVE), asked(f64::EPSILON / 4.0));
    asked(least / 2.0) != 0.0 && asked(1.0 + little) == 1.0 && asked(1.0 - little) == 1.0
}

#[rustfmt::skip]
extern "C" {
    pub fn hullashlar_moments(
        points: Count,
        knots: *const f64, knots_length: Count,
        samples: *const f64, samples_length: Count,
        kinds: *const u8, kinds_length: Count,
        values: *const f64, values_length: Count,
        moments: *mut f64, moments_length: Count,
        scratch: *mut f64, scratch_length: Count,
    ) -> Count;
    pub fn hullashlar_curve(
        points: Count,
        knots: *const f64, knots_length: Count,
        samples: *const f64, samples_length: Count,
        moments: *const f64, moments_length: Count,
        point: f64,
        value: *mut f64, value_length: Count,
    ) -> Count;
    pub fn hullashlar_slopes(
        points: Count,
        knots: *const f64, knots_length: Count,
        samples: *const f64, samples_length: Count,
        moments: *const f64, moments_length: Count,
        slopes: *mut f64, slopes_length: Count,
    ) -> Count;
    pub fn hullashlar_build(
        axes: Count,
        points: *const Count, points_length: Count,
        kinds: *const u8, kinds_length: Count,
        values: *const f64, values_length: Count,
        knots: *const f64, knots_length: Count,
        samples: *const f64, samples_length: Count,
        tensor: *mut f64, tensor_length: Count,
        scratch: *mut f64, scratch_length: Count,
    ) -> Count;
    pub fn hullashlar_change(
        axes: Count,
        points: *const Count, points_length: Count,
        kinds: *const u8, kinds_length: Count,
        values: *const f64, values_length: Count,
        knots: *const f64, knots_length: Count,
        tensor: *mut f64, tensor_length: Count,
        scratch: *mut f64, scratch_length: Count,
        place: *const Count, place_length: Count,
        sample: f64,
        lanes: *mut Count, lanes_length: Count,
    ) -> Count;
    pub fn hullashlar_verify(
        axes: Count,
        points: *const Count, points_length: Count,
        kinds: *const u8, kinds_length: Count,
        values: *const f64, values_length: Count,
        knots: *const f64, knots_length: Count,
        tensor: *const f64, tensor_length: Count,
        scratch: *mut f64, scratch_length: Count,
        place: *mut Count, place_length: Count,
        found: *mut Count, found_length: Count,
    ) -> Count;
    pub fn hullashlar_query(
        axes: Count,
        points: *const Count, points_length: Count,
        modes: *const u8, modes_length: Count,
        knots: *const f64, knots_length: Count,
        tensor: *const f64, tensor_length: Count,
        coordinates: *const f64, coordinates_length: Count,
        value: *mut f64, value_length: Count,
        labels: *mut Count, labels_length: Count,
    ) -> Count;
    pub fn hullashlar_quick_query(
        axes: Count,
        points: *const Count, points_length: Count,
        modes: *const u8, modes_length: Count,
        knots: *const f64, knots_length: Count,
        tensor: *const f64, tensor_length: Count,
        coordinates: *const f64, coordinates_length: Count,
        value: *mut f64, value_length: Count,
        labels: *mut Count, labels_length: Count,
    ) -> Count;
    pub fn hullashlar_even_query(
        axes: Count,
        points: *const Count, points_length: Count,
        modes: *const u8, modes_length: Count,
        knots: *const f64, knots_length: Count,
        tensor: *const f64, tensor_length: Count,
        coordinates: *const f64, coordinates_length: Count,
        value: *mut f64, value_length: Count,
        labels: *mut Count, labels_length: Count,
        uneven: *mut Count, uneven_length: Count,
    ) -> Count;
    pub fn hullashlar_even_profile(
        axes: Count,
        points: *const Count, points_length: Count,
        knots: *const f64, knots_length: Count,
        told: *mut Count, told_length: Count,
    ) -> Count;
    pub fn hullashlar_direct_query(
        axes: Count,
        points: *const Count, points_length: Count,
        modes: *const u8, modes_length: Count,
        knots: *const f64, knots_length: Count,
        tensor: *const f64, tensor_length: Count,
        coordinates: *const f64, coordinates_length: Count,
        value: *mut f64, value_length: Count,
        labels: *mut Count, labels_length: Count,
    ) -> Count;
    pub fn hullashlar_quick_queries(
        axes: Count,
        points: *const Count, points_length: Count,
        modes: *const u8, modes_length: Count,
        knots: *const f64, knots_length: Count,
        tensor: *const f64, tensor_length: Count,
        coordinates: *const f64, coordinates_length: Count,
        values: *mut f64, values_length: Count,
        labels: *mut Count, labels_length: Count,
        refusals: *mut Count, refusals_length: Count,
    ) -> Count;
    pub fn hullashlar_direct_queries(
        axes: Count,
        points: *const Count, points_length: Count,
        modes: *const u8, modes_length: Count,
        knots: *const f64, knots_length: Count,
        tensor: *const f64, tensor_length: Count,
        coordinates: *const f64, coordinates_length: Count,
        values: *mut f64, values_length: Count,
        labels: *mut Count, labels_length: Count,
        refusals: *mut Count, refusals_length: Count,
    ) -> Count;
    pub fn hullashlar_read(
        bytes: *const u8, bytes_length: Count,
        knots: *mut f64, knots_length: Count,
        samples: *mut f64, samples_length: Count,
        axes: *mut Count, axes_length: Count,
        points: *mut Count, points_length: Count,
        kinds: *mut u8, kinds_length: Count,
        values: *mut f64, values_length: Count,
        modes: *mut u8, modes_length: Count,
        edition: *mut Count, edition_length: Count,
    ) -> Count;
    pub fn hullashlar_read_edition_1(
        bytes: *const u8, bytes_length: Count,
        knots: *mut f64, knots_length: Count,
        samples: *mut f64, samples_length: Count,
        axes: *mut Count, axes_length: Count,
        points: *mut Count, points_length: Count,
        kinds: *mut u8, kinds_length: Count,
        values: *mut f64, values_length: Count,
    ) -> Count;
    pub fn hullashlar_sheet_tensor(
        bytes: *const u8, bytes_length: Count,
        knots: *mut f64, knots_length: Count,
        samples: *mut f64, samples_length: Count,
        axes: *mut Count, axes_length: Count,
        points: *mut Count, points_length: Count,
        kinds: *mut u8, kinds_length: Count,
        values: *mut f64, values_length: Count,
        modes: *mut u8, modes_length: Count,
        edition: *mut Count, edition_length: Count,
        tensor: *mut f64, tensor_length: Count,
        scratch: *mut f64, scratch_length: Count,
        length: *mut Count, length_length: Count,
    ) -> Count;
    pub fn hullashlar_write(
        axes: Count,
        points: *const Count, points_length: Count,
        kinds: *const u8, kinds_length: Count,
        values: *const f64, values_length: Count,
        modes: *const u8, modes_length: Count,
        knots: *const f64, knots_length: Count,
        samples: *const f64, samples_length: Count,
        edition: Count,
        bytes: *mut u8, bytes_length: Count,
        length: *mut Count, length_length: Count,
    ) -> Count;
    pub fn hullashlar_exact_index(
        points: Count,
        knots: *const f64, knots_length: Count,
        lower: Count,
        point: f64,
        found: *mut Count, found_length: Count,
    ) -> Count;
    pub fn hullashlar_locate_axis(
        points: Count,
        knots: *const f64, knots_length: Count,
        point: f64,
        location: *mut Count, location_length: Count,
        fraction: *mut f64, fraction_length: Count,
    ) -> Count;
    pub fn hullashlar_locate_step_index(
        points: Count,
        knots: *const f64, knots_length: Count,
        direction: u8,
        point: f64,
        index: *mut Count, index_length: Count,
    ) -> Count;
    pub fn hullashlar_stepped(
        axes: Count,
        points: *const Count, points_length: Count,
        directions: *const u8, directions_length: Count,
        knots: *const f64, knots_length: Count,
        samples: *const f64, samples_length: Count,
        coordinates: *const f64, coordinates_length: Count,
        value: *mut f64, value_length: Count,
        indices: *mut Count, indices_length: Count,
    ) -> Count;
    pub fn hullashlar_stepped_many(
        axes: Count,
        points: *const Count, points_length: Count,
        directions: *const u8, directions_length: Count,
        knots: *const f64, knots_length: Count,
        samples: *const f64, samples_length: Count,
        coordinates: *const f64, coordinates_length: Count,
        values: *mut f64, values_length: Count,
        indices: *mut Count, indices_length: Count,
        refusals: *mut Count, refusals_length: Count,
    ) -> Count;
    pub fn hullashlar_cell_value(
        p0: i32,
        p1: i32,
        d0: i32,
        d1: i32,
        k: i32,
        value: *mut i32, value_length: Count,
    ) -> Count;
    pub fn hullashlar_cursor_next(
        curve: *const u8, curve_length: Count,
        cursor: *mut u32, cursor_length: Count,
        value: *mut i32, value_length: Count,
    ) -> Count;
    pub fn hullashlar_surface(
        bytes: *const u8, bytes_length: Count,
        c0: u64,
        c1: u64,
        c2: u64,
        c3: u64,
    ) -> u64;
}
