/* Hullashlar for C: twenty-five calls over numbers and plain slices.
 *
 * docs/RULES.md says what each call computes and when it refuses, in its chapters Calls, Verify, DirectCalls,
 * ProfileCalls, ManyPoints, ManyCalls, EvenCalls, StepCalls, ManySteps, Read, SheetTensor, Write, SheetSurface,
 * DeviceCell, DeviceCurve, OwnRefusals, CurveExports, TensorExports, VerifyExports, QueryExports, DirectExports,
 * ProfileExports, ManyExports, SheetExports, StepExports, ManyStepExports and DeviceExports. docs/GLOSSARY.md has our
 * words beside the usual ones, and a table of the refusals. Each call has an example in examples/calls; `make examples`
 * runs them.
 *
 * Machine. One header serves every processor. Every count has 64 bits, and no call takes a size_t. The archive
 * target/staticlib/libhullashlar.a is for x86-64, with SSE2 and the System V calling convention. `make firmware`
 * compiles the same proved module for Cortex-M0+, M4F, M33 and M7, AArch64, RV32 and RV64, to
 * target/firmware/TARGET/libhullashlar.a; docs/FIRMWARE.md says how to link it and what each call costs there. An
 * archive needs memcpy and memset from its host. On 32 bits it also needs the compiler's functions that divide 64-bit
 * whole numbers. It needs nothing else.
 *
 * Floats. A call computes under the caller's float settings. They must be those that a C program starts with: rounding
 * to nearest; subnormal numbers kept, neither flushed to zero nor read as zero (FTZ and DAZ clear in MXCSR; FZ clear in
 * FPCR or FPSCR); all exceptions masked. No call changes the settings. A call may set exception flags.
 *
 * Slices. A slice is a pointer, then its length in elements. A pointer to double or uint64_t is aligned to 8 bytes, one
 * to int32_t or uint32_t to 4. A slice that a call writes overlaps no other slice of that call. The pointer of a slice
 * of length 0 may be null. A slot is a slice that takes a part of the answer; Outputs, below, names the slots.
 *
 * State. No call allocates memory, keeps a pointer or has data of its own. A call writes its stack and the slices that
 * `Writes:` names, and nothing else. So calls may run at the same time, on threads or in handlers of interrupts and
 * signals, as long as no call writes a slice that another one uses.
 *
 * Memory. The largest grid takes 98,304 bytes: tensor 32,768, scratch 49,152, the two buffers of a sheet 16,384.
 * hullashlar_surface takes the sheet alone, and has its memory on the stack. Every other call needs at most 2,888
 * bytes of stack on x86-64, on any input, beside what the host's memcpy and memset take. docs/BENCH.md has the stack of
 * each call, the size of the code and what the archive's proofs rest on.
 *
 * Axes. The arrays points, kinds, values, modes, directions, place, labels and indices are lent for four axes. An entry
 * past the axes in use may be anything: no refusal, no answer and no number that is written depends on it. Labels,
 * indices and a place that a call writes are 0 there. kinds[2 * i] and values[2 * i] are the lower end of axis i,
 * kinds[2 * i + 1] and values[2 * i + 1] the upper end. A value counts where its kind is a first or a second
 * derivative. Elsewhere it may be anything.
 *
 * Grids. The knots of an axis follow those of the axis before it. Samples and tensors run fastest along the last axis:
 * on two axes the sample at place (p, q) is samples[p * points[1] + q]. A tensor has 1 << axes numbers for each sample,
 * side by side, one for each mask. Bit i of a mask says that the number is a derivative along axis i; mask 0 is the
 * sample. So sample s has its number of mask m at tensor[(s << axes) + m]. docs/RULES.md draws it, in Sizes.
 *
 * Queries. Four calls ask a surface at one point. A query evaluates the cubic of one cell on each axis, and the labels
 * are the numbers of these cells. The calls differ in how they find the cell and in which knots they look at.
 *   hullashlar_query         looks at all knots; a knot between two cells belongs to the lower cell.
 *   hullashlar_quick_query   the same cells on knots that are accepted, found by at most 8 halvings an axis.
 *   hullashlar_even_query    even axes only; looks at all knots; finds the cell by one division.
 *   hullashlar_direct_query  the cells of hullashlar_even_query; looks at no more than 5 knots of an axis.
 * Where each coordinate equals a knot of its axis, each of them answers the tensor's number at that place, mask 0:
 * after a build and any changes, the sample that stands there. A zero may come with the other sign. That holds on knots
 * that hullashlar_query accepts and with a tensor of finite numbers. For the calls that divide the axes must also be
 * even, and on each the last knot less the first must be a finite double.
 *
 * Even axes. Take the knots x of an axis and its intervals h[i] = x[i + 1] - x[i]. The axis is even where, for every i,
 *     fabs(h[i] - h[0]) <= 1024 * DBL_EPSILON * h[0]
 * The cell of a coordinate c is then the whole part of (c - x[0]) / h[0], at least 0 and at most the last cell.
 *   - On a knot between two cells it is the upper or the lower cell, as the quotient is rounded.
 *   - Close to a knot it can be the cell beyond that knot.
 *   - Where the quotient is 2^64 or more it is cell 0.
 *   - In hold the coordinate moves to the end knot first, so it is the cell of that knot.
 *
 * Refusals. A call returns its refusal: 0, or the number of the first fault that it meets. hullashlar_surface returns
 * it in a pattern. `Refuses:` has the numbers of a call, with their names, in the order in which it looks. The order is
 * decided by what the call takes.
 *   - Axes: 1 (axes); 4 (length) for points_length; 2 (points); 3 (tensor); 4 (length) for every other slice but
 *     scratch and bytes; 13 (kinds) and 22 (mode), of axes in use; then the rest of the list. The list is not always in
 *     the order of the numbers: 21 (uneven) and 18 (outside) stand before 10 (outcome), 12 (edition) and 23 (lost)
 *     before 15 (buffer).
 *   - One axis: 2 (points); 4 (length); 13 (kinds) or 22 (mode); then the rest of the list.
 *   - A sheet: 4 (length); then the first fault on the way through the sheet; then the refusals of the build.
 *     hullashlar_surface has an order of its own.
 *   - Whole numbers: 4 (length) for the slots; then 19 (range) and 20 (position), as the two calls say.
 *
 * Outputs. After a refusal every output is as it was, but for the slots, which are then 0 or +0.0. The slots are value,
 * labels, lanes, uneven, told, found, the place of hullashlar_verify, location, fraction, index and indices; of a sheet
 * axes, points, kinds, values, modes, edition and length. More exactly:
 *   - If one slot of a call has a wrong length, the call writes none of its slots.
 *   - uneven after 21 (uneven), and told after 7 (number), 8 (knots) and 21 (uneven), say where the fault is.
 *   - hullashlar_sheet_tensor may read a sheet whose build is refused. It then writes knots, samples, axes, points,
 *     kinds, values, modes and edition as after a read, and a length of 0.
 *   - hullashlar_cursor_next leaves the cursor as it was.
 *   - The calls for many points have no slots. Where such a call itself is refused, it writes nothing.
 * Scratch is +0.0, all of it, after success and after 10 (outcome). After any other refusal it is as it was.
 */
#ifndef HULLASHLAR_H
#define HULLASHLAR_H

#include <float.h>
#include <stdint.h>

/* The version of this header and of the calls. A preprocessor compares the three numbers. */
#define HULLASHLAR_VERSION_MAJOR 1
#define HULLASHLAR_VERSION_MINOR 1
#define HULLASHLAR_VERSION_PATCH 0
#define HULLASHLAR_VERSION "1.1.0"

#ifdef __cplusplus
#define HULLASHLAR_HOLDS(fact, meaning) static_assert(fact, meaning)
#define HULLASHLAR_ALIGNMENT(type) alignof(type)
#else
#define HULLASHLAR_HOLDS(fact, meaning) _Static_assert(fact, meaning)
#define HULLASHLAR_ALIGNMENT(type) _Alignof(type)
#endif

HULLASHLAR_HOLDS(sizeof(double) == 8 && FLT_RADIX == 2 && DBL_MANT_DIG == 53 && DBL_MIN_EXP == -1021 &&
                 DBL_MAX_EXP == 1024, "a double is a number of IEEE 754 with 64 bits");
HULLASHLAR_HOLDS(HULLASHLAR_ALIGNMENT(double) == 8 && HULLASHLAR_ALIGNMENT(uint64_t) == 8,
                 "the compiler aligns double and uint64_t to 8 bytes");

/* Every archive is for a processor that has the lowest byte first, of a double as of a whole number. So memcpy between
 * a double and a uint64_t gives the pattern that hullashlar_surface takes. */
#if defined(__BYTE_ORDER__) && __BYTE_ORDER__ != __ORDER_LITTLE_ENDIAN__
#error "the archives are for processors that have the lowest byte first"
#endif
#if defined(__FLOAT_WORD_ORDER__) && __FLOAT_WORD_ORDER__ != __ORDER_LITTLE_ENDIAN__
#error "the archives are for processors that have the lowest byte of a double first"
#endif

#ifdef __cplusplus
extern "C" {
#endif

/* 1 where this thread rounds to nearest and keeps subnormal numbers, as the calls need it, and else 0. It does not ask
 * for exceptions that trap. A host asks once on each thread that will call:
 *     if (!hullashlar_floats_ready()) return 3;
 * Under other settings answers move; docs/SAFETY.md says of which calls. Each number here is volatile, so that the
 * compiler leaves the question to the processor. */
static inline int hullashlar_floats_ready(void)
{
    volatile double least = DBL_MIN, little = DBL_EPSILON / 4;
    volatile double half = least / 2, above = 1.0 + little, below = 1.0 - little;
    return half != 0.0 && above == 1.0 && below == 1.0;
}

/* What a call returns: the refusals. docs/GLOSSARY.md says what to do about each. */
enum hullashlar_refusal {
    HULLASHLAR_ACCEPTED = 0,         /* no refusal */
    HULLASHLAR_REFUSED_AXES = 1,     /* no axes, or more than four */
    HULLASHLAR_REFUSED_POINTS = 2,   /* an axis of one point or none, or of more than 256 */
    HULLASHLAR_REFUSED_TENSOR = 3,   /* the grid needs a tensor of more than 4,096 numbers */
    HULLASHLAR_REFUSED_LENGTH = 4,   /* a slice of another length than it must have */
    HULLASHLAR_REFUSED_SCRATCH = 5,  /* too little scratch */
    HULLASHLAR_REFUSED_PLACE = 6,    /* no place of the grid; a lower index with no knot after it */
    HULLASHLAR_REFUSED_NUMBER = 7,   /* infinite or NaN: a knot, sample, end value, point or coordinate; in a change and
                                        a verify also a number of the tensor */
    HULLASHLAR_REFUSED_KNOTS = 8,    /* a knot is not above the one before it, or too far above for a double */
    HULLASHLAR_REFUSED_FEWNESS = 9,  /* fewer points than NotAKnot needs: 3, or 4 where both ends are so */
    HULLASHLAR_REFUSED_OUTCOME = 10, /* what came out is infinite or NaN */
    HULLASHLAR_REFUSED_SHORT = 11,   /* a sheet ends before its fields do */
    HULLASHLAR_REFUSED_EDITION = 12, /* an edition other than 1 and 2; in the reader of edition 1, other than 1 */
    HULLASHLAR_REFUSED_KINDS = 13,   /* a number that is no kind, or Periodic at one end of an axis only */
    HULLASHLAR_REFUSED_TAIL = 14,    /* a sheet goes on after its fields, by a byte or by a bit that is set */
    HULLASHLAR_REFUSED_BUFFER = 15,  /* fewer bytes than the sheet to be written has */
    HULLASHLAR_REFUSED_STACK = 16,   /* hullashlar_surface: the sheet needs a tensor of more than 512 numbers */
    HULLASHLAR_REFUSED_UNUSED = 17,  /* hullashlar_surface: a pattern past the axes in use is not 0 */
    HULLASHLAR_REFUSED_OUTSIDE = 18, /* a coordinate outside the knots of an axis whose mode refuses it */
    HULLASHLAR_REFUSED_RANGE = 19,   /* a value or a slope of a cell in whole numbers is out of its range */
    HULLASHLAR_REFUSED_POSITION = 20, /* a position outside 0..256, a cursor past the end, or not 1 to 255 cells */
    HULLASHLAR_REFUSED_UNEVEN = 21,  /* the knots of an axis are not evenly spaced */
    HULLASHLAR_REFUSED_MODE = 22,    /* a number that is no mode, or no direction */
    HULLASHLAR_REFUSED_LOST = 23     /* edition 1 and a mode other than extend, for which it has no field */
};

/* The kinds of an end. Periodic stands at both ends of an axis or at neither. */
enum hullashlar_kind {
    HULLASHLAR_NOT_A_KNOT = 0,
    HULLASHLAR_FIRST_DERIVATIVE = 1,
    HULLASHLAR_SECOND_DERIVATIVE = 2,
    HULLASHLAR_PERIODIC = 3
};

/* What a query does with a coordinate below the first knot of its axis or above the last. An end knot is inside. */
enum hullashlar_mode {
    HULLASHLAR_EXTEND = 0,           /* the boundary cubic goes on */
    HULLASHLAR_HOLD = 1,             /* the nearest end knot is taken in its place */
    HULLASHLAR_REFUSE = 2            /* the query is refused, 18 (outside) */
};

/* The directions of a step. */
enum hullashlar_direction {
    HULLASHLAR_LOWER = 0,            /* to the last knot at or below the point */
    HULLASHLAR_UPPER = 1             /* to the first knot at or above the point */
};

/* Sizes, in elements. */
enum hullashlar_size {
    HULLASHLAR_AXES = 4,             /* the most axes; so long are points, modes, directions, place, labels, indices */
    HULLASHLAR_ENDS = 8,             /* the length of kinds and values */
    HULLASHLAR_AXIS_ENDS = 2,        /* the same in a call on one axis */
    HULLASHLAR_FOUND = 3,            /* the length of what hullashlar_verify finds */
    HULLASHLAR_POINTS = 256,         /* the most points on an axis */
    HULLASHLAR_TENSOR = 4096,        /* the most numbers in a tensor */
    HULLASHLAR_SCRATCH = 2048,       /* the scratch that is needed beside the tensor's length */
    HULLASHLAR_MOST_SCRATCH = 6144,  /* enough scratch for every grid */
    HULLASHLAR_BUFFER = 1024,        /* the length of the buffers that a sheet is read into */
    HULLASHLAR_SHEET = 10309         /* the bytes of the longest sheet that is accepted */
};

/* The moments of the curve through samples on one axis: its second derivative at each knot.
 * Lengths: knots_length == points, samples_length == points, kinds_length == 2, values_length == 2,
 *          moments_length == points, scratch_length >= 2048
 * Writes:  moments, scratch
 * Refuses: 2 points, 4 length, 13 kinds, 5 scratch, 7 number, 8 knots, 9 fewness, 10 outcome
 * Example: examples/calls/moments.c */
uint64_t hullashlar_moments(uint64_t points,
                            const double *knots, uint64_t knots_length,
                            const double *samples, uint64_t samples_length,
                            const uint8_t *kinds, uint64_t kinds_length,
                            const double *values, uint64_t values_length,
                            double *moments, uint64_t moments_length,
                            double *scratch, uint64_t scratch_length);

/* The value of the curve at a point. Beyond the knots the boundary cubic goes on. The moments are taken as they are.
 * Lengths: knots_length == points, samples_length == points, moments_length == points, value_length == 1
 * Writes:  value
 * Refuses: 2 points, 4 length, 7 number, 8 knots, 10 outcome
 * Example: examples/calls/curve.c */
uint64_t hullashlar_curve(uint64_t points,
                          const double *knots, uint64_t knots_length,
                          const double *samples, uint64_t samples_length,
                          const double *moments, uint64_t moments_length,
                          double point,
                          double *value, uint64_t value_length);

/* The slope of the curve at each knot. The moments are taken as they are.
 * Lengths: knots_length == points, samples_length == points, moments_length == points, slopes_length == points
 * Writes:  slopes
 * Refuses: 2 points, 4 length, 7 number, 8 knots, 10 outcome
 * Example: examples/calls/slopes.c */
uint64_t hullashlar_slopes(uint64_t points,
                           const double *knots, uint64_t knots_length,
                           const double *samples, uint64_t samples_length,
                           const double *moments, uint64_t moments_length,
                           double *slopes, uint64_t slopes_length);

/* The tensor of samples on a grid: each sample, and beside it the derivatives of the surface there.
 * Lengths: points_length == 4, kinds_length == 8, values_length == 8,
 *          knots_length == points[0] + ... + points[axes - 1],
 *          samples_length == points[0] * ... * points[axes - 1],
 *          tensor_length == samples_length << axes, scratch_length >= tensor_length + 2048
 * Writes:  tensor, scratch
 * Refuses: 1 axes, 2 points, 3 tensor, 4 length, 13 kinds, 5 scratch, 7 number, 8 knots, 9 fewness, 10 outcome
 * Example: examples/calls/build.c */
uint64_t hullashlar_build(uint64_t axes,
                          const uint64_t *points, uint64_t points_length,
                          const uint8_t *kinds, uint64_t kinds_length,
                          const double *values, uint64_t values_length,
                          const double *knots, uint64_t knots_length,
                          const double *samples, uint64_t samples_length,
                          double *tensor, uint64_t tensor_length,
                          double *scratch, uint64_t scratch_length);

/* Changes one sample of a tensor and solves again every lane that can differ. If the tensor comes from an accepted
 * build or sheet, whatever changes followed, each of its numbers then has the bits of a fresh build from the samples
 * that stand now. Of any other tensor the call renews the numbers of these lanes and keeps the rest.
 * Lengths: points_length == 4, kinds_length == 8, values_length == 8,
 *          knots_length == points[0] + ... + points[axes - 1],
 *          tensor_length == (points[0] * ... * points[axes - 1]) << axes,
 *          scratch_length >= tensor_length + 2048, place_length == 4, lanes_length == 1
 * Writes:  tensor, scratch; lanes[0]: how many lanes were solved
 * Refuses: 1 axes, 2 points, 3 tensor, 4 length, 13 kinds, 5 scratch, 6 place, 7 number, 8 knots, 9 fewness, 10 outcome
 * Example: examples/calls/change.c */
uint64_t hullashlar_change(uint64_t axes,
                           const uint64_t *points, uint64_t points_length,
                           const uint8_t *kinds, uint64_t kinds_length,
                           const double *values, uint64_t values_length,
                           const double *knots, uint64_t knots_length,
                           double *tensor, uint64_t tensor_length,
                           double *scratch, uint64_t scratch_length,
                           const uint64_t *place, uint64_t place_length,
                           double sample,
                           uint64_t *lanes, uint64_t lanes_length);

/* Whether a tensor, whoever wrote it, is whole: whether each of its numbers has the bits that a build from its own
 * samples gives. Bits decide, so -0.0 differs from +0.0. All that hullashlar_change says of a built tensor holds of a
 * whole one. Where only one sample was overwritten, hullashlar_change with that sample makes the tensor whole. It may
 * keep any other damage and carry it on; the sure repair is hullashlar_build.
 * Lengths: points_length == 4, kinds_length == 8, values_length == 8,
 *          knots_length == points[0] + ... + points[axes - 1],
 *          tensor_length == (points[0] * ... * points[axes - 1]) << axes,
 *          scratch_length >= tensor_length + 2048, place_length == 4, found_length == 3
 * Writes:  scratch; found[0]: 1 for a whole tensor, else 0; found[1]: the mask of the first number that differs;
 *          found[2]: how many numbers differ; place: the place of the first. Of a whole tensor all but found[0] are 0.
 * Refuses: 1 axes, 2 points, 3 tensor, 4 length, 13 kinds, 5 scratch, 7 number (in the whole tensor too), 8 knots,
 *          9 fewness, 10 outcome (of that build)
 * Example: examples/calls/verify.c */
uint64_t hullashlar_verify(uint64_t axes,
                           const uint64_t *points, uint64_t points_length,
                           const uint8_t *kinds, uint64_t kinds_length,
                           const double *values, uint64_t values_length,
                           const double *knots, uint64_t knots_length,
                           const double *tensor, uint64_t tensor_length,
                           double *scratch, uint64_t scratch_length,
                           uint64_t *place, uint64_t place_length,
                           uint64_t *found, uint64_t found_length);

/* The value of the surface at the coordinates. Outside the knots of an axis its mode decides.
 * Lengths: points_length == 4, modes_length == 4, knots_length == points[0] + ... + points[axes - 1],
 *          tensor_length == (points[0] * ... * points[axes - 1]) << axes,
 *          coordinates_length == axes, value_length == 1, labels_length == 4
 * Writes:  value; labels: on each axis the number of the cell that was evaluated
 * Refuses: 1 axes, 2 points, 3 tensor, 4 length, 22 mode, 7 number, 8 knots, 18 outside, 10 outcome
 * Example: examples/calls/query.c */
uint64_t hullashlar_query(uint64_t axes,
                          const uint64_t *points, uint64_t points_length,
                          const uint8_t *modes, uint64_t modes_length,
                          const double *knots, uint64_t knots_length,
                          const double *tensor, uint64_t tensor_length,
                          const double *coordinates, uint64_t coordinates_length,
                          double *value, uint64_t value_length,
                          uint64_t *labels, uint64_t labels_length);

/* The value of the surface, at a cost that hardly grows with the knots: at most 8 halvings for each axis. On knots that
 * hullashlar_query accepts, the whole answer is that of hullashlar_query. Any other knots are searched in the same way.
 * Of an axis the call looks at the first knot, the last, those that the search visits and the two of the cell. In hold
 * the cell stays that of the coordinate as it was given.
 * Lengths: points_length == 4, modes_length == 4, knots_length == points[0] + ... + points[axes - 1],
 *          tensor_length == (points[0] * ... * points[axes - 1]) << axes,
 *          coordinates_length == axes, value_length == 1, labels_length == 4
 * Writes:  value; labels: on each axis the number of the cell that was evaluated
 * Refuses: 1 axes, 2 points, 3 tensor, 4 length, 22 mode, 7 number (of coordinates alone), 8 knots, 18 outside,
 *          10 outcome. 8 (knots) is for a cell that was found: one of its knots is infinite or NaN, or the upper knot
 *          is not above the lower by a step that a double holds.
 * Example: examples/calls/quick_query.c */
uint64_t hullashlar_quick_query(uint64_t axes,
                                const uint64_t *points, uint64_t points_length,
                                const uint8_t *modes, uint64_t modes_length,
                                const double *knots, uint64_t knots_length,
                                const double *tensor, uint64_t tensor_length,
                                const double *coordinates, uint64_t coordinates_length,
                                double *value, uint64_t value_length,
                                uint64_t *labels, uint64_t labels_length);

/* The value of the surface where every axis is even, in the cells that one division finds (Even axes, above). Where the
 * labels are those of hullashlar_query, so is the value.
 * Lengths: points_length == 4, modes_length == 4, knots_length == points[0] + ... + points[axes - 1],
 *          tensor_length == (points[0] * ... * points[axes - 1]) << axes,
 *          coordinates_length == axes, value_length == 1, labels_length == 4, uneven_length == 2
 * Writes:  value; labels: on each axis the number of the cell that was evaluated; uneven: after 21 (uneven) uneven[0]
 *          is the lowest axis that is not even, and uneven[1] the lower knot of its first interval that fails, both
 *          from 0; else 0, 0
 * Refuses: 1 axes, 2 points, 3 tensor, 4 length, 22 mode, 7 number, 8 knots, 21 uneven, 18 outside, 10 outcome
 * Example: examples/calls/even_query.c */
uint64_t hullashlar_even_query(uint64_t axes,
                               const uint64_t *points, uint64_t points_length,
                               const uint8_t *modes, uint64_t modes_length,
                               const double *knots, uint64_t knots_length,
                               const double *tensor, uint64_t tensor_length,
                               const double *coordinates, uint64_t coordinates_length,
                               double *value, uint64_t value_length,
                               uint64_t *labels, uint64_t labels_length,
                               uint64_t *uneven, uint64_t uneven_length);

/* Whether hullashlar_even_query accepts the knots. Where this call returns 0, hullashlar_direct_query and
 * hullashlar_direct_queries give the answers of hullashlar_even_query on these points and knots, for every tensor, all
 * modes and all coordinates. After any other number but 4 (length), hullashlar_even_query refuses too. So a host calls
 * it once, when a sheet is loaded, and asks directly afterwards.
 * Lengths: points_length == 4, knots_length == points[0] + ... + points[axes - 1], told_length == 2
 * Writes:  told: after 7 (number), 8 (knots) and 21 (uneven) the lowest axis with the fault, and the first place of the
 *          fault there, both from 0; else 0, 0. The place is after 7 (number) a knot that is infinite or NaN; after
 *          8 (knots) the lower knot of a step that does not rise, or that no double holds; after 21 (uneven) it is that
 *          of uneven in hullashlar_even_query.
 * Refuses: 1 axes, 2 points, 3 tensor, 4 length, 7 number (of knots alone), 8 knots, 21 uneven
 * Example: examples/calls/even_profile.c */
uint64_t hullashlar_even_profile(uint64_t axes,
                                 const uint64_t *points, uint64_t points_length,
                                 const double *knots, uint64_t knots_length,
                                 uint64_t *told, uint64_t told_length);

/* The value of the surface in the cells that one division finds, without a look at all knots. Where
 * hullashlar_even_profile returns 0, refusal, value and labels are those of hullashlar_even_query. On other knots the
 * same formulas answer. Of an axis the call looks at the first two knots, at the two of the cell, and in hold and
 * refuse at the last; of the tensor at the corners of the cell.
 * Lengths: points_length == 4, modes_length == 4, knots_length == points[0] + ... + points[axes - 1],
 *          tensor_length == (points[0] * ... * points[axes - 1]) << axes,
 *          coordinates_length == axes, value_length == 1, labels_length == 4
 * Writes:  value; labels: on each axis the number of the cell that was evaluated
 * Refuses: 1 axes, 2 points, 3 tensor, 4 length, 22 mode, 7 number (of coordinates alone), 8 knots, 18 outside,
 *          10 outcome. 8 (knots) is for a cell that was found: one of its knots is infinite or NaN, or the upper knot
 *          is not above the lower by a step that a double holds.
 * Example: examples/calls/direct_query.c */
uint64_t hullashlar_direct_query(uint64_t axes,
                                 const uint64_t *points, uint64_t points_length,
                                 const uint8_t *modes, uint64_t modes_length,
                                 const double *knots, uint64_t knots_length,
                                 const double *tensor, uint64_t tensor_length,
                                 const double *coordinates, uint64_t coordinates_length,
                                 double *value, uint64_t value_length,
                                 uint64_t *labels, uint64_t labels_length);

/* The answers of hullashlar_quick_query at many points: as many as refusals_length says, which may be 0. The
 * coordinates of a point follow those of the point before it, and so do its four labels. Each point has its own value,
 * labels and refusal, those of hullashlar_quick_query for it alone; a refused point stops nothing.
 * Lengths: points_length == 4, modes_length == 4, knots_length == points[0] + ... + points[axes - 1],
 *          tensor_length == (points[0] * ... * points[axes - 1]) << axes,
 *          coordinates_length == axes * refusals_length, values_length == refusals_length,
 *          labels_length == 4 * refusals_length
 * Writes:  values, labels, refusals; nothing after a refusal of the call itself
 * Refuses: 1 axes, 2 points, 3 tensor, 4 length, 22 mode; in refusals, for each point: 7 number, 8 knots, 18 outside,
 *          10 outcome
 * Example: examples/calls/quick_queries.c */
uint64_t hullashlar_quick_queries(uint64_t axes,
                                  const uint64_t *points, uint64_t points_length,
                                  const uint8_t *modes, uint64_t modes_length,
                                  const double *knots, uint64_t knots_length,
                                  const double *tensor, uint64_t tensor_length,
                                  const double *coordinates, uint64_t coordinates_length,
                                  double *values, uint64_t values_length,
                                  uint64_t *labels, uint64_t labels_length,
                                  uint64_t *refusals, uint64_t refusals_length);

/* The answers of hullashlar_direct_query at many points, in the manner of hullashlar_quick_queries.
 * Lengths: points_length == 4, modes_length == 4, knots_length == points[0] + ... + points[axes - 1],
 *          tensor_length == (points[0] * ... * points[axes - 1]) << axes,
 *          coordinates_length == axes * refusals_length, values_length == refusals_length,
 *          labels_length == 4 * refusals_length
 * Writes:  values, labels, refusals; nothing after a refusal of the call itself
 * Refuses: 1 axes, 2 points, 3 tensor, 4 length, 22 mode; in refusals, for each point: 7 number, 8 knots, 18 outside,
 *          10 outcome
 * Example: examples/calls/direct_queries.c */
uint64_t hullashlar_direct_queries(uint64_t axes,
                                   const uint64_t *points, uint64_t points_length,
                                   const uint8_t *modes, uint64_t modes_length,
                                   const double *knots, uint64_t knots_length,
                                   const double *tensor, uint64_t tensor_length,
                                   const double *coordinates, uint64_t coordinates_length,
                                   double *values, uint64_t values_length,
                                   uint64_t *labels, uint64_t labels_length,
                                   uint64_t *refusals, uint64_t refusals_length);

/* The parts of a packed sheet, of edition 1 or 2, as the calls above take them; the edition too, so that the sheet can
 * be written back as it came. Numbers come as they stand in the sheet, but a NaN comes as some NaN: its sign and
 * payload are lost.
 * Lengths: bytes_length any, knots_length == 1024, samples_length == 1024, axes_length == 1, points_length == 4,
 *          kinds_length == 8, values_length == 8, modes_length == 4, edition_length == 1
 * Writes:  knots and samples, from their first place on, and no place after the last that the sheet fills; axes,
 *          points, kinds, values, modes, edition. Past the axes in use entries are 0, and so is the value of a kind
 *          that has none.
 * Refuses: 4 length; then the first on the way through the sheet of 11 short, 12 edition, 1 axes, 2 points, 13 kinds,
 *          22 mode, 3 tensor, 14 tail
 * Example: examples/calls/read.c */
uint64_t hullashlar_read(const uint8_t *bytes, uint64_t bytes_length,
                         double *knots, uint64_t knots_length,
                         double *samples, uint64_t samples_length,
                         uint64_t *axes, uint64_t axes_length,
                         uint64_t *points, uint64_t points_length,
                         uint8_t *kinds, uint64_t kinds_length,
                         double *values, uint64_t values_length,
                         uint8_t *modes, uint64_t modes_length,
                         uint64_t *edition, uint64_t edition_length);

/* The parts of a packed sheet of edition 1, as hullashlar_read gives them, without modes, which are all extend, and
 * without the edition. A sheet of any other edition is refused, 12 (edition).
 * Lengths: bytes_length any, knots_length == 1024, samples_length == 1024, axes_length == 1, points_length == 4,
 *          kinds_length == 8, values_length == 8
 * Writes:  knots, samples, axes, points, kinds, values, as hullashlar_read does
 * Refuses: 4 length; then the first on the way through the sheet of 11 short, 12 edition, 1 axes, 2 points, 13 kinds,
 *          3 tensor, 14 tail
 * Example: examples/calls/read_edition_1.c */
uint64_t hullashlar_read_edition_1(const uint8_t *bytes, uint64_t bytes_length,
                                   double *knots, uint64_t knots_length,
                                   double *samples, uint64_t samples_length,
                                   uint64_t *axes, uint64_t axes_length,
                                   uint64_t *points, uint64_t points_length,
                                   uint8_t *kinds, uint64_t kinds_length,
                                   double *values, uint64_t values_length);

/* The parts and the tensor of a packed sheet: hullashlar_read and hullashlar_build in one call. What it writes is all
 * that a query or a change needs.
 * Lengths: bytes_length any, knots_length == 1024, samples_length == 1024, axes_length == 1, points_length == 4,
 *          kinds_length == 8, values_length == 8, modes_length == 4, edition_length == 1, tensor_length == 4096,
 *          scratch_length >= length[0] + 2048 (6,144 is enough for every sheet), length_length == 1
 * Writes:  knots, samples, axes, points, kinds, values, modes, edition, as hullashlar_read does; tensor, from its first
 *          place on, and no place after its last number; scratch; length[0]: how many numbers the sheet's tensor has
 * Refuses: 4 length; then the first on the way through the sheet of 11 short, 12 edition, 1 axes, 2 points, 13 kinds,
 *          22 mode, 3 tensor, 14 tail; then of the build 5 scratch, 7 number, 8 knots, 9 fewness, 10 outcome
 * Example: examples/calls/sheet_tensor.c */
uint64_t hullashlar_sheet_tensor(const uint8_t *bytes, uint64_t bytes_length,
                                 double *knots, uint64_t knots_length,
                                 double *samples, uint64_t samples_length,
                                 uint64_t *axes, uint64_t axes_length,
                                 uint64_t *points, uint64_t points_length,
                                 uint8_t *kinds, uint64_t kinds_length,
                                 double *values, uint64_t values_length,
                                 uint8_t *modes, uint64_t modes_length,
                                 uint64_t *edition, uint64_t edition_length,
                                 double *tensor, uint64_t tensor_length,
                                 double *scratch, uint64_t scratch_length,
                                 uint64_t *length, uint64_t length_length);

/* The packed sheet of axes, knots and samples, in edition 1 or 2. A read of it gives the same parts. A sheet that a
 * read accepts and whose parts a write accepts is written again, in its own edition, byte for byte. Edition 1 has no
 * field for a mode, so each axis in use must extend.
 * Lengths: points_length == 4, kinds_length == 8, values_length == 8, modes_length == 4,
 *          knots_length == points[0] + ... + points[axes - 1], samples_length == points[0] * ... * points[axes - 1],
 *          bytes_length >= length[0] (10,309 is enough for every sheet), length_length == 1
 * Writes:  bytes, from the first on, and no byte after the sheet; length[0]: how many bytes the sheet has
 * Refuses: 1 axes, 2 points, 3 tensor, 4 length, 13 kinds, 22 mode, 7 number, 8 knots, 9 fewness, 12 edition, 23 lost,
 *          15 buffer
 * Example: examples/calls/write.c */
uint64_t hullashlar_write(uint64_t axes,
                          const uint64_t *points, uint64_t points_length,
                          const uint8_t *kinds, uint64_t kinds_length,
                          const double *values, uint64_t values_length,
                          const uint8_t *modes, uint64_t modes_length,
                          const double *knots, uint64_t knots_length,
                          const double *samples, uint64_t samples_length,
                          uint64_t edition,
                          uint8_t *bytes, uint64_t bytes_length,
                          uint64_t *length, uint64_t length_length);

/* Which of two neighbouring knots equals the point: the one at index lower, or the next.
 * Lengths: knots_length == points, found_length == 2; and lower < points - 1, or 6 (place) is given
 * Writes:  found: 1 and the index of the knot that equals the point; 0 and 0 where neither does
 * Refuses: 2 points, 4 length, 6 place, 7 number, 8 knots
 * Example: examples/calls/exact_index.c */
uint64_t hullashlar_exact_index(uint64_t points,
                                const double *knots, uint64_t knots_length,
                                uint64_t lower,
                                double point,
                                uint64_t *found, uint64_t found_length);

/* Where a point lies among the knots: on a knot, or in a cell and how far into it.
 * Lengths: knots_length == points, location_length == 2, fraction_length == 1
 * Writes:  location and fraction: on a knot 0, the knot's index and +0.0; elsewhere 1, the cell's lower index and the
 *          fraction of the cell's width, which is below 0 or above 1 beyond the knots
 * Refuses: 2 points, 4 length, 7 number, 8 knots, 10 outcome (an infinite fraction)
 * Example: examples/calls/locate_axis.c */
uint64_t hullashlar_locate_axis(uint64_t points,
                                const double *knots, uint64_t knots_length,
                                double point,
                                uint64_t *location, uint64_t location_length,
                                double *fraction, uint64_t fraction_length);

/* The index of the knot that a point steps to. HULLASHLAR_LOWER: the last knot that is not above the point; the first
 * knot where all are above. HULLASHLAR_UPPER: the first knot that is not below the point; the last knot where all are
 * below. Two corners are those of the Rust: where all knots are below the point HULLASHLAR_LOWER gives the last index
 * but one, and where all are above it HULLASHLAR_UPPER gives index 1.
 * Lengths: knots_length == points, index_length == 1
 * Writes:  index
 * Refuses: 2 points, 4 length, 22 mode (no direction), 7 number, 8 knots
 * Example: examples/calls/locate_step_index.c */
uint64_t hullashlar_locate_step_index(uint64_t points,
                                      const double *knots, uint64_t knots_length,
                                      uint8_t direction,
                                      double point,
                                      uint64_t *index, uint64_t index_length);

/* The sample at the place that the coordinates step to, on each axis in its own direction, as of
 * hullashlar_locate_step_index.
 * Lengths: points_length == 4, directions_length == 4, knots_length == points[0] + ... + points[axes - 1],
 *          samples_length == points[0] * ... * points[axes - 1], coordinates_length == axes, value_length == 1,
 *          indices_length == 4
 * Writes:  value; indices: those of the place
 * Refuses: 1 axes, 2 points, 3 tensor, 4 length, 22 mode (no direction), 7 number, 8 knots
 * Example: examples/calls/stepped.c */
uint64_t hullashlar_stepped(uint64_t axes,
                            const uint64_t *points, uint64_t points_length,
                            const uint8_t *directions, uint64_t directions_length,
                            const double *knots, uint64_t knots_length,
                            const double *samples, uint64_t samples_length,
                            const double *coordinates, uint64_t coordinates_length,
                            double *value, uint64_t value_length,
                            uint64_t *indices, uint64_t indices_length);

/* The answers of hullashlar_stepped at many points: as many as refusals_length says, which may be 0. The coordinates of
 * a point follow those of the point before it, and so do its four indices. Each point has its own value, indices and
 * refusal, those of hullashlar_stepped for it alone; a refused point stops nothing. The call looks at knots and samples
 * once: where they are refused, every point is.
 * Lengths: points_length == 4, directions_length == 4, knots_length == points[0] + ... + points[axes - 1],
 *          samples_length == points[0] * ... * points[axes - 1], coordinates_length == axes * refusals_length,
 *          values_length == refusals_length, indices_length == 4 * refusals_length
 * Writes:  values, indices, refusals; nothing after a refusal of the call itself
 * Refuses: 1 axes, 2 points, 3 tensor, 4 length, 22 mode (no direction); in refusals, for each point: 7 number, 8 knots
 * Example: examples/calls/stepped_many.c */
uint64_t hullashlar_stepped_many(uint64_t axes,
                                 const uint64_t *points, uint64_t points_length,
                                 const uint8_t *directions, uint64_t directions_length,
                                 const double *knots, uint64_t knots_length,
                                 const double *samples, uint64_t samples_length,
                                 const double *coordinates, uint64_t coordinates_length,
                                 double *values, uint64_t values_length,
                                 uint64_t *indices, uint64_t indices_length,
                                 uint64_t *refusals, uint64_t refusals_length);

/* ---- For aids without a float unit: whole numbers alone, in the calls and inside them. ---- */

/* The value at position k of 256 in a cell with the values p0, p1 and the width-scaled slopes d0, d1 at its two ends:
 * the exact value of the cubic, rounded to the nearest whole number, a half away from zero. It lies in -65,536..65,535;
 * at k = 0 it is p0, and at k = 256 it is p1.
 * Lengths: value_length == 1
 * Writes:  value, 0 after 19 (range) and 20 (position); nothing after 4 (length)
 * Refuses: 4 length, 19 range (a value outside -32,768..32,767, a slope outside -131,072..131,071), 20 position (k
 *          outside 0..256)
 * Example: examples/calls/cell_value.c */
uint64_t hullashlar_cell_value(int32_t p0, int32_t p1, int32_t d0, int32_t d1, int32_t k,
                               int32_t *value, uint64_t value_length);

/* The value at a cursor of a curve of 1 to 255 cells; moves the cursor on. A cell is 16 bytes: p0, p1, d0, d1, each a
 * signed number of 32 bits, the lowest byte first. A walk starts with 0 in the cursor. With n cells, a cursor c below
 * 256 * n is position c % 256 of cell c / 256; 256 * n is position 256 of the last cell; any cursor above is past the
 * end. Every call judges the whole curve.
 * Lengths: curve_length == 16 * n with n of 1..255, or 20 (position) is given; cursor_length == 1, value_length == 1
 * Writes:  cursor, which a refusal leaves as it was; value, 0 after 19 (range) and 20 (position); nothing after
 *          4 (length)
 * Refuses: 4 length, 20 position (the curve's length), 19 range (anywhere in the curve), 20 position (past the end, for
 *          ever)
 * Example: examples/calls/cursor_next.c */
uint64_t hullashlar_cursor_next(const uint8_t *curve, uint64_t curve_length,
                                uint32_t *cursor, uint64_t cursor_length,
                                int32_t *value, uint64_t value_length);

/* ---- For firmware that keeps a sheet and no tensor: one call. ---- */

/* What hullashlar_surface returns where it refuses: this pattern plus the number of the refusal. No finite double has
 * all of its bits, so (answer & HULLASHLAR_REFUSED) == HULLASHLAR_REFUSED says that the call refused. */
#define HULLASHLAR_REFUSED UINT64_C(0x7FF8000000000000)

/* The value of the surface of a packed sheet at a point: reads the sheet, builds its tensor and asks it, in one call.
 * The answer is that of hullashlar_sheet_tensor and then hullashlar_query, with the modes of the sheet (edition 1:
 * extend). So where each coordinate equals a knot of its axis, the value equals the sheet's sample at that place. c0 to
 * c3 are the patterns of doubles, one for each axis of the sheet; those past its axes must be 0. The call returns the
 * pattern of the value, or HULLASHLAR_REFUSED + the refusal; memcpy turns a double into its pattern and back. It takes
 * 27,960 bytes of stack on x86-64. 24,576 of them are buffers: scratch 20,480, in which the tensor stays, knots 2,048,
 * samples 2,048. The rest are the frames of the functions that read, build and ask.
 * Lengths: bytes_length any
 * Writes:  nothing
 * Refuses: the first on the way through the sheet of 11 short, 12 edition, 1 axes, 2 points, 13 kinds, 22 mode,
 *          3 tensor, 14 tail; then 16 stack, 17 unused; then of the build 7 number, 8 knots, 9 fewness, 10 outcome;
 *          then of the query 7 number, 18 outside, 10 outcome
 * Example: examples/calls/surface.c */
uint64_t hullashlar_surface(const uint8_t *bytes, uint64_t bytes_length,
                            uint64_t c0, uint64_t c1, uint64_t c2, uint64_t c3);

#ifdef __cplusplus
}
#endif

#endif
