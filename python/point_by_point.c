/* The full query and the curve at many points, for the Python package: the exported call for one point, point after point. These two
 * loops are C and not proved. They compute no number: a value is what the call has stored, and a refusal what it has returned. */
#include "hullashlar.h"

/* As many points as refusals are lent, none too: the value and the refusal of each are those of hullashlar_query at that point alone.
 * Lengths: as of hullashlar_query, but for n refusals coordinates axes * n and values n.
 * Written: values, refusals. Refuses by 4 where coordinates or values have another length, and then nothing is written. */
uint64_t point_by_point_query(uint64_t axes,
                              const uint64_t *points, uint64_t points_length,
                              const uint8_t *modes, uint64_t modes_length,
                              const double *knots, uint64_t knots_length,
                              const double *tensor, uint64_t tensor_length,
                              const double *coordinates, uint64_t coordinates_length,
                              double *values, uint64_t values_length,
                              uint64_t *refusals, uint64_t refusals_length)
{
    uint64_t labels[HULLASHLAR_AXES];
    if (axes > HULLASHLAR_AXES || coordinates_length != axes * refusals_length || values_length != refusals_length)
        return HULLASHLAR_REFUSED_LENGTH;
    for (uint64_t at = 0; at < refusals_length; at++)
        refusals[at] = hullashlar_query(axes, points, points_length, modes, modes_length, knots, knots_length, tensor, tensor_length,
                                        &coordinates[axes * at], axes, &values[at], 1, labels, HULLASHLAR_AXES);
    return HULLASHLAR_ACCEPTED;
}

/* The same of hullashlar_curve. */
uint64_t point_by_point_curve(uint64_t points,
                              const double *knots, uint64_t knots_length,
                              const double *samples, uint64_t samples_length,
                              const double *moments, uint64_t moments_length,
                              const double *coordinates, uint64_t coordinates_length,
                              double *values, uint64_t values_length,
                              uint64_t *refusals, uint64_t refusals_length)
{
    if (coordinates_length != refusals_length || values_length != refusals_length)
        return HULLASHLAR_REFUSED_LENGTH;
    for (uint64_t at = 0; at < refusals_length; at++)
        refusals[at] = hullashlar_curve(points, knots, knots_length, samples, samples_length, moments, moments_length, coordinates[at],
                                        &values[at], 1);
    return HULLASHLAR_ACCEPTED;
}
