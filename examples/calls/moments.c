/* hullashlar_moments: the second derivatives of a gain curve at its knots.
 * The samples are those of the parabola in gain.h, and both ends have its second derivative, 4. The spline is then the
 * parabola itself, and every moment is 4. */
#include "gain.h"

int main(void)
{
    const uint8_t ends[HULLASHLAR_AXIS_ENDS] = {HULLASHLAR_SECOND_DERIVATIVE, HULLASHLAR_SECOND_DERIVATIVE};
    const uint8_t one_sided[HULLASHLAR_AXIS_ENDS] = {HULLASHLAR_PERIODIC, HULLASHLAR_SECOND_DERIVATIVE};
    const double fours[HULLASHLAR_AXIS_ENDS] = {4.0, 4.0};
    double moments[FREQUENCIES];
    double scratch[HULLASHLAR_SCRATCH];

    if (!hullashlar_floats_ready()) return 3;
    accept(hullashlar_moments(FREQUENCIES, LENT(curve_knots), LENT(curve_samples), LENT(ends), LENT(fours),
                              LENT(moments), LENT(scratch)));
    print_numbers("moments", moments, FREQUENCIES);
    print_refusal("Periodic at one end only",
                  hullashlar_moments(FREQUENCIES, LENT(curve_knots), LENT(curve_samples), LENT(one_sided), LENT(fours),
                                     LENT(moments), LENT(scratch)));
    return 0;
}
