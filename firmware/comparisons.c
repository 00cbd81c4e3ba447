/* The comparisons of doubles as a compiler for RISC-V calls them, by ours, which say 1 or 0: the answer is below, at or above zero as
 * the first is less, equal or greater, and where one is NaN such that the comparison that was asked for fails. */
typedef unsigned long long pattern;

unsigned hullashlar_soft_lt(pattern a, pattern b);
unsigned hullashlar_soft_le(pattern a, pattern b);
unsigned hullashlar_soft_eq(pattern a, pattern b);
unsigned hullashlar_soft_gt(pattern a, pattern b);
unsigned hullashlar_soft_ge(pattern a, pattern b);

/* Below zero where a < b. */
int hullashlar_soft_ltdf2(pattern a, pattern b)
{
    return -(int)hullashlar_soft_lt(a, b);
}

/* At or below zero where a <= b. */
int hullashlar_soft_ledf2(pattern a, pattern b)
{
    return 1 - (int)hullashlar_soft_le(a, b);
}

/* Zero where a = b. */
int hullashlar_soft_eqdf2(pattern a, pattern b)
{
    return 1 - (int)hullashlar_soft_eq(a, b);
}

/* Above zero where a > b. */
int hullashlar_soft_gtdf2(pattern a, pattern b)
{
    return (int)hullashlar_soft_gt(a, b);
}

/* At or above zero where a >= b. */
int hullashlar_soft_gedf2(pattern a, pattern b)
{
    return (int)hullashlar_soft_ge(a, b) - 1;
}
