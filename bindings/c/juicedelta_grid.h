/*
 * juicedelta_grid.h: boxes of floats as boxes of whole numbers, and back, for C99 and C++. It needs no library.
 *
 * A grid has `scale` whole numbers a unit, from an origin on each axis: the whole number k stands for origin + k / scale.
 * A box of floats becomes the least box of whole numbers that holds it. Boxes and points are lists as in juicedelta.h.
 *
 *     juicedelta_grid degrees = {1e7, {0, 0, 0}};
 *     double berlin[] = {13.088, 52.338, 13.761, 52.676};
 *     int32_t box[4];
 *     if (juicedelta_grid_box(&degrees, 2, berlin, box) == 0) ...
 */
#ifndef JUICEDELTA_GRID_H
#define JUICEDELTA_GRID_H

#include <stdint.h>

typedef struct juicedelta_grid {
    double scale;
    double origin[3];
} juicedelta_grid;

/* Whether the scale is above 0, and each origin at most 2^49 steps from 0: farther away the floats are too coarse. */
static inline int juicedelta_grid_is_fine(const juicedelta_grid *grid, uint32_t axes)
{
    const double most = 562949953421312.0;
    int is_fine = axes <= 3 && grid->scale > 0 && grid->scale - grid->scale == 0;
    for (uint32_t axis = 0; is_fine && axis < axes; axis++)
        is_fine = grid->origin[axis] * grid->scale <= most && grid->origin[axis] * grid->scale >= -most;
    return is_fine;
}

/* The greatest whole number that stands for no more than x, or INT64_MAX if that has no 32 bits, or for NaN. */
static inline int64_t juicedelta_grid_below(double scale, double origin, double x)
{
    const double steps = (x - origin) * scale, most = 2147483650.0;
    if (!(steps >= -most && steps <= most))
        return INT64_MAX;
    int64_t k = (int64_t)steps;
    k -= (double)k > steps;
    /* By floats alone it may be off by one. */
    k += (origin + (double)(k + 1) / scale <= x) - (origin + (double)k / scale > x);
    return k;
}

/* Answers 0; or -1, and `to` may be written in part, if the grid isn't fine, a number is NaN or outside of the grid, or a
 * minimum above its maximum. */
static inline int juicedelta_grid_box(const juicedelta_grid *grid, uint32_t axes, const double *from, int32_t *to)
{
    if (!juicedelta_grid_is_fine(grid, axes))
        return -1;
    for (uint32_t axis = 0; axis < axes; axis++) {
        const double origin = grid->origin[axis], min = from[axis], max = from[axes + axis];
        const int64_t low = juicedelta_grid_below(grid->scale, origin, min);
        const int64_t high = -juicedelta_grid_below(grid->scale, -origin, -max);
        if (!(min <= max) || low < INT32_MIN || low > INT32_MAX || high < INT32_MIN || high > INT32_MAX)
            return -1;
        to[axis] = (int32_t)low;
        to[axes + axis] = (int32_t)high;
    }
    return 0;
}

/* The nearest point of whole numbers. Answers as juicedelta_grid_box. */
static inline int juicedelta_grid_point(const juicedelta_grid *grid, uint32_t axes, const double *from, int32_t *to)
{
    if (!juicedelta_grid_is_fine(grid, axes))
        return -1;
    for (uint32_t axis = 0; axis < axes; axis++) {
        const double steps = (from[axis] - grid->origin[axis]) * grid->scale + 0.5;
        if (!(steps >= -2147483648.0 && steps < 2147483648.0))
            return -1;
        to[axis] = (int32_t)((int64_t)steps - ((double)(int64_t)steps > steps));
    }
    return 0;
}

/* The floats of the number at each of that many places, of a point or of boxes one after another. */
static inline void juicedelta_grid_floats(const juicedelta_grid *grid, uint32_t axes, const int32_t *from, uint64_t length,
                                          double *to)
{
    for (uint64_t place = 0; place < length; place++)
        to[place] = grid->origin[place % axes] + from[place] / grid->scale;
}

#endif
