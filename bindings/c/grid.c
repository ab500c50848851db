/* Tests of juicedelta_grid.h: boxes counted by hand, and random ones by the definition. The first that fails ends it. */
#include "juicedelta_grid.h"

#include <math.h>
#include <stdio.h>
#include <stdlib.h>

#define CHECK(truth)                                                                                                    \
    do {                                                                                                                \
        if (!(truth)) {                                                                                                 \
            fprintf(stderr, "%s:%d: %s\n", __FILE__, __LINE__, #truth);                                                 \
            exit(1);                                                                                                    \
        }                                                                                                               \
    } while (0)

static double some(double most) { return most * rand() / RAND_MAX; }

/* On each axis the numbers are the last that are no more, and the first that are no less. */
static void by_definition(const juicedelta_grid *grid)
{
    double box[6], floats[6], next[6];
    int32_t whole[6], beside[6], again[6];
    for (int axis = 0; axis < 3; axis++) {
        const int32_t at = (int32_t)(some(4e9) - 2e9);
        box[axis] = grid->origin[axis] + at / grid->scale + some(rand() % 2 / grid->scale);
        box[3 + axis] = box[axis] + some(rand() % 3 / grid->scale);
    }
    CHECK(juicedelta_grid_box(grid, 3, box, whole) == 0);
    for (int k = 0; k < 6; k++)
        beside[k] = whole[k] + (k < 3 ? 1 : -1);
    juicedelta_grid_floats(grid, 3, whole, 6, floats);
    juicedelta_grid_floats(grid, 3, beside, 6, next);
    for (int min = 0; min < 3; min++) {
        const int max = 3 + min;
        CHECK(floats[min] <= box[min] && box[min] < next[min] && next[max] < box[max] && box[max] <= floats[max]);
    }
    CHECK(juicedelta_grid_box(grid, 3, floats, again) == 0 && juicedelta_grid_point(grid, 3, floats, beside) == 0);
    for (int k = 0; k < 6; k++)
        CHECK(again[k] == whole[k] && (k >= 3 || beside[k] == whole[k]));
}

int main(void)
{
    const juicedelta_grid degrees = {1e7, {0, 0, 0}};
    const juicedelta_grid grids[] = {
        {1, {0, 0, 0}}, {1e7, {0, 5, -5}}, {100, {500000.25, -4649776.5, 7}}, {1 / 3.0, {7, 1e9, -1e9}}};
    const juicedelta_grid wrong[] = {{0, {0, 0, 0}},        {-1, {0, 0, 0}},   {NAN, {0, 0, 0}},
                                     {INFINITY, {0, 0, 0}}, {1, {1e15, 0, 0}}, {1, {NAN, 0, 0}}};
    const double berlin[] = {13.405, 52.52, 13.40500001, 52.52}, most[] = {-214.7483648, 214.7483647};
    const double bad[][2] = {{NAN, 0}, {0, NAN}, {-300, 0}, {0, 300}, {-INFINITY, 0}, {0, INFINITY}, {1, 0}, {0, 214.74836471}};
    int32_t box[4];
    CHECK(juicedelta_grid_box(&degrees, 2, berlin, box) == 0);
    CHECK(box[0] == 134050000 && box[1] == 525200000 && box[2] == 134050001 && box[3] == 525200000);
    CHECK(juicedelta_grid_box(&degrees, 1, most, box) == 0 && box[0] == INT32_MIN && box[1] == INT32_MAX);
    for (size_t at = 0; at < sizeof bad / sizeof *bad; at++)
        CHECK(juicedelta_grid_box(&degrees, 1, bad[at], box) == -1);
    for (size_t at = 0; at < sizeof wrong / sizeof *wrong; at++)
        CHECK(juicedelta_grid_box(&wrong[at], 1, most, box) == -1 && juicedelta_grid_point(&wrong[at], 1, most, box) == -1);
    CHECK(juicedelta_grid_box(&degrees, 4, berlin, box) == -1 && juicedelta_grid_point(&degrees, 1, &bad[0][0], box) == -1);
    for (size_t at = 0; at < sizeof grids / sizeof *grids; at++)
        for (int turn = 0; turn < 10000; turn++)
            by_definition(&grids[at]);
    puts("bindings/c: grids passed");
    return 0;
}
