/*
 * fences.c: says of each thing that moves which fences it leaves, comes into, and moves inside of.
 *
 * Fences are windows, in a tree of their own. The things stand in another tree, and the fences are searched at the old and at the
 * new box of a thing that moves.
 *
 *     gcc -O2 -Ibindings/c examples/fences.c lib/libjuicedelta.a -o fences
 *     ./fences 10000 10000 100000           fences, things, moves; prints `-FENCE THING`, `+FENCE THING` or `=FENCE THING` for each
 *     ./fences 10000 10000 100000 time      prints how often, and the microseconds a move
 */
#include <juicedelta.h>
#include <stdio.h>
#include <stdlib.h>
#include <time.h>

enum { MAP = 100000, WIDEST_FENCE = 2000, WIDEST_THING = 20, STEP = 100 };

/* The fences that a search found, by rising id. */
typedef struct found {
    int64_t *ids;
    size_t room;
    uint64_t length;
} found;

static void must(int32_t code)
{
    if (code != JUICEDELTA_OK) {
        fprintf(stderr, "fences: a call answered %d\n", (int)code);
        exit(1);
    }
}

static int by_id(const void *left, const void *right)
{
    int64_t a = *(const int64_t *)left, b = *(const int64_t *)right;
    return (a > b) - (a < b);
}

/* Makes room for that many ids. */
static void grow(found *at, size_t room)
{
    free(at->ids);
    at->ids = malloc(room * sizeof *at->ids);
    at->room = room;
    if (!at->ids)
        must(JUICEDELTA_OUT_OF_MEMORY);
}

/* Searches the fences that have a point in common with the box. */
static void find(const juicedelta_handle *fences, const int32_t *box, found *at)
{
    int32_t code;
    if (!at->ids)
        grow(at, 4);
    while ((code = juicedelta_tree_search(fences, JUICEDELTA_TOUCHES, box, 4, at->ids, at->room, &at->length))
        == JUICEDELTA_BUFFER_TOO_SMALL)
        grow(at, 2 * at->length);
    must(code);
    if (at->length > 1)
        qsort(at->ids, at->length, sizeof *at->ids, by_id);
}

static long counts[128];
static int is_timed;

static void tell(char what, int64_t fence, int64_t thing)
{
    counts[(int)what]++;
    if (!is_timed)
        printf("%c%lld %lld\n", what, (long long)fence, (long long)thing);
}

/* Moves a thing to a box, and tells what that means for each fence. */
static void move(const juicedelta_handle *fences, juicedelta_handle *things, int64_t thing, const int32_t *box)
{
    static found before, after;
    int32_t old[4];
    uint64_t i = 0, j = 0;
    must(juicedelta_tree_get(things, thing, old, 4));
    find(fences, old, &before);
    find(fences, box, &after);
    must(juicedelta_tree_move(things, thing, box, 4));
    while (i < before.length || j < after.length) {
        if (j == after.length || (i < before.length && before.ids[i] < after.ids[j]))
            tell('-', before.ids[i++], thing);
        else if (i == before.length || after.ids[j] < before.ids[i])
            tell('+', after.ids[j++], thing);
        else {
            tell('=', after.ids[j++], thing);
            i++;
        }
    }
}

/* A number from 0 on below the limit, of a sequence that is always the same. */
static int32_t below(int32_t limit)
{
    static uint64_t state = 1;
    state = state * 6364136223846793005u + 1442695040888963407u;
    return (int32_t)((state >> 33) % (uint64_t)limit);
}

static void fill(juicedelta_handle *tree, int64_t rows, int32_t widest)
{
    uint64_t keys[2];
    if (juicedelta_random_keys(keys) != 0)
        exit(1);
    must(juicedelta_tree_open(tree, 2, 51, keys[0], keys[1]));
    for (int64_t id = 1; id <= rows; id++) {
        int32_t west = below(MAP), south = below(MAP), width = below(widest), height = below(widest);
        int32_t box[] = {west, south, west + width, south + height};
        must(juicedelta_tree_insert(tree, id, box, 4));
    }
}

int main(int argc, char **argv)
{
    juicedelta_handle fences = {0}, things = {0};
    int64_t rows = argc > 2 ? atoll(argv[2]) : 10000, moves = argc > 3 ? atoll(argv[3]) : 100000;
    is_timed = argc > 4;
    fill(&fences, argc > 1 ? atoll(argv[1]) : 10000, WIDEST_FENCE);
    fill(&things, rows, WIDEST_THING);
    clock_t begun = clock();
    for (int64_t i = 0; i < moves; i++) {
        int64_t thing = 1 + below((int32_t)rows);
        int32_t box[4];
        must(juicedelta_tree_get(&things, thing, box, 4));
        int32_t east = below(2 * STEP + 1) - STEP, north = below(2 * STEP + 1) - STEP;
        box[0] += east, box[1] += north, box[2] += east, box[3] += north;
        move(&fences, &things, thing, box);
    }
    if (is_timed)
        printf("left %ld, came %ld, moved inside %ld; %.2f us a move\n", counts['-'], counts['+'], counts['='],
            (double)(clock() - begun) * 1e6 / CLOCKS_PER_SEC / (double)moves);
    juicedelta_close(&fences);
    juicedelta_close(&things);
}
