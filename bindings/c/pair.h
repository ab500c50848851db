/*
 * A tree or live windows and the oracle, plain lists, side by side: each step makes a call of both, and ends the program if
 * their answers differ. The oracle's calls are those of plain.c under the names plain_.. The including file has `arm` and
 * `disarm`: from arm(N) to disarm() the Nth allocation is refused, and disarm() answers whether one was. With an `arm`
 * that does nothing each call is made once.
 */
#ifndef PAIR_H
#define PAIR_H

#include "juicedelta.h"

#include <stdio.h>
#include <stdlib.h>
#include <string.h>

static void arm(long allocation);
static int disarm(void);

#define CHECK(truth)                                                                                                   \
    do {                                                                                                               \
        if (!(truth)) {                                                                                                \
            fprintf(stderr, "%s:%d: %s\n", __FILE__, __LINE__, #truth);                                                \
            abort();                                                                                                   \
        }                                                                                                              \
    } while (0)

/* The source of choices: bytes until there are none, or without bytes a generator (xorshift). */
typedef struct source {
    const uint8_t *bytes;
    size_t length;
    uint64_t state;
} source;

/* A number from 0 to n - 1. */
static uint32_t below(source *from, uint32_t n)
{
    uint32_t number = 0;
    if (from->bytes != NULL) {
        for (uint32_t most = n; most > 1 && from->length > 0; most = most / 256 + (most % 256 > 1 && most > 256)) {
            number = 256 * number + *from->bytes++;
            from->length--;
        }
        return number % n;
    }
    from->state ^= from->state << 13;
    from->state ^= from->state >> 7;
    from->state ^= from->state << 17;
    return (uint32_t)(from->state >> 32) % n;
}

/* A box has up to six numbers, and where one is given there is room for eight, so that its length can be wrong. */
enum { IDS = 600, BUFFER = 700, BOX = 6, ROOM = 8 };

static int64_t an_id(source *from)
{
    uint32_t kind = below(from, 200);
    return kind == 0 ? INT64_MIN : kind == 1 ? INT64_MAX : (int64_t)below(from, IDS) - IDS / 2;
}

static int32_t a_coordinate(source *from)
{
    uint32_t kind = below(from, 200);
    return kind == 0 ? INT32_MIN : kind == 1 ? INT32_MAX : (int32_t)below(from, 1000) - 500;
}

/* This length, or rarely another. */
static size_t a_length(source *from, size_t length) { return below(from, 60) == 0 ? below(from, ROOM + 1) : length; }

/* One of the three relations, or rarely no relation. */
static uint32_t a_relation(source *from)
{
    static const uint32_t none[] = {3, 256, 1u << 31, UINT32_MAX};
    return below(from, 60) == 0 ? none[below(from, 4)] : below(from, 3);
}

static int32_t cut(int64_t number) { return number > INT32_MAX ? INT32_MAX : number < INT32_MIN ? INT32_MIN : (int32_t)number; }

static int by_number(const void *left, const void *right)
{
    int64_t one = *(const int64_t *)left, other = *(const int64_t *)right;
    return (one > other) - (one < other);
}

/* Whether these bytes of a buffer that was filled with 0x5a are so: the first, and each as the one before it. */
static int is_untouched(const void *bytes, size_t from, size_t to)
{
    const unsigned char *at = bytes;
    return from >= to || (at[from] == 0x5a && memcmp(at + from, at + from + 1, to - from - 1) == 0);
}

/* The oracle's calls, each of the type of the library's. */
#define PLAIN(name) extern __typeof__(juicedelta_##name) plain_##name
PLAIN(words);
PLAIN(close);
PLAIN(tree_open);
PLAIN(tree_open_dump);
PLAIN(tree_open_rows);
PLAIN(tree_insert);
PLAIN(tree_insert_rows);
PLAIN(tree_move);
PLAIN(tree_remove);
PLAIN(tree_clear);
PLAIN(tree_axes);
PLAIN(tree_len);
PLAIN(tree_get);
PLAIN(tree_bounds);
PLAIN(tree_ids);
PLAIN(tree_rows);
PLAIN(tree_count);
PLAIN(tree_count_many);
PLAIN(tree_search);
PLAIN(tree_search_many);
PLAIN(tree_search_rows);
PLAIN(tree_nearest);
PLAIN(tree_nearest_many);
PLAIN(tree_nearest_to);
PLAIN(tree_within);
PLAIN(tree_join);
PLAIN(tree_join_self);
PLAIN(tree_dump);
PLAIN(live_open);
PLAIN(live_insert);
PLAIN(live_move);
PLAIN(live_remove);
PLAIN(live_watch);
PLAIN(live_shift);
PLAIN(live_unwatch);
PLAIN(live_reserve);
PLAIN(live_changes);
PLAIN(live_rows);
PLAIN(live_windows);

typedef struct pair {
    uint32_t axes;
    juicedelta_handle tree, list;
} pair;

/* Makes a call, with each of its allocations refused in turn first: then what it was given is untouched, and the rows
 * are as before. */
#define TRY(code, call, untouched)                                                                                     \
    for (long turn = 1;; turn++) {                                                                                     \
        arm(turn);                                                                                                     \
        (code) = (call);                                                                                               \
        if (!disarm() || (code) != JUICEDELTA_OUT_OF_MEMORY)                                                           \
            break;                                                                                                     \
        CHECK(untouched);                                                                                              \
        pair_same(pair);                                                                                               \
    }

/* The lists that a call for rows writes. */
typedef struct rows {
    uint64_t total;
    int64_t ids[BUFFER];
    int32_t boxes[BOX * BUFFER + ROOM];
} rows;

/* Fills the lists with 0x5a, which is_untouched looks for. */
static void clear_rows(rows *rows)
{
    memset(rows, 0x5a, sizeof *rows);
    rows->total = 77;
}

/* Nothing is written behind this many rows. */
static int are_untouched(const pair *pair, const rows *rows, size_t from)
{
    return is_untouched(rows->ids, from * sizeof *rows->ids, sizeof rows->ids)
        && is_untouched(rows->boxes, from * 2 * pair->axes * sizeof *rows->boxes, sizeof rows->boxes);
}

/* Both have the same rows, in whatever order. */
static int are_same(const pair *pair, const rows *left, const rows *right, size_t length)
{
    static struct row {
        int64_t id;
        int32_t box[BOX];
    } sorted[2][BUFFER];
    memset(sorted, 0, sizeof sorted);
    for (size_t side = 0, width = 2 * pair->axes; side < 2; side++) {
        const rows *from = side == 0 ? left : right;
        for (size_t at = 0; at < length; at++) {
            sorted[side][at].id = from->ids[at];
            memcpy(sorted[side][at].box, &from->boxes[at * width], width * sizeof *from->boxes);
        }
        qsort(sorted[side], length, sizeof sorted[side][0], by_number);
    }
    return memcmp(sorted[0], sorted[1], length * sizeof sorted[0][0]) == 0;
}

/* Changes, as a call writes them. */
typedef struct changes {
    uint64_t total;
    int64_t windows[BUFFER], ids[BUFFER];
    uint8_t kinds[BUFFER];
} changes;

/* Both have the same windows, and told them the same last; or both hold a tree. */
static void live_same(const pair *pair)
{
    static changes told, wanted_told;
    static rows windows, wanted;
    size_t width = 2 * pair->axes;
    memset(&told, 0x5a, sizeof told), memset(&wanted_told, 0x5a, sizeof wanted_told);
    clear_rows(&windows), clear_rows(&wanted);
    int32_t code = juicedelta_live_changes(&pair->tree, told.windows, BUFFER, told.ids, BUFFER, told.kinds, BUFFER, &told.total);
    CHECK(code == plain_live_changes(&pair->list, wanted_told.windows, BUFFER, wanted_told.ids, BUFFER, wanted_told.kinds, BUFFER,
        &wanted_told.total));
    CHECK(code == JUICEDELTA_OK || code == JUICEDELTA_OTHER_KIND);
    CHECK(memcmp(&told, &wanted_told, sizeof told) == 0);
    CHECK(code == juicedelta_live_windows(&pair->tree, 0, windows.ids, BUFFER, windows.boxes, width * BUFFER, &windows.total));
    CHECK(code == plain_live_windows(&pair->list, 0, wanted.ids, BUFFER, wanted.boxes, width * BUFFER, &wanted.total));
    size_t written = code == JUICEDELTA_OK ? wanted.total : 0;
    CHECK(windows.total == wanted.total && are_untouched(pair, &windows, written) && are_same(pair, &windows, &wanted, written));
}

/* Tree and list have the same rows, as many axes, and the same windows. */
static void pair_same(const pair *pair)
{
    static rows rows, wanted;
    int32_t space[BOX];
    size_t width = 2 * pair->axes;
    uint64_t length = 0;
    uint32_t axes = 0, list_axes = 0;
    for (uint32_t axis = 0; axis < pair->axes; axis++)
        space[axis] = INT32_MIN, space[pair->axes + axis] = INT32_MAX;
    CHECK(juicedelta_tree_search_rows(&pair->tree, 0, space, width, rows.ids, BUFFER, rows.boxes, width * BUFFER, &rows.total) == 0);
    CHECK(plain_tree_search_rows(&pair->list, 0, space, width, wanted.ids, BUFFER, wanted.boxes, width * BUFFER, &wanted.total) == 0);
    CHECK(juicedelta_tree_len(&pair->tree, &length) == JUICEDELTA_OK && length == rows.total && length == wanted.total);
    CHECK(are_same(pair, &rows, &wanted, length));
    CHECK(juicedelta_tree_axes(&pair->tree, &axes) == JUICEDELTA_OK && axes == pair->axes);
    CHECK(plain_tree_axes(&pair->list, &list_axes) == JUICEDELTA_OK && list_axes == axes);
    live_same(pair);
}

/* Opens a tree or live windows, by such calls. */
static void pair_open_by(pair *pair, uint32_t axes, uint32_t capacity, __typeof__(juicedelta_tree_open) *own,
                         __typeof__(juicedelta_tree_open) *plain)
{
    int32_t code;
    memset(pair, 0, sizeof *pair);
    pair->axes = axes;
    for (long turn = 1;; turn++) {
        arm(turn);
        code = own(&pair->tree, axes, capacity, 3, 4);
        if (!disarm() || code != JUICEDELTA_OUT_OF_MEMORY)
            break;
        CHECK(juicedelta_close(&pair->tree) == JUICEDELTA_CLOSED);
    }
    CHECK(code == JUICEDELTA_OK && plain(&pair->list, axes, capacity, 3, 4) == JUICEDELTA_OK);
}

static void pair_open(pair *pair, uint32_t axes, uint32_t capacity)
{
    pair_open_by(pair, axes, capacity, juicedelta_tree_open, plain_tree_open);
}

static void pair_close(pair *pair)
{
    CHECK(juicedelta_close(&pair->tree) == JUICEDELTA_OK && plain_close(&pair->list) == JUICEDELTA_OK);
}

/* A box with sides below `most`, and rarely, by one in `bad`, with min above max on an axis: never if `bad` is 0. */
static void a_box(source *from, const pair *pair, uint32_t most, uint32_t bad, int32_t *box)
{
    memset(box, 0, ROOM * sizeof *box);
    for (uint32_t axis = 0; axis < pair->axes; axis++) {
        int64_t min = a_coordinate(from), max = min + below(from, most);
        box[axis] = (int32_t)min;
        box[pair->axes + axis] = cut(bad > 0 && below(from, bad) == 0 ? min - 1 - below(from, 9) : max);
    }
}

/* A window of any size, or the box of a row with each end moved a little: then rows are within it, and hold it. */
static void a_window(source *from, const pair *pair, int32_t *window)
{
    a_box(from, pair, below(from, 4) == 0 ? 1000 : 100, 40, window);
    if (below(from, 2) == 0 && plain_tree_get(&pair->list, an_id(from), window, 2 * pair->axes) == JUICEDELTA_OK)
        for (uint32_t end = 0; end < 2 * pair->axes; end++)
            window[end] = cut((int64_t)window[end] + below(from, 5) - 2);
}

static void pair_search(source *from, const pair *pair)
{
    static rows rows, wanted;
    int32_t window[ROOM], code;
    size_t length = a_length(from, 2 * pair->axes), room = below(from, 4) == 0 ? below(from, 10) : BUFFER;
    uint32_t relation = a_relation(from);
    a_window(from, pair, window);
    clear_rows(&rows), clear_rows(&wanted);
    TRY(code, juicedelta_tree_search(&pair->tree, relation, window, length, rows.ids, room, &rows.total),
        rows.total == 77 && are_untouched(pair, &rows, 0));
    CHECK(code == plain_tree_search(&pair->list, relation, window, length, wanted.ids, room, &wanted.total));
    CHECK(rows.total == wanted.total);
    size_t written = code == JUICEDELTA_OK ? rows.total : 0;
    CHECK(is_untouched(rows.ids, written * sizeof *rows.ids, sizeof rows.ids));
    CHECK(are_same(pair, &rows, &wanted, written));
    rows.total = 77;
    TRY(code, juicedelta_tree_count(&pair->tree, relation, window, length, &rows.total), rows.total == 77);
    CHECK(code == plain_tree_count(&pair->list, relation, window, length, &wanted.total) && rows.total == wanted.total);
}

static void pair_search_rows(source *from, const pair *pair)
{
    static rows rows, wanted;
    int32_t window[ROOM], code;
    size_t length = a_length(from, 2 * pair->axes), room = below(from, 4) == 0 ? below(from, 10) : BUFFER;
    size_t boxes = 2 * pair->axes * room + (below(from, 60) == 0 ? 1 + below(from, ROOM) : 0);
    uint32_t relation = a_relation(from);
    a_window(from, pair, window);
    clear_rows(&rows), clear_rows(&wanted);
    TRY(code, juicedelta_tree_search_rows(&pair->tree, relation, window, length, rows.ids, room, rows.boxes, boxes, &rows.total),
        rows.total == 77 && are_untouched(pair, &rows, 0));
    CHECK(code
        == plain_tree_search_rows(&pair->list, relation, window, length, wanted.ids, room, wanted.boxes, boxes, &wanted.total));
    CHECK(rows.total == wanted.total);
    size_t written = code == JUICEDELTA_OK ? rows.total : 0;
    CHECK(are_untouched(pair, &rows, written) && are_same(pair, &rows, &wanted, written));
}

static void pair_nearest(source *from, const pair *pair)
{
    static rows rows, wanted;
    int32_t point[ROOM] = {0}, code;
    size_t length = a_length(from, pair->axes), room = below(from, 50) == 0 ? BUFFER : below(from, 7);
    size_t boxes = 2 * pair->axes * room + (below(from, 60) == 0 ? 1 + below(from, ROOM) : 0);
    for (uint32_t axis = 0; axis < pair->axes; axis++)
        point[axis] = a_coordinate(from);
    clear_rows(&rows), clear_rows(&wanted);
    TRY(code, juicedelta_tree_nearest(&pair->tree, point, length, rows.ids, room, rows.boxes, boxes, &rows.total),
        rows.total == 77 && are_untouched(pair, &rows, 0));
    CHECK(code == plain_tree_nearest(&pair->list, point, length, wanted.ids, room, wanted.boxes, boxes, &wanted.total));
    CHECK(rows.total == wanted.total && are_untouched(pair, &rows, code == JUICEDELTA_OK ? rows.total : 0));
    /* The order counts here. */
    CHECK(memcmp(rows.ids, wanted.ids, sizeof rows.ids) == 0 && memcmp(rows.boxes, wanted.boxes, sizeof rows.boxes) == 0);
}

/* The rows within a distance of a point, and those nearest to a box. */
static void pair_near(source *from, const pair *pair)
{
    static rows rows, wanted;
    int32_t box[ROOM], code;
    size_t width = 2 * pair->axes, room = below(from, 50) == 0 ? BUFFER : below(from, 7);
    size_t length = a_length(from, pair->axes), boxes = width * room + (below(from, 60) == 0 ? 1 + below(from, ROOM) : 0);
    uint64_t distance = below(from, 20) == 0 ? UINT64_MAX - below(from, 2) : below(from, 300);
    a_window(from, pair, box);
    clear_rows(&rows), clear_rows(&wanted);
    TRY(code, juicedelta_tree_within(&pair->tree, box, length, distance, rows.ids, room, rows.boxes, boxes, &rows.total),
        rows.total == 77 && are_untouched(pair, &rows, 0));
    CHECK(code == plain_tree_within(&pair->list, box, length, distance, wanted.ids, room, wanted.boxes, boxes, &wanted.total));
    CHECK(memcmp(&rows, &wanted, sizeof rows) == 0);
    length = a_length(from, width);
    clear_rows(&rows), clear_rows(&wanted);
    TRY(code, juicedelta_tree_nearest_to(&pair->tree, box, length, rows.ids, room, rows.boxes, boxes, &rows.total),
        rows.total == 77 && are_untouched(pair, &rows, 0));
    CHECK(code == plain_tree_nearest_to(&pair->list, box, length, wanted.ids, room, wanted.boxes, boxes, &wanted.total));
    CHECK(memcmp(&rows, &wanted, sizeof rows) == 0);
}

/* What calls for many windows write: for window i, `total` ids from starts[i] on. */
enum { MANY = 5, FOUND = MANY * BUFFER };
typedef struct parts {
    uint64_t starts[MANY + 1], counts[MANY + 1], total;
    int64_t ids[FOUND];
} parts;

/* Fills them with 0x5a. */
static void clear_parts(parts *parts)
{
    memset(parts, 0x5a, sizeof *parts);
    parts->total = 77;
}

static int are_no_parts(const parts *parts)
{
    return parts->total == 77 && is_untouched(parts->starts, 0, sizeof parts->starts)
        && is_untouched(parts->counts, 0, sizeof parts->counts) && is_untouched(parts->ids, 0, sizeof parts->ids);
}

/* Sorts the ids of each of that many windows. */
static void sort_parts(parts *parts, size_t count)
{
    for (size_t at = 0; at < count; at++) {
        uint64_t end = at + 1 < count ? parts->starts[at + 1] : parts->total;
        CHECK(parts->starts[at] <= end && end <= parts->total);
        qsort(parts->ids + parts->starts[at], end - parts->starts[at], sizeof *parts->ids, by_number);
    }
}

static void pair_search_many(source *from, const pair *pair)
{
    static parts parts, wanted;
    int32_t windows[BOX * MANY + ROOM] = {0}, code;
    size_t count = below(from, MANY + 1), width = 2 * pair->axes, room = below(from, 4) == 0 ? below(from, 10) : FOUND;
    size_t length = width * count + (below(from, 60) == 0 ? 1 + below(from, ROOM) : 0);
    uint32_t relation = a_relation(from);
    for (size_t at = 0; at < count; at++)
        a_window(from, pair, windows + width * at);
    clear_parts(&parts), clear_parts(&wanted);
    TRY(code, juicedelta_tree_search_many(&pair->tree, relation, windows, length, parts.starts, count, parts.ids, room, &parts.total),
        are_no_parts(&parts));
    CHECK(code
        == plain_tree_search_many(&pair->list, relation, windows, length, wanted.starts, count, wanted.ids, room, &wanted.total));
    if (code == JUICEDELTA_OK)
        sort_parts(&parts, count), sort_parts(&wanted, count);
    CHECK(memcmp(&parts, &wanted, sizeof parts) == 0);
    clear_parts(&parts), clear_parts(&wanted);
    TRY(code, juicedelta_tree_count_many(&pair->tree, relation, windows, length, parts.counts, count), are_no_parts(&parts));
    CHECK(code == plain_tree_count_many(&pair->list, relation, windows, length, wanted.counts, count));
    CHECK(memcmp(&parts, &wanted, sizeof parts) == 0);
}

static void pair_nearest_many(source *from, const pair *pair)
{
    static parts parts, wanted;
    int32_t points[BOX * MANY + ROOM], code;
    size_t count = below(from, MANY + 1), room = below(from, 4) == 0 ? below(from, 10) : FOUND;
    size_t length = pair->axes * count + (below(from, 60) == 0 ? 1 + below(from, ROOM) : 0);
    uint64_t k = below(from, 60) == 0 ? UINT64_MAX - below(from, 2) : below(from, 7);
    for (size_t at = 0; at < BOX * MANY + ROOM; at++)
        points[at] = a_coordinate(from);
    clear_parts(&parts), clear_parts(&wanted);
    TRY(code, juicedelta_tree_nearest_many(&pair->tree, points, length, k, parts.starts, count, parts.ids, room, &parts.total),
        are_no_parts(&parts));
    CHECK(code == plain_tree_nearest_many(&pair->list, points, length, k, wanted.starts, count, wanted.ids, room, &wanted.total));
    CHECK(memcmp(&parts, &wanted, sizeof parts) == 0);
}

/* Pairs of ids. */
enum { PAIRS = 50000 };
typedef struct pairs {
    uint64_t total;
    int64_t left[PAIRS], right[PAIRS];
} pairs;

static void clear_pairs(pairs *pairs)
{
    memset(pairs, 0x5a, sizeof *pairs);
    pairs->total = 77;
}

static int are_no_pairs(const pairs *pairs, uint64_t from)
{
    return is_untouched(pairs->left, from * sizeof *pairs->left, sizeof pairs->left)
        && is_untouched(pairs->right, from * sizeof *pairs->right, sizeof pairs->right);
}

typedef struct ids {
    int64_t left, right;
} ids;

static int by_ids(const void *left, const void *right)
{
    const ids *one = left, *other = right;
    int first = by_number(&one->left, &other->left);
    return first != 0 ? first : by_number(&one->right, &other->right);
}

/* Both wrote the same pairs, in whatever order, and nothing else. */
static void pairs_same(int32_t code, const pairs *left, const pairs *right)
{
    static ids sorted[2][PAIRS];
    uint64_t written = code == JUICEDELTA_OK ? left->total : 0;
    CHECK(left->total == right->total && are_no_pairs(left, written) && are_no_pairs(right, written));
    for (size_t side = 0; side < 2; side++) {
        const pairs *from = side == 0 ? left : right;
        for (size_t at = 0; at < written; at++)
            sorted[side][at].left = from->left[at], sorted[side][at].right = from->right[at];
        qsort(sorted[side], written, sizeof **sorted, by_ids);
    }
    CHECK(memcmp(sorted[0], sorted[1], written * sizeof **sorted) == 0);
}

/* Joined with a tree of a few rows, which has another number of axes in one case of ten, and with itself. */
static void pair_join(source *from, const pair *pair)
{
    static pairs pairs, wanted;
    int64_t other_ids[9];
    int32_t boxes[9 * BOX + ROOM], code;
    struct pair other = *pair, given = *pair;
    size_t count = below(from, 10), room = below(from, 4) == 0 ? below(from, 10) : PAIRS;
    size_t right_room = room > 0 && below(from, 60) == 0 ? room - 1 : room;
    uint64_t at = 77;
    other.axes = below(from, 10) == 0 ? pair->axes % 3 + 1 : pair->axes;
    other.tree.object = other.list.object = NULL, other.tree.count = other.list.count = 0;
    for (size_t row = 0; row < count; row++) {
        other_ids[row] = (int64_t)row - 4;
        a_box(from, &other, 300, 0, boxes + 2 * other.axes * row);
    }
    code = juicedelta_tree_open_rows(&other.tree, other.axes, 5, other_ids, count, boxes, 2 * other.axes * count, 1, 2, &at);
    CHECK(code == JUICEDELTA_OK && at == 77);
    code = plain_tree_open_rows(&other.list, other.axes, 5, other_ids, count, boxes, 2 * other.axes * count, 1, 2, &at);
    CHECK(code == JUICEDELTA_OK && at == 77);
    if (below(from, 2) == 0)
        given = other, other = *pair;
    clear_pairs(&pairs), clear_pairs(&wanted);
    TRY(code, juicedelta_tree_join(&given.tree, &other.tree, pairs.left, room, pairs.right, right_room, &pairs.total),
        pairs.total == 77 && are_no_pairs(&pairs, 0));
    CHECK(code == plain_tree_join(&given.list, &other.list, wanted.left, room, wanted.right, right_room, &wanted.total));
    pairs_same(code, &pairs, &wanted);
    pair_close(given.tree.object == pair->tree.object ? &other : &given);
    clear_pairs(&pairs), clear_pairs(&wanted);
    TRY(code, juicedelta_tree_join_self(&pair->tree, pairs.left, room, pairs.right, right_room, &pairs.total),
        pairs.total == 77 && are_no_pairs(&pairs, 0));
    CHECK(code == plain_tree_join_self(&pair->list, wanted.left, room, wanted.right, right_room, &wanted.total));
    pairs_same(code, &pairs, &wanted);
}

/* All rows, in parts of some length: each comes once, and ids and rows come in one order. A part that begins past the last row
 * is empty. */
static void pair_walk(source *from, const pair *pair)
{
    static rows rows, wanted, part;
    size_t width = 2 * pair->axes, length = 1 + below(from, 100);
    uint64_t place = 0, total = 77;
    CHECK(juicedelta_tree_rows(&pair->tree, 0, part.ids, 1, part.boxes, width + 1, &total) == JUICEDELTA_BAD_LENGTH && total == 77);
    clear_rows(&rows);
    arm(1);
    CHECK(juicedelta_tree_rows(&pair->tree, 0, rows.ids, BUFFER, rows.boxes, width * BUFFER, &rows.total) == JUICEDELTA_OK);
    CHECK(plain_tree_rows(&pair->list, 0, wanted.ids, BUFFER, wanted.boxes, width * BUFFER, &wanted.total) == JUICEDELTA_OK);
    CHECK(rows.total == wanted.total && are_untouched(pair, &rows, rows.total) && are_same(pair, &rows, &wanted, rows.total));
    do {
        uint64_t left = place < rows.total ? rows.total - place : 0, written = left < length ? left : length;
        clear_rows(&part);
        CHECK(juicedelta_tree_rows(&pair->tree, place, part.ids, length, part.boxes, width * length, &part.total) == JUICEDELTA_OK);
        CHECK(part.total == rows.total && are_untouched(pair, &part, written));
        CHECK(memcmp(part.ids, rows.ids + place, written * sizeof *part.ids) == 0);
        CHECK(memcmp(part.boxes, rows.boxes + width * place, width * written * sizeof *part.boxes) == 0);
        clear_rows(&part);
        CHECK(juicedelta_tree_ids(&pair->tree, place, part.ids, length, &part.total) == JUICEDELTA_OK && part.total == rows.total);
        CHECK(memcmp(part.ids, rows.ids + place, written * sizeof *part.ids) == 0);
        CHECK(is_untouched(part.ids, written * sizeof *part.ids, sizeof part.ids));
        place += length;
    } while (place < rows.total + length);
    clear_rows(&part);
    CHECK(juicedelta_tree_ids(&pair->tree, UINT64_MAX, part.ids, length, &part.total) == JUICEDELTA_OK && part.total == rows.total);
    CHECK(!disarm() && are_untouched(pair, &part, 0));
}

static void pair_bounds(source *from, const pair *pair)
{
    int32_t box[ROOM], wanted[ROOM];
    size_t length = a_length(from, 2 * pair->axes);
    memset(box, 0x5a, sizeof box);
    memset(wanted, 0x5a, sizeof wanted);
    arm(1);
    int32_t code = juicedelta_tree_bounds(&pair->tree, box, length);
    CHECK(!disarm() && code == plain_tree_bounds(&pair->list, wanted, length) && memcmp(box, wanted, sizeof box) == 0);
}

/* A few rows come at once, of which one may have a taken id or a bad box; or the tree is made anew of its own rows and these. */
static void pair_insert_rows(source *from, pair *pair)
{
    static rows rows;
    struct pair packed = {pair->axes, {NULL, 0}, {NULL, 0}};
    size_t width = 2 * pair->axes, count = below(from, 12), length = width * count + (below(from, 60) == 0);
    uint64_t at = 77, plain_at = 77;
    int32_t code;
    for (size_t row = 0; row < count; row++) {
        int32_t box[ROOM];
        rows.ids[row] = an_id(from);
        a_box(from, pair, 60, 200, box);
        memcpy(rows.boxes + width * row, box, width * sizeof *box);
    }
    TRY(code, juicedelta_tree_insert_rows(&pair->tree, rows.ids, count, rows.boxes, length, &at), at == 77);
    CHECK(code == plain_tree_insert_rows(&pair->list, rows.ids, count, rows.boxes, length, &plain_at) && at == plain_at);
    if (below(from, 20) != 0)
        return;
    at = plain_at = 77;
    CHECK(plain_tree_rows(&pair->list, 0, rows.ids + count, BUFFER - count, rows.boxes + width * count, width * (BUFFER - count),
        &rows.total) == JUICEDELTA_OK);
    count = below(from, 2) == 0 ? count + rows.total : count;
    length = width * count + (below(from, 60) == 0);
    uint32_t capacity = 4 + below(from, 49);
    TRY(code, juicedelta_tree_open_rows(&packed.tree, packed.axes, capacity, rows.ids, count, rows.boxes, length, 1, 2, &at),
        at == 77 && juicedelta_close(&packed.tree) == JUICEDELTA_CLOSED);
    CHECK(code == plain_tree_open_rows(&packed.list, packed.axes, capacity, rows.ids, count, rows.boxes, length, 1, 2, &plain_at));
    CHECK(at == plain_at);
    if (code != JUICEDELTA_OK)
        return;
    pair_same(&packed);
    pair_close(pair);
    *pair = packed;
}

static void pair_insert(source *from, pair *pair, int64_t id)
{
    int32_t box[ROOM], code;
    size_t length = a_length(from, 2 * pair->axes);
    a_box(from, pair, 60, 60, box);
    TRY(code, juicedelta_tree_insert(&pair->tree, id, box, length), 1);
    CHECK(code == plain_tree_insert(&pair->list, id, box, length));
}

/* A near place of a row, any, or its own. */
static void a_place(source *from, const pair *pair, int64_t id, int32_t *box)
{
    a_box(from, pair, 60, 60, box);
    if (below(from, 4) == 0)
        plain_tree_get(&pair->list, id, box, 2 * pair->axes);
    if (below(from, 2) == 0 && box[pair->axes] < INT32_MAX)
        box[pair->axes]++;
}

static void pair_move(source *from, pair *pair, int64_t id)
{
    int32_t box[ROOM], code;
    size_t length = a_length(from, 2 * pair->axes);
    a_place(from, pair, id, box);
    TRY(code, juicedelta_tree_move(&pair->tree, id, box, length), 1);
    CHECK(code == plain_tree_move(&pair->list, id, box, length));
}

static void pair_remove(pair *pair, int64_t id)
{
    arm(1);
    int32_t code = juicedelta_tree_remove(&pair->tree, id);
    CHECK(!disarm() && code == plain_tree_remove(&pair->list, id));
}

static void pair_get(source *from, const pair *pair, int64_t id)
{
    int32_t box[ROOM], wanted[ROOM];
    size_t length = a_length(from, 2 * pair->axes);
    memset(box, 0x5a, sizeof box);
    memset(wanted, 0x5a, sizeof wanted);
    arm(1);
    int32_t code = juicedelta_tree_get(&pair->tree, id, box, length);
    CHECK(!disarm() && code == plain_tree_get(&pair->list, id, wanted, length) && memcmp(box, wanted, sizeof box) == 0);
}

static void pair_len(const pair *pair)
{
    uint64_t rows = 77, all = 0;
    arm(1);
    CHECK(juicedelta_tree_len(&pair->tree, &rows) == JUICEDELTA_OK);
    CHECK(!disarm() && plain_tree_len(&pair->list, &all) == JUICEDELTA_OK && rows == all);
}

static void pair_clear(pair *pair)
{
    int32_t code;
    TRY(code, juicedelta_tree_clear(&pair->tree), 1);
    CHECK(code == JUICEDELTA_OK && plain_tree_clear(&pair->list) == JUICEDELTA_OK);
    pair_same(pair);
}

/* The call writes these bytes of the tree. */
static void writes(int32_t (*write)(const juicedelta_handle *, uint8_t *, size_t, uint64_t *), const juicedelta_handle *tree,
                   const uint8_t *bytes, size_t length)
{
    uint64_t total = 77;
    uint8_t *other = malloc(length);
    CHECK(other != NULL && write(tree, other, length, &total) == JUICEDELTA_OK);
    CHECK(total == length && memcmp(other, bytes, length) == 0);
    free(other);
}

/* A dump with another byte, which may make it bad, or with another end, is opened by both. */
static void pair_broken(source *from, const pair *pair, uint8_t *text, size_t length)
{
    struct pair broken = {pair->axes, {NULL, 0}, {NULL, 0}};
    static const char bytes[] = "0123456789- \n";
    uint8_t *changed = &text[below(from, (uint32_t)length)];
    *changed = below(from, 20) == 0 ? (uint8_t)below(from, 256) : (uint8_t)bytes[below(from, sizeof bytes - 1)];
    if (below(from, 20) == 0)
        length = below(from, (uint32_t)length);
    int32_t code = juicedelta_tree_open_dump(&broken.tree, broken.axes, text, length, 1, 2);
    int32_t plain = plain_tree_open_dump(&broken.list, broken.axes, text, length, 1, 2);
    CHECK(code == JUICEDELTA_OK || code == JUICEDELTA_BAD_DUMP);
    /* The list doesn't look for problems of the tree. */
    CHECK(code != JUICEDELTA_OK || plain == JUICEDELTA_OK);
    if (code == JUICEDELTA_OK)
        pair_same(&broken);
    CHECK(juicedelta_close(&broken.tree) == (code == JUICEDELTA_OK ? JUICEDELTA_OK : JUICEDELTA_CLOSED));
    CHECK(plain_close(&broken.list) == (plain == JUICEDELTA_OK ? JUICEDELTA_OK : JUICEDELTA_CLOSED));
}

/* The tree's dump is opened by both in place of what they hold. */
static void pair_dump(source *from, pair *pair)
{
    uint64_t total = 77, length = 77;
    uint8_t none = 0x5a;
    int32_t code;
    TRY(code, juicedelta_tree_dump(&pair->tree, &none, 0, &length), length == 77);
    CHECK(code == JUICEDELTA_BUFFER_TOO_SMALL && length > 0 && none == 0x5a);
    uint8_t *text = malloc(length + 1);
    CHECK(text != NULL);
    memset(text, 0x5a, length + 1);
    TRY(code, juicedelta_tree_dump(&pair->tree, text, length, &total), total == 77 && is_untouched(text, 0, length));
    CHECK(code == JUICEDELTA_OK && total == length && text[length] == 0x5a);
    struct pair read = {pair->axes, {NULL, 0}, {NULL, 0}};
    CHECK(juicedelta_tree_open_dump(&read.tree, pair->axes % 3 + 1, text, length, 1, 2) == JUICEDELTA_BAD_DUMP);
    TRY(code, juicedelta_tree_open_dump(&read.tree, read.axes, text, length, 1, 2),
        juicedelta_close(&read.tree) == JUICEDELTA_CLOSED);
    CHECK(code == JUICEDELTA_OK && plain_tree_open_dump(&read.list, read.axes, text, length, 1, 2) == JUICEDELTA_OK);
    writes(juicedelta_tree_dump, &read.tree, text, length);
    pair_same(&read);
    pair_same(pair);
    CHECK(juicedelta_tree_open_dump(&read.tree, pair->axes, text, length, 1, 2) == JUICEDELTA_ALREADY_OPEN);
    pair_close(pair);
    *pair = read;
    pair_broken(from, pair, text, length);
    free(text);
}

/* Bytes with another end are no tree's; with another byte they are no tree's, or those of the tree that they open. */
static void broken_bytes(source *from, uint32_t axes, uint8_t *bytes, size_t length)
{
    juicedelta_handle tree = {0};
    CHECK(juicedelta_tree_open_bytes(&tree, axes, bytes, below(from, (uint32_t)length), 1, 2) == JUICEDELTA_BAD_BYTES);
    CHECK(juicedelta_tree_open_bytes(&tree, axes, bytes, length + 1, 1, 2) == JUICEDELTA_BAD_BYTES);
    bytes[below(from, (uint32_t)length)] ^= (uint8_t)(1 + below(from, 255));
    int32_t code = juicedelta_tree_open_bytes(&tree, axes, bytes, length, 1, 2);
    CHECK(code == JUICEDELTA_OK || code == JUICEDELTA_BAD_BYTES);
    if (code == JUICEDELTA_OK)
        writes(juicedelta_tree_to_bytes, &tree, bytes, length);
    CHECK(juicedelta_close(&tree) == (code == JUICEDELTA_OK ? JUICEDELTA_OK : JUICEDELTA_CLOSED));
}

/* The tree's bytes are opened in its place: it is the same tree, so its bytes and its dump are the same. */
static void pair_bytes(source *from, pair *pair)
{
    juicedelta_handle read = {0};
    uint64_t total = 77, length = 77, text_length = 77;
    uint8_t none = 0x5a;
    int32_t code;
    TRY(code, juicedelta_tree_to_bytes(&pair->tree, &none, 0, &length), length == 77);
    CHECK(code == JUICEDELTA_BUFFER_TOO_SMALL && length > 0 && none == 0x5a);
    uint8_t *bytes = malloc(length + 1);
    CHECK(bytes != NULL);
    memset(bytes, 0x5a, length + 1);
    TRY(code, juicedelta_tree_to_bytes(&pair->tree, bytes, length, &total), total == 77 && is_untouched(bytes, 0, length));
    CHECK(code == JUICEDELTA_OK && total == length && bytes[length] == 0x5a);
    CHECK(juicedelta_tree_open_bytes(&read, pair->axes % 3 + 1, bytes, length, 1, 2) == JUICEDELTA_BAD_BYTES);
    TRY(code, juicedelta_tree_open_bytes(&read, pair->axes, bytes, length, 1, 2), juicedelta_close(&read) == JUICEDELTA_CLOSED);
    CHECK(code == JUICEDELTA_OK);
    CHECK(juicedelta_tree_open_bytes(&read, pair->axes, bytes, length, 1, 2) == JUICEDELTA_ALREADY_OPEN);
    writes(juicedelta_tree_to_bytes, &read, bytes, length);
    CHECK(juicedelta_tree_dump(&pair->tree, &none, 0, &text_length) == JUICEDELTA_BUFFER_TOO_SMALL);
    uint8_t *text = malloc(text_length);
    CHECK(text != NULL && juicedelta_tree_dump(&pair->tree, text, text_length, &total) == JUICEDELTA_OK);
    writes(juicedelta_tree_dump, &read, text, text_length);
    CHECK(juicedelta_close(&pair->tree) == JUICEDELTA_OK);
    pair->tree = read;
    pair_same(pair);
    broken_bytes(from, pair->axes, bytes, length);
    free(text);
    free(bytes);
}

/* One call of both, or a few that belong together. */
static void pair_step(source *from, pair *pair)
{
    int64_t id = an_id(from);
    switch (below(from, 20)) {
    case 0:
    case 1:
    case 2:
    case 3:
        pair_insert(from, pair, id);
        break;
    case 4:
    case 5:
        pair_remove(pair, id);
        break;
    case 6:
        pair_get(from, pair, id);
        break;
    case 7:
        pair_search(from, pair);
        break;
    case 8:
        pair_search_rows(from, pair);
        break;
    case 9:
        pair_nearest(from, pair);
        break;
    case 10:
    case 11:
        pair_move(from, pair, id);
        break;
    case 12:
        pair_len(pair);
        break;
    case 13:
        pair_near(from, pair);
        break;
    case 14:
        pair_search_many(from, pair);
        break;
    case 15:
        pair_nearest_many(from, pair);
        break;
    case 16:
        pair_bounds(from, pair);
        break;
    case 17:
        if (below(from, 10) == 0)
            pair_insert_rows(from, pair);
        break;
    case 18:
        if (below(from, 40) == 0)
            pair_join(from, pair);
        else if (below(from, 10) == 0)
            pair_walk(from, pair);
        break;
    default:
        if (below(from, 400) == 0)
            pair_clear(pair);
        else if (below(from, 40) == 0)
            pair_dump(from, pair);
        else if (below(from, 40) == 0)
            pair_bytes(from, pair);
    }
}
#endif
