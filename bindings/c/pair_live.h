/*
 * Live windows and the oracle side by side: each edit of both tells the same changes, and each read answers the same. The calls
 * of trees that read are those of pair.h.
 */
#ifndef PAIR_LIVE_H
#define PAIR_LIVE_H

#include "pair.h"

static void live_open(pair *pair, uint32_t axes, uint32_t capacity)
{
    pair_open_by(pair, axes, capacity, juicedelta_live_open, plain_live_open);
}

/* The edit that answered this code told as many changes, and told the same; or it left what was told before. */
static void live_told(const pair *pair, int32_t code, uint64_t own, uint64_t plain)
{
    static changes told, wanted;
    CHECK(own == plain);
    CHECK(juicedelta_live_changes(&pair->tree, told.windows, BUFFER, told.ids, BUFFER, told.kinds, BUFFER, &told.total)
        == JUICEDELTA_OK);
    CHECK(plain_live_changes(&pair->list, wanted.windows, BUFFER, wanted.ids, BUFFER, wanted.kinds, BUFFER, &wanted.total)
        == JUICEDELTA_OK);
    CHECK(told.total == wanted.total && own == (code == JUICEDELTA_OK ? told.total : 77));
    CHECK(memcmp(told.windows, wanted.windows, told.total * sizeof *told.windows) == 0);
    CHECK(memcmp(told.ids, wanted.ids, told.total * sizeof *told.ids) == 0);
    CHECK(memcmp(told.kinds, wanted.kinds, told.total) == 0);
}

/* Edits that give a row or a window a box, and those that take one out. */
typedef struct setting {
    __typeof__(juicedelta_live_insert) *own, *plain;
} setting;

typedef struct taking {
    __typeof__(juicedelta_live_remove) *own, *plain;
} taking;

static const setting LIVE_INSERT = {juicedelta_live_insert, plain_live_insert};
static const setting LIVE_MOVE = {juicedelta_live_move, plain_live_move};
static const setting LIVE_WATCH = {juicedelta_live_watch, plain_live_watch};
static const setting LIVE_SHIFT = {juicedelta_live_shift, plain_live_shift};
static const taking LIVE_REMOVE = {juicedelta_live_remove, plain_live_remove};
static const taking LIVE_UNWATCH = {juicedelta_live_unwatch, plain_live_unwatch};

static void live_set(source *from, pair *pair, setting edit, int64_t id, const int32_t *box)
{
    int32_t code;
    size_t length = a_length(from, 2 * pair->axes);
    uint64_t own = 77, plain = 77;
    TRY(code, edit.own(&pair->tree, id, box, length, &own), own == 77);
    CHECK(code == edit.plain(&pair->list, id, box, length, &plain));
    live_told(pair, code, own, plain);
}

static void live_take(pair *pair, taking edit, int64_t id)
{
    int32_t code;
    uint64_t own = 77, plain = 77;
    TRY(code, edit.own(&pair->tree, id, &own), own == 77);
    CHECK(code == edit.plain(&pair->list, id, &plain));
    live_told(pair, code, own, plain);
}

/* The box of a window, with one end or both of an axis moved a little, or as it is; or any. */
static void a_view(source *from, const pair *pair, int64_t window, int32_t *box)
{
    static rows windows;
    a_box(from, pair, below(from, 4) == 0 ? 1000 : 200, 60, box);
    if (below(from, 2) == 0)
        return;
    CHECK(plain_live_windows(&pair->list, 0, windows.ids, BUFFER, windows.boxes, 2 * pair->axes * BUFFER, &windows.total)
        == JUICEDELTA_OK);
    for (size_t at = 0; at < windows.total; at++)
        if (windows.ids[at] == window)
            memcpy(box, windows.boxes + 2 * pair->axes * at, 2 * pair->axes * sizeof *box);
    uint32_t end = below(from, 2 * pair->axes), other = (end + pair->axes) % (2 * pair->axes);
    int64_t step = (int64_t)below(from, 60) - 30;
    box[end] = cut((int64_t)box[end] + step);
    if (below(from, 2) == 0)
        box[other] = cut((int64_t)box[other] + step);
}

/* One edit. A window's id is one of `windows`, or rarely any; a row's is any. */
static void live_edit(source *from, pair *pair, uint32_t windows)
{
    int32_t box[ROOM];
    int64_t id = an_id(from), window = below(from, 100) == 0 ? id : (int64_t)below(from, windows) - windows / 2;
    switch (below(from, 16)) {
    case 0:
    case 1:
    case 2:
        a_box(from, pair, 60, 60, box);
        live_set(from, pair, LIVE_INSERT, id, box);
        break;
    case 3:
    case 4:
        live_take(pair, LIVE_REMOVE, id);
        break;
    case 5:
    case 6:
        a_view(from, pair, window, box);
        live_set(from, pair, LIVE_WATCH, window, box);
        break;
    case 7:
        live_take(pair, LIVE_UNWATCH, window);
        break;
    case 8:
    case 9:
    case 10:
        a_view(from, pair, window, box);
        live_set(from, pair, LIVE_SHIFT, window, box);
        break;
    default:
        a_place(from, pair, id, box);
        live_set(from, pair, LIVE_MOVE, id, box);
    }
}

/* The rows that a window sees, by rising id. */
static void live_rows(source *from, const pair *pair, int64_t window)
{
    static rows seen, wanted;
    size_t room = below(from, 4) == 0 ? below(from, 10) : BUFFER;
    int32_t code;
    clear_rows(&seen), clear_rows(&wanted);
    TRY(code, juicedelta_live_rows(&pair->tree, window, seen.ids, room, &seen.total),
        seen.total == 77 && are_untouched(pair, &seen, 0));
    CHECK(code == plain_live_rows(&pair->list, window, wanted.ids, room, &wanted.total));
    CHECK(memcmp(&seen, &wanted, sizeof seen) == 0);
}

/* The changes of the last edit, in lists of any length, or of different ones. */
static void live_changes(source *from, const pair *pair)
{
    static changes told, wanted;
    size_t windows = below(from, 9), ids = below(from, 10) == 0 ? below(from, 9) : windows;
    size_t kinds = below(from, 10) == 0 ? below(from, 9) : windows;
    memset(&told, 0x5a, sizeof told), memset(&wanted, 0x5a, sizeof wanted);
    arm(1);
    int32_t code = juicedelta_live_changes(&pair->tree, told.windows, windows, told.ids, ids, told.kinds, kinds, &told.total);
    CHECK(!disarm());
    CHECK(code == plain_live_changes(&pair->list, wanted.windows, windows, wanted.ids, ids, wanted.kinds, kinds, &wanted.total));
    CHECK(memcmp(&told, &wanted, sizeof told) == 0);
}

/* All windows, in parts of some length: each comes once. A part that begins past the last window is empty. */
static void live_windows(source *from, const pair *pair)
{
    static rows windows, wanted, part;
    size_t width = 2 * pair->axes, length = 1 + below(from, 100), boxes = width * length;
    uint64_t place = 0, total = 77;
    CHECK(juicedelta_live_windows(&pair->tree, 0, part.ids, length, part.boxes, boxes + 1, &total) == JUICEDELTA_BAD_LENGTH);
    CHECK(total == 77);
    clear_rows(&windows);
    CHECK(plain_live_windows(&pair->list, 0, wanted.ids, BUFFER, wanted.boxes, width * BUFFER, &wanted.total) == JUICEDELTA_OK);
    arm(1);
    do {
        uint64_t left = place < wanted.total ? wanted.total - place : 0, written = left < length ? left : length;
        clear_rows(&part);
        CHECK(juicedelta_live_windows(&pair->tree, place, part.ids, length, part.boxes, boxes, &part.total) == JUICEDELTA_OK);
        CHECK(part.total == wanted.total && are_untouched(pair, &part, written));
        memcpy(windows.ids + place, part.ids, written * sizeof *part.ids);
        memcpy(windows.boxes + width * place, part.boxes, width * written * sizeof *part.boxes);
        place += length;
    } while (place < wanted.total + length);
    clear_rows(&part);
    CHECK(juicedelta_live_windows(&pair->tree, UINT64_MAX, part.ids, length, part.boxes, boxes, &part.total) == JUICEDELTA_OK);
    CHECK(!disarm() && part.total == wanted.total && are_untouched(pair, &part, 0));
    CHECK(are_same(pair, &windows, &wanted, wanted.total));
}

/* The dump and the bytes of the rows' tree open a tree with these rows. */
static void live_kept(const pair *pair)
{
    struct pair read = {pair->axes, {NULL, 0}, {NULL, 0}};
    juicedelta_handle again = {0};
    uint64_t length = 77, total = 77;
    uint8_t none;
    CHECK(juicedelta_tree_dump(&pair->tree, &none, 0, &length) == JUICEDELTA_BUFFER_TOO_SMALL);
    uint8_t *text = malloc(length);
    CHECK(text != NULL && juicedelta_tree_dump(&pair->tree, text, length, &total) == JUICEDELTA_OK && total == length);
    CHECK(juicedelta_tree_open_dump(&read.tree, pair->axes, text, length, 1, 2) == JUICEDELTA_OK);
    CHECK(plain_tree_open_dump(&read.list, pair->axes, text, length, 1, 2) == JUICEDELTA_OK);
    pair_same(&read);
    CHECK(juicedelta_tree_to_bytes(&pair->tree, &none, 0, &total) == JUICEDELTA_BUFFER_TOO_SMALL);
    uint8_t *bytes = malloc(total);
    CHECK(bytes != NULL && juicedelta_tree_to_bytes(&pair->tree, bytes, total, &total) == JUICEDELTA_OK);
    CHECK(juicedelta_tree_open_bytes(&again, pair->axes, bytes, total, 1, 2) == JUICEDELTA_OK);
    writes(juicedelta_tree_dump, &again, text, length);
    uint8_t *plain = malloc(length);
    CHECK(plain != NULL && plain_tree_dump(&pair->list, plain, length, &total) == JUICEDELTA_OK);
    writes(plain_tree_dump, &read.list, plain, total);
    CHECK(juicedelta_close(&again) == JUICEDELTA_OK);
    pair_close(&read);
    free(plain), free(bytes), free(text);
}

/* More room changes nothing that a call tells, whether it is there or not. */
static void live_reserve(source *from, pair *pair)
{
    int32_t code;
    uint64_t rows = below(from, 100), windows = below(from, 100), changes = below(from, 100);
    TRY(code, juicedelta_live_reserve(&pair->tree, rows, windows, changes), 1);
    CHECK(code == JUICEDELTA_OK && plain_live_reserve(&pair->list, rows, windows, changes) == JUICEDELTA_OK);
    CHECK(juicedelta_live_reserve(&pair->tree, UINT64_MAX, windows, changes) == JUICEDELTA_OUT_OF_MEMORY);
    CHECK(juicedelta_live_reserve(&pair->tree, rows, UINT64_MAX, changes) == JUICEDELTA_OUT_OF_MEMORY);
    CHECK(juicedelta_live_reserve(&pair->tree, rows, windows, UINT64_MAX) == JUICEDELTA_OUT_OF_MEMORY);
    pair_same(pair);
}

/* One of the calls of trees that read. */
static void live_search(source *from, const pair *pair)
{
    static void (*const reads[])(source *, const struct pair *) = {
        pair_search, pair_search_rows, pair_nearest, pair_near, pair_search_many, pair_nearest_many, pair_bounds, pair_walk, pair_join,
    };
    pair_get(from, pair, an_id(from));
    pair_len(pair);
    reads[below(from, sizeof reads / sizeof *reads)](from, pair);
}

/* One read of both, or more room. */
static void live_read(source *from, pair *pair, uint32_t windows)
{
    switch (below(from, 5)) {
    case 0:
        live_changes(from, pair);
        break;
    case 1:
        live_windows(from, pair);
        break;
    case 2:
        if (below(from, 10) == 0)
            live_reserve(from, pair);
        else if (below(from, 10) == 0)
            live_kept(pair);
        break;
    case 3:
        live_search(from, pair);
        break;
    default:
        live_rows(from, pair, (int64_t)below(from, windows + 1) - windows / 2);
    }
}

/* Mostly an edit, else a read. Answers how many edits that was. */
static int live_step(source *from, pair *pair, uint32_t windows)
{
    int is_edit = below(from, 20) != 0;
    if (is_edit)
        live_edit(from, pair, windows);
    else
        live_read(from, pair, windows);
    return is_edit;
}
#endif
