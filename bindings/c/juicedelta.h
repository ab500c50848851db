/*
 * juicedelta.h: the calls for C99 and C++ of Juicedelta, which keeps rows, each an id and a box of whole numbers, in
 * R*-trees of one, two or three axes, tells windows over them what edits change, and runs scripts over tables of them. Link
 * with libjuicedelta.a.
 *
 * Handles. A juicedelta_handle holds one object, a tree, live windows or a script shell, or nothing: then it is closed, as
 * {0} is. The caller owns the handle, and the library owns what it holds, until juicedelta_close. Never change a handle, and
 * never use two copies of one.
 *
 *     juicedelta_handle tree = {0};
 *     if (juicedelta_tree_open(&tree, 2, 51, keys[0], keys[1]) == JUICEDELTA_OK) ...
 *     juicedelta_close(&tree);
 *
 * Boxes. A box is 2 * axes numbers: first the minimum on each axis, then the maximum on each (minx, miny, maxx, maxy).
 * Both ends belong to it. A row's box has no minimum above its maximum; a window that has one has no point. A point is a
 * number for each axis. Many rows are a list of ids and a list of their boxes, one after another in the same order.
 * Lengths count the numbers, ids or bytes that a pointer leads to: 2 * axes for a box, axes for a point, and as many for
 * each box or point of a list, which has one for each id, start or count that the call's other list has room for. With
 * another length the call answers BAD_LENGTH.
 * Relations. A window finds the rows that touch it, lie within it or hold it, as juicedelta_relation says. A window without
 * a point touches no row and has none within it, and each row holds it.
 *
 * Answers. Each call answers JUICEDELTA_OK, or the first code of its comment that applies. No call ends the process. A call
 * that answers another code than OK changes neither an object nor an output argument, but BUFFER_TOO_SMALL writes `total`;
 * where a call does more, its comment says so. Pointers are never NULL, not even to a list of length 0. What a pointer of a
 * call leads to does not overlap what it writes through another. No call keeps a pointer.
 *
 * Threads. No call that writes may overlap another call on the same handle; calls that read (a const handle) may overlap
 * each other. What orders writers and readers (a lock, a join, an atomic) is the caller's. Each thread has its own buffers.
 */
#ifndef JUICEDELTA_H
#define JUICEDELTA_H

#include <stddef.h>
#include <stdint.h>

/* The version of this header, as words and as 1,000,000 * major + 1,000 * minor + patch. */
#define JUICEDELTA_VERSION "0.1.0"
#define JUICEDELTA_VERSION_NUMBER 1000

/* What a call answers, and the words of juicedelta_words. */
typedef enum juicedelta_code {
    JUICEDELTA_OK = 0,               /* done */
    JUICEDELTA_CLOSED = 1,           /* nothing is held */
    JUICEDELTA_OTHER_KIND = 2,       /* an object of another kind is held */
    JUICEDELTA_ALREADY_OPEN = 3,     /* an object is held already */
    JUICEDELTA_BAD_CAPACITY = 4,     /* the capacity is not from 5 to 51 */
    JUICEDELTA_BAD_BOX = 5,          /* on some axis min is above max */
    JUICEDELTA_ID_TAKEN = 6,         /* the id is taken */
    JUICEDELTA_ID_MISSING = 7,       /* no row or window has that id */
    JUICEDELTA_BUFFER_TOO_SMALL = 8, /* the result is longer than the buffer */
    JUICEDELTA_OUT_OF_MEMORY = 9,    /* no memory is left */
    JUICEDELTA_TREE_FULL = 10,       /* the tree has as many rows as a tree may have */
    JUICEDELTA_ENDED = 11,           /* the script has ended */
    JUICEDELTA_TOO_LONG = 12,        /* the script is longer than 2^63 bytes */
    JUICEDELTA_BAD_DUMP = 13,        /* the text is not the dump of a sound tree */
    JUICEDELTA_BAD_LENGTH = 14,      /* a box, a point or a list has a wrong length */
    JUICEDELTA_BAD_AXES = 15,        /* a tree has one, two or three axes */
    JUICEDELTA_BAD_RELATION = 16,    /* a relation is touches, within or holds */
    JUICEDELTA_EMPTY = 17,           /* the tree has no rows */
    JUICEDELTA_BAD_BYTES = 18        /* the bytes are not those of a sound tree */
} juicedelta_code;

/* Which rows a window finds. */
typedef enum juicedelta_relation {
    JUICEDELTA_TOUCHES = 0, /* the row's box and the window have a point in common */
    JUICEDELTA_WITHIN = 1,  /* each point of the row's box lies in the window */
    JUICEDELTA_HOLDS = 2    /* each point of the window lies in the row's box */
} juicedelta_relation;

/* What a window is told of a row. */
typedef enum juicedelta_change {
    JUICEDELTA_LEFT = 0, /* it left the window */
    JUICEDELTA_CAME = 1, /* it came into the window */
    JUICEDELTA_MOVED = 2 /* it has another box, and is in the window as before */
} juicedelta_change;

typedef struct juicedelta_handle {
    void *object;
    uint64_t count;
} juicedelta_handle;

#ifdef __linux__
#include <sys/random.h>
/* Fills two words at random: the keys for a call that opens. They go into the hashes of ids. No answer depends on them, but
 * who can guess them can choose ids that make look-ups slow. Answers 0, or -1 if the system gives none. */
static inline int juicedelta_random_keys(uint64_t keys[2])
{
    return getrandom(keys, 2 * sizeof keys[0], 0) == (ssize_t)(2 * sizeof keys[0]) ? 0 : -1;
}
#endif

#ifdef __cplusplus
extern "C" {
#endif

uint32_t juicedelta_version(void); /* The number of the library's version. */
/* Writes the words of a code, or "unknown code", with no zero byte behind them, and their length. BUFFER_TOO_SMALL. */
int32_t juicedelta_words(int32_t code, uint8_t *text, size_t length, uint64_t *total);
/* Frees what the handle holds; the handle is closed then, and can be opened again. CLOSED. */
int32_t juicedelta_close(juicedelta_handle *handle);

/* ---- Trees. All calls but those that open answer CLOSED first, and then OTHER_KIND if the handle holds no tree. Those that
 * read (a const handle) answer of the rows of live windows too. ---- */

/* Opens a tree without rows. Its nodes have at most `capacity` cells, from 5 to 51; 51 is SQLite's.
 * ALREADY_OPEN, BAD_AXES, BAD_CAPACITY, OUT_OF_MEMORY. */
int32_t juicedelta_tree_open(juicedelta_handle *handle, uint32_t axes, uint32_t capacity, uint64_t first_key,
                             uint64_t second_key);
/* Opens a tree with these rows, packed all at once. BAD_BOX and ID_TAKEN write the place, from 0, of the first row that is
 * refused so to `at`: the first with a bad box, or the first whose id an earlier row has.
 * ALREADY_OPEN, BAD_AXES, BAD_CAPACITY, BAD_LENGTH, BAD_BOX, TREE_FULL, ID_TAKEN, OUT_OF_MEMORY. */
int32_t juicedelta_tree_open_rows(juicedelta_handle *handle, uint32_t axes, uint32_t capacity, const int64_t *ids,
                                  size_t ids_length, const int32_t *boxes, size_t boxes_length, uint64_t first_key,
                                  uint64_t second_key, uint64_t *at);
/* Opens a tree with a dump's capacity and rows: the very tree, if its nodes are in preorder, as juicedelta_tree_dump writes
 * them; else packed. A dump is bad too if `rtsh check` finds a problem. ALREADY_OPEN, BAD_AXES; BAD_DUMP, TREE_FULL or
 * OUT_OF_MEMORY as they are met. */
int32_t juicedelta_tree_open_dump(juicedelta_handle *handle, uint32_t axes, const uint8_t *text, size_t length,
                                  uint64_t first_key, uint64_t second_key);
/* Opens the tree that juicedelta_tree_to_bytes wrote. ALREADY_OPEN, BAD_AXES; BAD_BYTES, TREE_FULL or OUT_OF_MEMORY as they
 * are met. */
int32_t juicedelta_tree_open_bytes(juicedelta_handle *handle, uint32_t axes, const uint8_t *bytes, size_t length,
                                   uint64_t first_key, uint64_t second_key);
/* Inserts a row. BAD_LENGTH, BAD_BOX, ID_TAKEN, TREE_FULL, OUT_OF_MEMORY. */
int32_t juicedelta_tree_insert(juicedelta_handle *handle, int64_t id, const int32_t *box, size_t length);
/* Inserts all rows, in their order, or none. BAD_BOX and ID_TAKEN write the place, from 0, of the first row that is refused
 * so to `at`: the first with a bad box, or the first whose id the tree or an earlier row has.
 * BAD_LENGTH, BAD_BOX, ID_TAKEN, TREE_FULL, OUT_OF_MEMORY. */
int32_t juicedelta_tree_insert_rows(juicedelta_handle *handle, const int64_t *ids, size_t ids_length, const int32_t *boxes,
                                    size_t boxes_length, uint64_t *at);
/* Gives a row another box; nothing changes if it is the same. BAD_LENGTH, BAD_BOX, ID_MISSING, OUT_OF_MEMORY. */
int32_t juicedelta_tree_move(juicedelta_handle *handle, int64_t id, const int32_t *box, size_t length);
/* Removes a row. It needs no memory. ID_MISSING. */
int32_t juicedelta_tree_remove(juicedelta_handle *handle, int64_t id);
/* Removes all rows, and frees their memory. Axes and capacity stay. OUT_OF_MEMORY: none is left for the new tree. */
int32_t juicedelta_tree_clear(juicedelta_handle *handle);

/* Tells the number of axes. */
int32_t juicedelta_tree_axes(const juicedelta_handle *handle, uint32_t *axes);
/* Tells the number of rows. */
int32_t juicedelta_tree_len(const juicedelta_handle *handle, uint64_t *rows);
/* Tells a row's box. BAD_LENGTH, ID_MISSING. */
int32_t juicedelta_tree_get(const juicedelta_handle *handle, int64_t id, int32_t *box, size_t length);
/* Tells the least box that holds each row's. BAD_LENGTH, EMPTY. */
int32_t juicedelta_tree_bounds(const juicedelta_handle *handle, int32_t *box, size_t length);
/* Writes the ids of the rows from place `from` on, as many as there are or the list has room for, and tells how many rows
 * the tree has. The order of places stays until the tree changes. From a place past the last it writes none. */
int32_t juicedelta_tree_ids(const juicedelta_handle *handle, uint64_t from, int64_t *ids, size_t ids_length,
                            uint64_t *total);
/* As juicedelta_tree_ids, and writes the boxes of these rows. BAD_LENGTH. */
int32_t juicedelta_tree_rows(const juicedelta_handle *handle, uint64_t from, int64_t *ids, size_t ids_length,
                             int32_t *boxes, size_t boxes_length, uint64_t *total);
/* Tells how many rows the window finds. BAD_RELATION, BAD_LENGTH, OUT_OF_MEMORY. */
int32_t juicedelta_tree_count(const juicedelta_handle *handle, uint32_t relation, const int32_t *window, size_t length,
                              uint64_t *total);
/* As juicedelta_tree_count, of each window of a list; counts[i] is that of window i. BAD_RELATION, BAD_LENGTH,
 * OUT_OF_MEMORY. */
int32_t juicedelta_tree_count_many(const juicedelta_handle *handle, uint32_t relation, const int32_t *windows,
                                   size_t windows_length, uint64_t *counts, size_t counts_length);
/* Writes the ids of the rows that the window finds to the start of `ids`, each once, in no stated order, and how many there
 * are. BAD_RELATION, BAD_LENGTH, OUT_OF_MEMORY, BUFFER_TOO_SMALL. */
int32_t juicedelta_tree_search(const juicedelta_handle *handle, uint32_t relation, const int32_t *window, size_t length,
                               int64_t *ids, size_t ids_length, uint64_t *total);
/* As juicedelta_tree_search, and writes the boxes of these rows. */
int32_t juicedelta_tree_search_rows(const juicedelta_handle *handle, uint32_t relation, const int32_t *window, size_t length,
                                    int64_t *ids, size_t ids_length, int32_t *boxes, size_t boxes_length, uint64_t *total);
/* As juicedelta_tree_search, of each window of a list: the ids that window i finds stand from starts[i] to starts[i + 1],
 * those of the last window to `total`. BAD_RELATION, BAD_LENGTH, OUT_OF_MEMORY, BUFFER_TOO_SMALL. */
int32_t juicedelta_tree_search_many(const juicedelta_handle *handle, uint32_t relation, const int32_t *windows,
                                    size_t windows_length, uint64_t *starts, size_t starts_length, int64_t *ids,
                                    size_t ids_length, uint64_t *total);
/* Writes the `ids_length` rows nearest to the point, or all if there are fewer, and how many it wrote: the nearest first, of
 * two equally near that with the lower id. The distance is that to the box, 0 inside of it. BAD_LENGTH, OUT_OF_MEMORY. */
int32_t juicedelta_tree_nearest(const juicedelta_handle *handle, const int32_t *point, size_t length,
                                int64_t *ids, size_t ids_length, int32_t *boxes, size_t boxes_length, uint64_t *total);
/* As juicedelta_tree_nearest, of the rows within the distance alone: the squared distance is at most its square.
 * BAD_LENGTH, OUT_OF_MEMORY. */
int32_t juicedelta_tree_within(const juicedelta_handle *handle, const int32_t *point, size_t length, uint64_t distance,
                               int64_t *ids, size_t ids_length, int32_t *boxes, size_t boxes_length, uint64_t *total);
/* As juicedelta_tree_nearest, of the rows nearest to a box: the distance is the least between points of both.
 * BAD_LENGTH, BAD_BOX, OUT_OF_MEMORY. */
int32_t juicedelta_tree_nearest_to(const juicedelta_handle *handle, const int32_t *box, size_t length,
                                   int64_t *ids, size_t ids_length, int32_t *boxes, size_t boxes_length, uint64_t *total);
/* Writes the ids of the `k` rows nearest to each point of a list, in the order of juicedelta_tree_nearest. `starts` tells
 * where those of each point stand, as for juicedelta_tree_search_many. BAD_LENGTH, OUT_OF_MEMORY, BUFFER_TOO_SMALL. */
int32_t juicedelta_tree_nearest_many(const juicedelta_handle *handle, const int32_t *points, size_t points_length,
                                     uint64_t k, uint64_t *starts, size_t starts_length, int64_t *ids, size_t ids_length,
                                     uint64_t *total);
/* Writes each pair of rows, one of each tree, whose boxes touch, once, in no stated order: its ids to the same place of two
 * lists of one length; and tells how many there are. The codes of both handles come first. The handles may be the same.
 * BAD_AXES: the trees' axes differ. BAD_LENGTH, OUT_OF_MEMORY, BUFFER_TOO_SMALL. */
int32_t juicedelta_tree_join(const juicedelta_handle *left, const juicedelta_handle *right, int64_t *left_ids,
                             size_t left_length, int64_t *right_ids, size_t right_length, uint64_t *total);
/* As juicedelta_tree_join, of each pair of two different rows of one tree; the lower id is on the left. BAD_LENGTH,
 * OUT_OF_MEMORY, BUFFER_TOO_SMALL. */
int32_t juicedelta_tree_join_self(const juicedelta_handle *handle, int64_t *left_ids, size_t left_length,
                                  int64_t *right_ids, size_t right_length, uint64_t *total);
/* Writes the tree in a compact form, from which juicedelta_tree_open_bytes makes the same tree, and the form's length.
 * OUT_OF_MEMORY, BUFFER_TOO_SMALL. */
int32_t juicedelta_tree_to_bytes(const juicedelta_handle *handle, uint8_t *bytes, size_t length, uint64_t *total);
/* Writes the dump, as `.nodes` prints it, with no zero byte behind it, and its length. OUT_OF_MEMORY, BUFFER_TOO_SMALL. */
int32_t juicedelta_tree_dump(const juicedelta_handle *handle, uint8_t *text, size_t length, uint64_t *total);

/* ---- Live windows: rows, and windows over them, each an id and a box. Each edit tells the windows what it changed in the
 * rows that they see, those that touch them. All calls but that which opens answer CLOSED first, then OTHER_KIND if the handle
 * holds no live windows. The calls of trees that read answer of the rows of live windows too. ---- */

/* Opens rows and windows, none so far. The capacity is that of the nodes of their trees. ALREADY_OPEN, BAD_AXES, BAD_CAPACITY,
 * OUT_OF_MEMORY. */
int32_t juicedelta_live_open(juicedelta_handle *handle, uint32_t axes, uint32_t capacity, uint64_t first_key,
                             uint64_t second_key);

/* Edits. Each tells how many changes it made; juicedelta_live_changes writes them until the next edit. An edit that answers
 * another code than OK leaves the changes of the last one. */

/* Inserts a row: it comes into the windows that it touches. BAD_LENGTH, BAD_BOX, ID_TAKEN, TREE_FULL, OUT_OF_MEMORY. */
int32_t juicedelta_live_insert(juicedelta_handle *handle, int64_t id, const int32_t *box, size_t length, uint64_t *changes);
/* Gives a row another box: it leaves windows, comes into them, or moves in them. If the box is the same, that makes no change.
 * BAD_LENGTH, BAD_BOX, ID_MISSING, OUT_OF_MEMORY. */
int32_t juicedelta_live_move(juicedelta_handle *handle, int64_t id, const int32_t *box, size_t length, uint64_t *changes);
/* Removes a row: it leaves the windows that saw it. ID_MISSING, OUT_OF_MEMORY. */
int32_t juicedelta_live_remove(juicedelta_handle *handle, int64_t id, uint64_t *changes);
/* Opens a window: the rows that touch it come into it. BAD_LENGTH, BAD_BOX, ID_TAKEN, TREE_FULL, OUT_OF_MEMORY. */
int32_t juicedelta_live_watch(juicedelta_handle *handle, int64_t window, const int32_t *box, size_t length,
                              uint64_t *changes);
/* Gives a window another box: rows leave it and come into it. A row that it sees before and after makes no change.
 * BAD_LENGTH, BAD_BOX, ID_MISSING, OUT_OF_MEMORY. */
int32_t juicedelta_live_shift(juicedelta_handle *handle, int64_t window, const int32_t *box, size_t length,
                              uint64_t *changes);
/* Takes a window out: the rows that it saw leave it. ID_MISSING, OUT_OF_MEMORY. */
int32_t juicedelta_live_unwatch(juicedelta_handle *handle, int64_t window, uint64_t *changes);
/* Makes room for `rows` more rows and `windows` more windows, and for `changes` windows or rows that one edit looks at: those
 * around its old box and its new one. The edits that follow need no more memory, as long as each looks at no more than that,
 * and together they insert or move at most `rows` rows, and watch or shift at most `windows` windows. OUT_OF_MEMORY. */
int32_t juicedelta_live_reserve(juicedelta_handle *handle, uint64_t rows, uint64_t windows, uint64_t changes);

/* Writes the changes of the last edit, by rising window and then by rising id: of each the window, the row and what it did, a
 * juicedelta_change, to one place of three lists of one length; and tells how many there are. BAD_LENGTH, BUFFER_TOO_SMALL. */
int32_t juicedelta_live_changes(const juicedelta_handle *handle, int64_t *windows, size_t windows_length, int64_t *ids,
                                size_t ids_length, uint8_t *kinds, size_t kinds_length, uint64_t *total);
/* Writes the ids of the rows that a window sees, rising, and tells how many there are. ID_MISSING, OUT_OF_MEMORY,
 * BUFFER_TOO_SMALL. */
int32_t juicedelta_live_rows(const juicedelta_handle *handle, int64_t window, int64_t *ids, size_t ids_length,
                             uint64_t *total);
/* As juicedelta_tree_rows, of the windows: writes the ids and the boxes of those from place `from` on, as many as there are or
 * the lists have room for, and tells how many windows there are. BAD_LENGTH. */
int32_t juicedelta_live_windows(const juicedelta_handle *handle, uint64_t from, int64_t *ids, size_t ids_length,
                                int32_t *boxes, size_t boxes_length, uint64_t *total);

/* ---- Script shells. All calls but that which opens answer CLOSED first, then OTHER_KIND if the handle holds no shell. ----
 * A shell is fed a script in parts of any size, and keeps what `rtsh run` prints as its output, until the caller drops it.
 * A statement that is refused prints a line that begins with `refused`, and the script goes on. */

/* Opens a shell without a table. The capacity is that of its tables' trees. ALREADY_OPEN, BAD_CAPACITY, OUT_OF_MEMORY. */
int32_t juicedelta_script_open(juicedelta_handle *handle, uint32_t capacity, uint64_t first_key, uint64_t second_key);
/* Takes the next bytes of the script, and carries out the statements that end in them. ENDED, TOO_LONG. OUT_OF_MEMORY: none
 * was left for the output. Some statements may have been carried out; from then on it answers OUT_OF_MEMORY. */
int32_t juicedelta_script_exec(juicedelta_handle *handle, const uint8_t *bytes, size_t length);
/* Ends the script, and tells whether any statement of it was refused, 1 or 0. A last statement without a `;` is refused; a
 * last dot line needs no line feed. ENDED. OUT_OF_MEMORY: none was left for the output, but the script has ended. */
int32_t juicedelta_script_finish(juicedelta_handle *handle, uint32_t *refused);
/* Drops the output, and frees its memory. */
int32_t juicedelta_script_drop_output(juicedelta_handle *handle);
/* Tells the output's number of bytes. */
int32_t juicedelta_script_output_length(const juicedelta_handle *handle, uint64_t *length);
/* Copies the whole output to the start of the buffer, with no zero byte behind it. The output stays. BUFFER_TOO_SMALL. */
int32_t juicedelta_script_output(const juicedelta_handle *handle, uint8_t *buffer, size_t length);

#ifdef __cplusplus
}
#endif

#endif
