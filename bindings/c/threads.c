/*
 * Four threads read one tree, live windows and one shell side by side, each into its own buffers, and each answer is compared
 * with that of one thread alone. Between two rounds a single thread writes: starting and joining the threads orders that.
 * Meanwhile each thread fills a tree of its own too.
 *
 *   threads ROUNDS QUESTIONS    on each number of axes
 */
#define _POSIX_C_SOURCE 200809L
#include "juicedelta.h"

#include <pthread.h>
#include <stdio.h>
#include <stdlib.h>
#include <string.h>

#define CHECK(truth)                                                                                                   \
    do {                                                                                                               \
        if (!(truth)) {                                                                                                \
            fprintf(stderr, "%s:%d: %s\n", __FILE__, __LINE__, #truth);                                                \
            abort();                                                                                                   \
        }                                                                                                              \
    } while (0)

enum { THREADS = 4, ROWS = 400, WINDOWS = 30, BOX = 6, BYTES = 100000 };

/* A number from 0 to n - 1 that looks random (xorshift). */
static int32_t below(uint64_t *state, uint32_t n)
{
    *state ^= *state << 13;
    *state ^= *state >> 7;
    *state ^= *state << 17;
    return (int32_t)((*state >> 32) % n);
}

static void a_box(uint64_t *state, uint32_t axes, uint32_t widest, int32_t *box)
{
    for (uint32_t axis = 0; axis < axes; axis++) {
        box[axis] = below(state, 1000);
        box[axes + axis] = box[axis] + below(state, widest);
    }
}

/* What a thread writes its answers to. */
typedef struct buffers {
    int64_t ids[ROWS];
    int32_t boxes[BOX * ROWS];
    struct row {
        int64_t id;
        int32_t box[BOX];
    } rows[ROWS];
    uint8_t bytes[BYTES];
    size_t length;
} buffers;

static void append(buffers *to, const void *bytes, size_t length)
{
    CHECK(length <= BYTES - to->length);
    memcpy(to->bytes + to->length, bytes, length);
    to->length += length;
}

static int by_id(const void *left, const void *right)
{
    int64_t one = *(const int64_t *)left, other = *(const int64_t *)right;
    return (one > other) - (one < other);
}

/* Appends the rows that were written to the lists, by ascending ids unless their order counts. */
static void append_rows(buffers *to, uint32_t axes, uint64_t total, int has_order)
{
    size_t width = 2 * axes;
    memset(to->rows, 0, total * sizeof *to->rows);
    for (size_t at = 0; at < total; at++) {
        to->rows[at].id = to->ids[at];
        memcpy(to->rows[at].box, &to->boxes[at * width], width * sizeof *to->boxes);
    }
    if (!has_order)
        qsort(to->rows, total, sizeof *to->rows, by_id);
    append(to, to->rows, total * sizeof *to->rows);
}

/* Answers a question of a tree: the bytes of each call that reads. */
static void answer(const juicedelta_handle *tree, uint32_t axes, uint64_t question, buffers *to)
{
    uint64_t state = (question + 1) * 0x9e3779b97f4a7c15u, total;
    uint32_t relation = (uint32_t)(question % 3), told;
    size_t width = 2 * axes;
    int32_t window[BOX];
    to->length = 0;
    a_box(&state, axes, below(&state, 4) == 0 ? 10 : 500, window);
    CHECK(juicedelta_tree_axes(tree, &told) == JUICEDELTA_OK && told == axes);
    CHECK(juicedelta_tree_len(tree, &total) == JUICEDELTA_OK);
    append(to, &total, sizeof total);
    CHECK(juicedelta_tree_count(tree, relation, window, width, &total) == JUICEDELTA_OK);
    append(to, &total, sizeof total);
    CHECK(juicedelta_tree_search_rows(tree, relation, window, width, to->ids, ROWS, to->boxes, width * ROWS, &total) == 0);
    append_rows(to, axes, total, 0);
    CHECK(juicedelta_tree_search(tree, relation, window, width, to->ids, ROWS, &total) == JUICEDELTA_OK);
    qsort(to->ids, total, sizeof *to->ids, by_id);
    append(to, to->ids, total * sizeof *to->ids);
    CHECK(juicedelta_tree_nearest(tree, window, axes, to->ids, 9, to->boxes, width * 9, &total) == JUICEDELTA_OK);
    append_rows(to, axes, total, 1);
    int32_t code = juicedelta_tree_get(tree, below(&state, ROWS), window, width);
    CHECK(code == JUICEDELTA_OK || code == JUICEDELTA_ID_MISSING);
    append(to, window, width * sizeof *window);
    if (question % 16 == 0) {
        CHECK(juicedelta_tree_dump(tree, to->bytes + to->length, BYTES - to->length, &total) == JUICEDELTA_OK);
        to->length += total;
    }
}

/* Answers a question of live windows: what each call that reads says, of their rows too. */
static void answer_live(const juicedelta_handle *live, uint32_t axes, uint64_t question, buffers *to)
{
    int64_t windows[ROWS];
    uint8_t kinds[ROWS];
    uint64_t total = 0;
    answer(live, axes, question, to);
    int32_t code = juicedelta_live_rows(live, (int64_t)(question % WINDOWS), to->ids, ROWS, &total);
    CHECK(code == JUICEDELTA_OK || code == JUICEDELTA_ID_MISSING);
    append(to, to->ids, total * sizeof *to->ids);
    CHECK(juicedelta_live_changes(live, windows, ROWS, to->ids, ROWS, kinds, ROWS, &total) == JUICEDELTA_OK);
    append(to, windows, total * sizeof *windows);
    append(to, to->ids, total * sizeof *to->ids);
    append(to, kinds, total);
    CHECK(juicedelta_live_windows(live, 0, to->ids, ROWS, to->boxes, 2 * axes * ROWS, &total) == JUICEDELTA_OK);
    append_rows(to, axes, total, 0);
}

/* What the threads share: they only read it. */
typedef struct task {
    juicedelta_handle tree, live, shell;
    uint32_t axes;
    uint64_t questions;
    struct bytes {
        size_t length;
        uint8_t *bytes;
    } *wanted, *wanted_live, output;
    pthread_barrier_t *start;
} task;

static struct bytes copy_of(const uint8_t *bytes, size_t length)
{
    struct bytes copy = {length, malloc(length + 1)};
    CHECK(copy.bytes != NULL);
    memcpy(copy.bytes, bytes, length);
    return copy;
}

static void check(const buffers *read, const struct bytes *wanted)
{
    CHECK(read->length == wanted->length && memcmp(read->bytes, wanted->bytes, read->length) == 0);
}

static void read_output(const juicedelta_handle *shell, buffers *to)
{
    uint64_t length;
    CHECK(juicedelta_script_output_length(shell, &length) == JUICEDELTA_OK && length <= BYTES);
    CHECK(juicedelta_script_output(shell, to->bytes, BYTES) == JUICEDELTA_OK);
    to->length = length;
}

/* A tree with the rows of another. */
static juicedelta_handle second_tree(const task *task, buffers *to)
{
    static const int32_t space[] = {0, 0, 0, 2000, 2000, 2000}; /* Its middle is the space of fewer axes. */
    size_t width = 2 * task->axes;
    juicedelta_handle own = {0};
    uint64_t total;
    CHECK(juicedelta_tree_open(&own, task->axes, 5, 3, 4) == JUICEDELTA_OK);
    CHECK(juicedelta_tree_search_rows(&task->tree, 0, space + 3 - task->axes, width, to->ids, ROWS, to->boxes, width * ROWS,
              &total) == JUICEDELTA_OK);
    for (uint64_t at = 0; at < total; at++)
        CHECK(juicedelta_tree_insert(&own, to->ids[at], &to->boxes[at * width], width) == JUICEDELTA_OK);
    return own;
}

/* One of the threads: it asks all questions, each thread from another on. */
typedef struct reader {
    const task *task;
    uint64_t first;
} reader;

static void *read_all(void *one)
{
    const task *task = ((reader *)one)->task;
    buffers *to = malloc(sizeof *to);
    CHECK(to != NULL);
    pthread_barrier_wait(task->start);
    for (uint64_t at = 0; at < task->questions; at++) {
        uint64_t question = (((reader *)one)->first + at) % task->questions;
        answer(&task->tree, task->axes, question, to);
        check(to, &task->wanted[question]);
        answer_live(&task->live, task->axes, question, to);
        check(to, &task->wanted_live[question]);
        read_output(&task->shell, to);
        check(to, &task->output);
    }
    juicedelta_handle own = second_tree(task, to);
    for (uint64_t question = 1; question < task->questions && question < 16; question++) {
        answer(&own, task->axes, question, to);
        check(to, &task->wanted[question]);
    }
    CHECK(juicedelta_close(&own) == JUICEDELTA_OK);
    free(to);
    return NULL;
}

/* A row or a window of live windows comes, moves or goes. */
static void edit_live(task *task, uint64_t *state)
{
    int64_t id = below(state, ROWS), window = below(state, WINDOWS);
    size_t width = 2 * task->axes;
    int32_t box[BOX];
    uint64_t count;
    a_box(state, task->axes, 300, box);
    if (below(state, 4) == 0 && juicedelta_live_watch(&task->live, window, box, width, &count) == JUICEDELTA_ID_TAKEN) {
        if (below(state, 4) == 0)
            CHECK(juicedelta_live_unwatch(&task->live, window, &count) == JUICEDELTA_OK);
        else
            CHECK(juicedelta_live_shift(&task->live, window, box, width, &count) == JUICEDELTA_OK);
    }
    if (juicedelta_live_insert(&task->live, id, box, width, &count) != JUICEDELTA_ID_TAKEN)
        return;
    if (below(state, 3) == 0)
        CHECK(juicedelta_live_remove(&task->live, id, &count) == JUICEDELTA_OK);
    else
        CHECK(juicedelta_live_move(&task->live, id, box, width, &count) == JUICEDELTA_OK);
}

/* The calls that write: rows come, move and go, and a statement is fed. */
static void write_some(task *task, uint64_t *state)
{
    for (int turn = 0; turn < 200; turn++) {
        int64_t id = below(state, ROWS);
        int32_t box[BOX];
        edit_live(task, state);
        a_box(state, task->axes, 100, box);
        if (juicedelta_tree_insert(&task->tree, id, box, 2 * task->axes) != JUICEDELTA_ID_TAKEN)
            continue;
        if (below(state, 3) == 0)
            CHECK(juicedelta_tree_remove(&task->tree, id) == JUICEDELTA_OK);
        else
            CHECK(juicedelta_tree_move(&task->tree, id, box, 2 * task->axes) == JUICEDELTA_OK);
    }
    CHECK(juicedelta_script_exec(&task->shell, (const uint8_t *)"SELECT * FROM nowhere;", 22) == JUICEDELTA_OK);
}

/* What one thread alone reads. */
static void read_alone(task *task, buffers *to)
{
    for (uint64_t question = 0; question < task->questions; question++) {
        answer(&task->tree, task->axes, question, to);
        task->wanted[question] = copy_of(to->bytes, to->length);
        answer_live(&task->live, task->axes, question, to);
        task->wanted_live[question] = copy_of(to->bytes, to->length);
    }
    read_output(&task->shell, to);
    task->output = copy_of(to->bytes, to->length);
}

static void forget(task *task)
{
    for (uint64_t question = 0; question < task->questions; question++)
        free(task->wanted[question].bytes), free(task->wanted_live[question].bytes);
    free(task->output.bytes);
}

static void read_beside(task *task)
{
    pthread_t threads[THREADS];
    reader readers[THREADS];
    for (uint64_t at = 0; at < THREADS; at++) {
        readers[at] = (reader){task, at * task->questions / THREADS};
        CHECK(pthread_create(&threads[at], NULL, read_all, &readers[at]) == 0);
    }
    for (int at = 0; at < THREADS; at++)
        CHECK(pthread_join(threads[at], NULL) == 0);
}

static void rounds(uint32_t axes, uint64_t times, uint64_t questions)
{
    task task = {.axes = axes, .questions = questions};
    buffers *to = malloc(sizeof *to);
    uint64_t state = 88172645463325252u;
    pthread_barrier_t start;
    task.wanted = calloc(questions, sizeof *task.wanted);
    task.wanted_live = calloc(questions, sizeof *task.wanted_live);
    CHECK(task.wanted != NULL && task.wanted_live != NULL && to != NULL);
    CHECK(pthread_barrier_init(&start, NULL, THREADS) == 0);
    task.start = &start;
    CHECK(juicedelta_tree_open(&task.tree, axes, 5, 1, 2) == JUICEDELTA_OK);
    CHECK(juicedelta_live_open(&task.live, axes, 5, 1, 2) == JUICEDELTA_OK);
    CHECK(juicedelta_script_open(&task.shell, 5, 1, 2) == JUICEDELTA_OK);
    for (uint64_t round = 0; round < times; round++) {
        write_some(&task, &state);
        read_alone(&task, to);
        read_beside(&task);
        forget(&task);
    }
    CHECK(juicedelta_close(&task.tree) == JUICEDELTA_OK && juicedelta_close(&task.live) == JUICEDELTA_OK);
    CHECK(juicedelta_close(&task.shell) == JUICEDELTA_OK);
    CHECK(pthread_barrier_destroy(&start) == 0);
    free(task.wanted), free(task.wanted_live);
    free(to);
}

int main(int count, char **words)
{
    if (count != 3) {
        fputs("threads ROUNDS QUESTIONS\n", stderr);
        return 2;
    }
    for (uint32_t axes = 1; axes <= 3; axes++)
        rounds(axes, strtoull(words[1], NULL, 10), strtoull(words[2], NULL, 10));
    puts("bindings/c: threads passed");
    return 0;
}
