/*
 * Tests of the C calls, linked with plain.c under the names plain_.., and with malloc, realloc and free wrapped by the
 * linker (--wrap), so that allocations can be refused and counted. Each check names its line; the first that fails ends
 * the program.
 *
 *   test calls CALLS    what each call answers; CALLS random calls on each number of axes, at capacities 5 and 51, beside
 *                       the oracle; handles opened and closed a thousand times
 *   test live EDITS     EDITS random edits of live windows on each number of axes, few windows and many, at capacities 5 and
 *                       51, and reads between them, beside the oracle
 *   test refused CALLS  random calls and edits beside the oracle, with each allocation refused in turn, and a script
 *   test rows ROWS      ROWS rows are inserted and removed
 */
#include "pair_live.h"

/* ---- Memory ------------------------------------------------------------------------------------------------------ */

static long blocks, left, refuses;
static int was_refused;

void *__real_malloc(size_t size);
void *__real_realloc(void *block, size_t size);
void __real_free(void *block);

static int is_refused(void)
{
    if (left == 0 || --left > 0)
        return 0;
    was_refused = 1;
    return 1;
}

void *__wrap_malloc(size_t size)
{
    void *block = is_refused() ? NULL : __real_malloc(size);
    blocks += block != NULL;
    return block;
}

void *__wrap_realloc(void *block, size_t size)
{
    void *other = is_refused() ? NULL : __real_realloc(block, size);
    blocks += other != NULL && block == NULL;
    return other;
}

void __wrap_free(void *block)
{
    blocks -= block != NULL;
    __real_free(block);
}

static void arm(long allocation)
{
    was_refused = 0;
    left = refuses ? allocation : 0;
}

static int disarm(void)
{
    left = 0;
    return was_refused;
}

/* ---- Scripts ----------------------------------------------------------------------------------------------------- */

/* Text in, text out: what the shell prints of a script that is fed in parts of `part` bytes. */
static char *printed(const char *script, size_t part, uint32_t *refused)
{
    juicedelta_handle shell = {0};
    size_t length = strlen(script);
    uint64_t count;
    CHECK(juicedelta_script_open(&shell, 51, 1, 2) == JUICEDELTA_OK);
    for (size_t from = 0; from < length; from += part) {
        size_t more = length - from < part ? length - from : part;
        CHECK(juicedelta_script_exec(&shell, (const uint8_t *)script + from, more) == JUICEDELTA_OK);
    }
    CHECK(juicedelta_script_finish(&shell, refused) == JUICEDELTA_OK);
    CHECK(juicedelta_script_output_length(&shell, &count) == JUICEDELTA_OK);
    char *text = malloc(count + 1);
    CHECK(text != NULL);
    CHECK(juicedelta_script_output(&shell, (uint8_t *)text, count + 1) == JUICEDELTA_OK);
    text[count] = 0;
    CHECK(juicedelta_close(&shell) == JUICEDELTA_OK);
    return text;
}

/* The first script of README.md, and one with a refusal. */
static void scripts(void)
{
    static const char script[] =
        "CREATE VIRTUAL TABLE shops USING rtree_i32(id, west, east, south, north, +name);\n"
        "INSERT INTO shops VALUES (1, 10, 14, 5, 9, 'baker'), (2, 30, 42, 0, 6, 'market');\n"
        "SELECT id, name FROM shops WHERE west <= 20 AND east >= 0 AND south <= 8 AND north >= 0;\n"
        ".watch shown FROM shops WHERE west <= 20 AND east >= 0 AND south <= 8 AND north >= 0\n"
        "UPDATE shops SET west = west - 15, east = east - 15 WHERE id = 2;\n"
        "DELETE FROM shops WHERE name = 'baker';\n";
    static const char wanted[] = "1|'baker'\n+shown 2|15|27|0|6|'market'\n-shown 1|10|14|5|9|'baker'\n";
    for (size_t part = 1; part < sizeof script; part += 7) {
        uint32_t refused = 9;
        char *text = printed(script, part, &refused);
        CHECK(strcmp(text, wanted) == 0);
        CHECK(refused == 0);
        free(text);
    }
    uint32_t refused = 9;
    char *text = printed("SELECT * FROM nowhere;", 5, &refused);
    CHECK(strcmp(text, "refused 1 5: no such table\n") == 0);
    CHECK(refused == 1);
    free(text);

    /* What was dropped is not there again. */
    juicedelta_handle shell = {0};
    uint64_t count = 9;
    CHECK(juicedelta_script_open(&shell, 5, 1, 2) == JUICEDELTA_OK);
    CHECK(juicedelta_script_exec(&shell, (const uint8_t *)"SELECT * FROM nowhere;", 22) == JUICEDELTA_OK);
    CHECK(juicedelta_script_output_length(&shell, &count) == JUICEDELTA_OK && count > 0);
    CHECK(juicedelta_script_drop_output(&shell) == JUICEDELTA_OK);
    CHECK(juicedelta_script_output_length(&shell, &count) == JUICEDELTA_OK && count == 0);
    CHECK(juicedelta_close(&shell) == JUICEDELTA_OK);
}

/* Each code of a script shell that a bad argument gets. TOO_LONG would take 2^63 bytes. */
static void script_codes(void)
{
    juicedelta_handle shell = {0}, tree = {0};
    uint8_t buffer[4] = {0};
    uint64_t count = 77;
    uint32_t refused = 77;
    CHECK(juicedelta_script_exec(&shell, buffer, 0) == JUICEDELTA_CLOSED);
    CHECK(juicedelta_script_finish(&shell, &refused) == JUICEDELTA_CLOSED);
    CHECK(juicedelta_script_output_length(&shell, &count) == JUICEDELTA_CLOSED);
    CHECK(juicedelta_script_output(&shell, buffer, 4) == JUICEDELTA_CLOSED);
    CHECK(juicedelta_script_drop_output(&shell) == JUICEDELTA_CLOSED);
    CHECK(juicedelta_script_open(&shell, 4, 1, 2) == JUICEDELTA_BAD_CAPACITY);
    CHECK(juicedelta_script_open(&shell, 52, 1, 2) == JUICEDELTA_BAD_CAPACITY);
    CHECK(juicedelta_script_open(&shell, 256 + 5, 1, 2) == JUICEDELTA_BAD_CAPACITY);
    CHECK(juicedelta_script_open(&shell, 5, 1, 2) == JUICEDELTA_OK);
    CHECK(juicedelta_script_open(&shell, 5, 1, 2) == JUICEDELTA_ALREADY_OPEN);
    CHECK(juicedelta_script_exec(&shell, (const uint8_t *)"DROP TABLE t;", 13) == JUICEDELTA_OK);
    CHECK(juicedelta_script_output(&shell, buffer, 4) == JUICEDELTA_BUFFER_TOO_SMALL);
    CHECK(count == 77 && refused == 77);
    CHECK(juicedelta_script_finish(&shell, &refused) == JUICEDELTA_OK && refused == 1);
    CHECK(juicedelta_script_finish(&shell, &refused) == JUICEDELTA_ENDED);
    CHECK(juicedelta_script_exec(&shell, buffer, 0) == JUICEDELTA_ENDED);
    CHECK(juicedelta_tree_open(&tree, 2, 5, 1, 2) == JUICEDELTA_OK);
    CHECK(juicedelta_script_open(&tree, 5, 1, 2) == JUICEDELTA_ALREADY_OPEN);
    CHECK(juicedelta_script_exec(&tree, buffer, 0) == JUICEDELTA_OTHER_KIND);
    CHECK(juicedelta_script_finish(&tree, &refused) == JUICEDELTA_OTHER_KIND && refused == 1);
    CHECK(juicedelta_script_output_length(&tree, &count) == JUICEDELTA_OTHER_KIND && count == 77);
    CHECK(juicedelta_script_output(&tree, buffer, 4) == JUICEDELTA_OTHER_KIND);
    CHECK(juicedelta_script_drop_output(&tree) == JUICEDELTA_OTHER_KIND);
    CHECK(juicedelta_close(&tree) == JUICEDELTA_OK);
    CHECK(juicedelta_close(&shell) == JUICEDELTA_OK);
    CHECK(juicedelta_close(&shell) == JUICEDELTA_CLOSED);
}

/* ---- Trees ------------------------------------------------------------------------------------------------------- */

/* The words of each code, of numbers that are none, and in buffers of each length. */
static void words_of_codes(void)
{
    static const int32_t none[] = {INT32_MIN, -1, JUICEDELTA_BAD_BYTES + 1, 256, 65536, INT32_MAX};
    for (int32_t at = -(int32_t)(sizeof none / sizeof *none); at <= JUICEDELTA_BAD_BYTES; at++) {
        int32_t code = at < 0 ? none[-1 - at] : at;
        for (size_t length = 0; length < 80; length++) {
            uint8_t text[80], wanted[80];
            uint64_t total = 77, all = 77;
            memset(text, 0x5a, sizeof text);
            memset(wanted, 0x5a, sizeof wanted);
            int32_t answer = juicedelta_words(code, text, length, &total);
            CHECK(answer == plain_words(code, wanted, length, &all) && total == all && memcmp(text, wanted, sizeof text) == 0);
            CHECK(answer == (length < total ? JUICEDELTA_BUFFER_TOO_SMALL : JUICEDELTA_OK) && total >= 4);
        }
    }
}

/* What calls write; it is filled with 0x5a before. */
typedef struct outputs {
    uint64_t total, starts[2];
    int64_t ids[2], others[2];
    int32_t boxes[2 * BOX + 1];
    uint32_t axes;
    uint8_t text[4];
} outputs;

/* A box with min above max on each axis. */
static const int32_t upside[ROOM] = {8, 7, 6, 5, 4, 3, 2, 1};

/* Each call that reads a tree answers this code, whatever else is wrong with it, and writes nothing. */
static void refuse_reads(const juicedelta_handle *handle, int32_t code)
{
    outputs to;
    memset(&to, 0x5a, sizeof to);
    for (size_t length = 0; length <= ROOM; length++) {
        CHECK(juicedelta_tree_get(handle, 1, to.boxes, length) == code);
        CHECK(juicedelta_tree_count(handle, 3, upside, length, &to.total) == code);
        CHECK(juicedelta_tree_search(handle, 3, upside, length, to.ids, 2, &to.total) == code);
        CHECK(juicedelta_tree_search_rows(handle, 3, upside, length, to.ids, 2, to.boxes, length, &to.total) == code);
        CHECK(juicedelta_tree_nearest(handle, upside, length, to.ids, 2, to.boxes, length, &to.total) == code);
        CHECK(juicedelta_tree_bounds(handle, to.boxes, length) == code);
        CHECK(juicedelta_tree_rows(handle, 0, to.ids, 2, to.boxes, length, &to.total) == code);
        CHECK(juicedelta_tree_within(handle, upside, length, 9, to.ids, 2, to.boxes, length, &to.total) == code);
        CHECK(juicedelta_tree_nearest_to(handle, upside, length, to.ids, 2, to.boxes, length, &to.total) == code);
        CHECK(juicedelta_tree_count_many(handle, 3, upside, length, to.starts, 2) == code);
        CHECK(juicedelta_tree_search_many(handle, 3, upside, length, to.starts, 2, to.ids, 2, &to.total) == code);
        CHECK(juicedelta_tree_nearest_many(handle, upside, length, 1, to.starts, 2, to.ids, 2, &to.total) == code);
    }
    CHECK(juicedelta_tree_ids(handle, 0, to.ids, 2, &to.total) == code);
    CHECK(juicedelta_tree_join(handle, handle, to.ids, 2, to.others, 1, &to.total) == code);
    CHECK(juicedelta_tree_join_self(handle, to.ids, 2, to.others, 1, &to.total) == code);
    CHECK(juicedelta_tree_axes(handle, &to.axes) == code);
    CHECK(juicedelta_tree_len(handle, &to.total) == code);
    CHECK(juicedelta_tree_dump(handle, to.text, 4, &to.total) == code);
    CHECK(juicedelta_tree_to_bytes(handle, to.text, 4, &to.total) == code);
    CHECK(is_untouched(&to, 0, sizeof to));
}

/* And each call that changes a tree. */
static void refuse_writes(juicedelta_handle *handle, int32_t code)
{
    outputs to;
    memset(&to, 0x5a, sizeof to);
    for (size_t length = 0; length <= ROOM; length++) {
        CHECK(juicedelta_tree_insert(handle, 1, upside, length) == code);
        CHECK(juicedelta_tree_move(handle, 1, upside, length) == code);
        CHECK(juicedelta_tree_insert_rows(handle, to.ids, 2, upside, length, &to.total) == code);
    }
    CHECK(juicedelta_tree_remove(handle, 1) == code);
    CHECK(juicedelta_tree_clear(handle) == code);
    CHECK(is_untouched(&to, 0, sizeof to));
}

/* And each call of live windows. */
static void refuse_live(juicedelta_handle *handle, int32_t code)
{
    outputs to;
    memset(&to, 0x5a, sizeof to);
    for (size_t length = 0; length <= ROOM; length++) {
        CHECK(juicedelta_live_insert(handle, 1, upside, length, &to.total) == code);
        CHECK(juicedelta_live_move(handle, 1, upside, length, &to.total) == code);
        CHECK(juicedelta_live_watch(handle, 1, upside, length, &to.total) == code);
        CHECK(juicedelta_live_shift(handle, 1, upside, length, &to.total) == code);
        CHECK(juicedelta_live_windows(handle, 0, to.ids, 2, to.boxes, length, &to.total) == code);
    }
    CHECK(juicedelta_live_remove(handle, 1, &to.total) == code);
    CHECK(juicedelta_live_unwatch(handle, 1, &to.total) == code);
    CHECK(juicedelta_live_reserve(handle, UINT64_MAX, UINT64_MAX, UINT64_MAX) == code);
    CHECK(juicedelta_live_changes(handle, to.ids, 2, to.others, 1, to.text, 0, &to.total) == code);
    CHECK(juicedelta_live_rows(handle, 1, to.ids, 2, &to.total) == code);
    CHECK(is_untouched(&to, 0, sizeof to));
}

/* And each call of both. */
static void refuse_all(juicedelta_handle *handle, int32_t code)
{
    refuse_reads(handle, code);
    refuse_writes(handle, code);
    refuse_live(handle, code);
}

/* A tree of that many axes refuses each wrong length of a box and of a point, before it looks at the box or the id. */
static void refuse_lengths(juicedelta_handle *tree, size_t axes)
{
    outputs to;
    memset(&to, 0x5a, sizeof to);
    for (size_t length = 0; length <= ROOM; length++) {
        if (length != axes) {
            CHECK(juicedelta_tree_nearest(tree, upside, length, to.ids, 0, to.boxes, 0, &to.total) == JUICEDELTA_BAD_LENGTH);
            CHECK(juicedelta_tree_within(tree, upside, length, 9, to.ids, 0, to.boxes, 0, &to.total) == JUICEDELTA_BAD_LENGTH);
            CHECK(juicedelta_tree_nearest_many(tree, upside, length, 1, to.starts, 1, to.ids, 0, &to.total)
                == JUICEDELTA_BAD_LENGTH);
        }
        if (length == 2 * axes)
            continue;
        CHECK(juicedelta_tree_bounds(tree, to.boxes, length) == JUICEDELTA_BAD_LENGTH);
        CHECK(juicedelta_tree_nearest_to(tree, upside, length, to.ids, 0, to.boxes, 0, &to.total) == JUICEDELTA_BAD_LENGTH);
        CHECK(juicedelta_tree_insert_rows(tree, to.ids, 1, upside, length, &to.total) == JUICEDELTA_BAD_LENGTH);
        CHECK(juicedelta_tree_insert(tree, INT64_MIN, upside, length) == JUICEDELTA_BAD_LENGTH);
        CHECK(juicedelta_tree_move(tree, 5, upside, length) == JUICEDELTA_BAD_LENGTH);
        CHECK(juicedelta_tree_get(tree, 5, to.boxes, length) == JUICEDELTA_BAD_LENGTH);
        for (uint32_t relation = 0; relation < 4; relation++) {
            int32_t code = relation < 3 ? JUICEDELTA_BAD_LENGTH : JUICEDELTA_BAD_RELATION;
            CHECK(juicedelta_tree_count(tree, relation, upside, length, &to.total) == code);
            CHECK(juicedelta_tree_search(tree, relation, upside, length, to.ids, 0, &to.total) == code);
            CHECK(juicedelta_tree_search_rows(tree, relation, upside, length, to.ids, 0, to.boxes, 0, &to.total) == code);
            CHECK(juicedelta_tree_count_many(tree, relation, upside, length, to.starts, 1) == code);
            CHECK(juicedelta_tree_search_many(tree, relation, upside, length, to.starts, 1, to.ids, 0, &to.total) == code);
        }
    }
    CHECK(juicedelta_tree_join(tree, tree, to.ids, 2, to.others, 1, &to.total) == JUICEDELTA_BAD_LENGTH);
    CHECK(juicedelta_tree_join_self(tree, to.ids, 1, to.others, 2, &to.total) == JUICEDELTA_BAD_LENGTH);
    CHECK(is_untouched(&to, 0, sizeof to));
}

/* And each wrong length of a list of boxes. */
static void refuse_lists(const juicedelta_handle *tree, size_t axes)
{
    outputs to;
    memset(&to, 0x5a, sizeof to);
    for (size_t ids = 0; ids <= 2; ids++)
        for (size_t boxes = 0; boxes <= 2 * BOX + 1; boxes++) {
            if (boxes == 2 * axes * ids)
                continue;
            CHECK(juicedelta_tree_nearest(tree, upside, axes, to.ids, ids, to.boxes, boxes, &to.total) == JUICEDELTA_BAD_LENGTH);
            CHECK(juicedelta_tree_within(tree, upside, axes, 9, to.ids, ids, to.boxes, boxes, &to.total) == JUICEDELTA_BAD_LENGTH);
            CHECK(juicedelta_tree_nearest_to(tree, upside, 2 * axes, to.ids, ids, to.boxes, boxes, &to.total)
                == JUICEDELTA_BAD_LENGTH);
            CHECK(juicedelta_tree_rows(tree, 0, to.ids, ids, to.boxes, boxes, &to.total) == JUICEDELTA_BAD_LENGTH);
            for (uint32_t relation = 0; relation < 4; relation++)
                CHECK(juicedelta_tree_search_rows(tree, relation, upside, 2 * axes, to.ids, ids, to.boxes, boxes, &to.total)
                    == (relation < 3 ? JUICEDELTA_BAD_LENGTH : JUICEDELTA_BAD_RELATION));
        }
    CHECK(is_untouched(&to, 0, sizeof to));
}

/* The codes of a join with a handle that is closed, holds no tree, or holds one with other axes. */
static void refuse_joins(const juicedelta_handle *tree, const juicedelta_handle *shell, uint32_t axes)
{
    const juicedelta_handle closed = {0};
    juicedelta_handle other = {0};
    outputs to;
    memset(&to, 0x5a, sizeof to);
    CHECK(juicedelta_tree_open(&other, axes % 3 + 1, 51, 1, 2) == JUICEDELTA_OK);
    const struct {
        const juicedelta_handle *one, *other;
        int32_t code;
    } all[] = {
        {tree, &closed, JUICEDELTA_CLOSED}, {&closed, tree, JUICEDELTA_CLOSED}, {shell, &closed, JUICEDELTA_CLOSED},
        {&closed, shell, JUICEDELTA_CLOSED}, {tree, shell, JUICEDELTA_OTHER_KIND}, {shell, tree, JUICEDELTA_OTHER_KIND},
        {&other, tree, JUICEDELTA_BAD_AXES}, {tree, &other, JUICEDELTA_BAD_AXES},
    };
    for (size_t at = 0; at < sizeof all / sizeof *all; at++)
        CHECK(juicedelta_tree_join(all[at].one, all[at].other, to.ids, 2, to.others, 1, &to.total) == all[at].code);
    CHECK(is_untouched(&to, 0, sizeof to));
    CHECK(juicedelta_close(&other) == JUICEDELTA_OK);
}

/* Rows that are refused, the first bad box before the first taken id. The tree has a row with the least id. */
static void refuse_rows(juicedelta_handle *tree, size_t axes)
{
    int64_t ids[] = {7, INT64_MIN, 7};
    int32_t boxes[3 * BOX] = {0};
    uint64_t at = 77, rows = 77;
    boxes[4 * axes] = 1;
    CHECK(juicedelta_tree_insert_rows(tree, ids, 3, boxes, 6 * axes, &at) == JUICEDELTA_BAD_BOX && at == 2);
    boxes[4 * axes] = 0;
    CHECK(juicedelta_tree_insert_rows(tree, ids, 3, boxes, 6 * axes, &at) == JUICEDELTA_ID_TAKEN && at == 1);
    ids[1] = 8;
    CHECK(juicedelta_tree_insert_rows(tree, ids, 3, boxes, 6 * axes, &at) == JUICEDELTA_ID_TAKEN && at == 2);
    CHECK(juicedelta_tree_len(tree, &rows) == JUICEDELTA_OK && rows == 1);
}

/* The codes of the calls that open; the handle stays closed. */
static void open_codes(void)
{
    static const uint32_t axes[] = {0, 4, 256 + 2, UINT32_MAX}, capacities[] = {0, 4, 52, 256 + 51, UINT32_MAX};
    juicedelta_handle tree = {0};
    const uint8_t *text = (const uint8_t *)"rtree 2 5 1 1 0\n";
    /* Of two boxes with two axes the second is bad; three boxes with one axis are good. */
    static const int32_t second[] = {1, 1, 2, 2, 0, 7, 9, 6};
    static const int64_t ids[] = {4, 3, 4};
    uint64_t place = 77;
    for (size_t at = 0; at < sizeof axes / sizeof *axes; at++) {
        CHECK(juicedelta_tree_open(&tree, axes[at], 52, 1, 2) == JUICEDELTA_BAD_AXES);
        CHECK(juicedelta_tree_open_dump(&tree, axes[at], text, 16, 1, 2) == JUICEDELTA_BAD_AXES);
        CHECK(juicedelta_tree_open_bytes(&tree, axes[at], text, 16, 1, 2) == JUICEDELTA_BAD_AXES);
        CHECK(juicedelta_tree_open_rows(&tree, axes[at], 52, ids, 2, upside, 3, 1, 2, &place) == JUICEDELTA_BAD_AXES);
        CHECK(juicedelta_live_open(&tree, axes[at], 52, 1, 2) == JUICEDELTA_BAD_AXES);
    }
    for (size_t at = 0; at < sizeof capacities / sizeof *capacities; at++) {
        CHECK(juicedelta_tree_open(&tree, 2, capacities[at], 1, 2) == JUICEDELTA_BAD_CAPACITY);
        CHECK(juicedelta_tree_open_rows(&tree, 2, capacities[at], ids, 2, upside, 3, 1, 2, &place) == JUICEDELTA_BAD_CAPACITY);
        CHECK(juicedelta_live_open(&tree, 2, capacities[at], 1, 2) == JUICEDELTA_BAD_CAPACITY);
    }
    for (size_t length = 0; length < 8; length++)
        CHECK(juicedelta_tree_open_rows(&tree, 2, 5, ids, 2, upside, length, 1, 2, &place) == JUICEDELTA_BAD_LENGTH);
    CHECK(place == 77);
    CHECK(juicedelta_tree_open_rows(&tree, 2, 5, ids, 2, upside, 8, 1, 2, &place) == JUICEDELTA_BAD_BOX && place == 0);
    CHECK(juicedelta_tree_open_rows(&tree, 2, 5, ids, 2, second, 8, 1, 2, &place) == JUICEDELTA_BAD_BOX && place == 1);
    CHECK(juicedelta_tree_open_rows(&tree, 1, 5, ids, 3, second, 6, 1, 2, &place) == JUICEDELTA_ID_TAKEN && place == 2);
    CHECK(juicedelta_tree_open_dump(&tree, 2, text, 16, 1, 2) == JUICEDELTA_BAD_DUMP);
    CHECK(juicedelta_tree_open_dump(&tree, 2, text, 0, 1, 2) == JUICEDELTA_BAD_DUMP);
    CHECK(juicedelta_tree_open_bytes(&tree, 2, text, 16, 1, 2) == JUICEDELTA_BAD_BYTES);
    CHECK(juicedelta_tree_open_bytes(&tree, 2, text, 0, 1, 2) == JUICEDELTA_BAD_BYTES);
    refuse_all(&tree, JUICEDELTA_CLOSED);
    CHECK(juicedelta_close(&tree) == JUICEDELTA_CLOSED);
}

/* The codes of a tree with that many axes, with nothing changed. */
static void tree_codes(uint32_t axes)
{
    juicedelta_handle tree = {0}, shell = {0};
    size_t width = 2 * axes;
    int32_t box[BOX], got[BOX];
    uint32_t told = 77;
    outputs to;
    for (uint32_t axis = 0; axis < axes; axis++)
        box[axis] = INT32_MIN + (int32_t)axis, box[axes + axis] = INT32_MAX - (int32_t)axis;
    memset(&to, 0x5a, sizeof to);
    CHECK(juicedelta_tree_open(&tree, axes, 51, 1, 2) == JUICEDELTA_OK);
    CHECK(juicedelta_tree_axes(&tree, &told) == JUICEDELTA_OK && told == axes);
    CHECK(juicedelta_tree_open(&tree, 4, 52, 1, 2) == JUICEDELTA_ALREADY_OPEN);
    CHECK(juicedelta_tree_open_dump(&tree, 4, to.text, 0, 1, 2) == JUICEDELTA_ALREADY_OPEN);
    CHECK(juicedelta_tree_open_bytes(&tree, 4, to.text, 0, 1, 2) == JUICEDELTA_ALREADY_OPEN);
    CHECK(juicedelta_tree_open_rows(&tree, 4, 52, to.ids, 2, upside, 3, 1, 2, &to.total) == JUICEDELTA_ALREADY_OPEN);
    CHECK(juicedelta_live_open(&tree, 4, 52, 1, 2) == JUICEDELTA_ALREADY_OPEN);
    refuse_live(&tree, JUICEDELTA_OTHER_KIND);
    CHECK(juicedelta_tree_bounds(&tree, to.boxes, width) == JUICEDELTA_EMPTY);
    CHECK(juicedelta_tree_insert(&tree, INT64_MIN, box, width) == JUICEDELTA_OK);
    CHECK(juicedelta_tree_insert(&tree, INT64_MIN, box, width) == JUICEDELTA_ID_TAKEN);
    CHECK(juicedelta_tree_insert(&tree, 5, upside, width) == JUICEDELTA_BAD_BOX);
    CHECK(juicedelta_tree_insert(&tree, INT64_MIN, upside, width) == JUICEDELTA_BAD_BOX);
    CHECK(juicedelta_tree_move(&tree, INT64_MIN, upside, width) == JUICEDELTA_BAD_BOX);
    CHECK(juicedelta_tree_move(&tree, 5, upside, width) == JUICEDELTA_BAD_BOX);
    CHECK(juicedelta_tree_move(&tree, 5, box, width) == JUICEDELTA_ID_MISSING);
    CHECK(juicedelta_tree_remove(&tree, 5) == JUICEDELTA_ID_MISSING);
    CHECK(juicedelta_tree_get(&tree, 5, to.boxes, width) == JUICEDELTA_ID_MISSING);
    CHECK(juicedelta_tree_nearest_to(&tree, upside, width, to.ids, 0, to.boxes, 0, &to.total) == JUICEDELTA_BAD_BOX);
    refuse_lengths(&tree, axes);
    refuse_lists(&tree, axes);
    CHECK(juicedelta_script_open(&shell, 51, 1, 2) == JUICEDELTA_OK);
    CHECK(juicedelta_tree_open(&shell, axes, 51, 1, 2) == JUICEDELTA_ALREADY_OPEN);
    refuse_all(&shell, JUICEDELTA_OTHER_KIND);
    refuse_joins(&tree, &shell, axes);
    CHECK(juicedelta_close(&shell) == JUICEDELTA_OK);
    refuse_rows(&tree, axes);
    CHECK(is_untouched(&to, 0, sizeof to));
    CHECK(juicedelta_tree_search(&tree, 0, box, width, to.ids, 0, &to.total) == JUICEDELTA_BUFFER_TOO_SMALL && to.total == 1);
    CHECK(juicedelta_tree_search_rows(&tree, 0, box, width, to.ids, 0, to.boxes, 0, &to.total) == JUICEDELTA_BUFFER_TOO_SMALL);
    CHECK(juicedelta_tree_dump(&tree, to.text, 4, &to.total) == JUICEDELTA_BUFFER_TOO_SMALL && to.total > 4);
    /* Six bytes of the head, two of the node, eight of the id, and four of each number. */
    CHECK(juicedelta_tree_to_bytes(&tree, to.text, 4, &to.total) == JUICEDELTA_BUFFER_TOO_SMALL && to.total == 16 + 4 * width);
    CHECK(juicedelta_tree_search_many(&tree, 0, box, width, to.starts, 1, to.ids, 0, &to.total) == JUICEDELTA_BUFFER_TOO_SMALL);
    CHECK(juicedelta_tree_nearest_many(&tree, box, axes, 9, to.starts, 1, to.ids, 0, &to.total) == JUICEDELTA_BUFFER_TOO_SMALL);
    CHECK(juicedelta_tree_join(&tree, &tree, to.ids, 0, to.others, 0, &to.total) == JUICEDELTA_BUFFER_TOO_SMALL && to.total == 1);
    CHECK(is_untouched(&to, sizeof to.total, sizeof to));
    CHECK(juicedelta_tree_len(&tree, &to.total) == JUICEDELTA_OK && to.total == 1);
    CHECK(juicedelta_tree_search(&tree, 0, box, width, to.ids, 2, &to.total) == JUICEDELTA_OK && to.ids[0] == INT64_MIN);
    CHECK(juicedelta_tree_get(&tree, INT64_MIN, got, width) == JUICEDELTA_OK && memcmp(got, box, width * sizeof *box) == 0);
    CHECK(juicedelta_close(&tree) == JUICEDELTA_OK);
    refuse_all(&tree, JUICEDELTA_CLOSED);
}

/* ---- Live windows ------------------------------------------------------------------------------------------------ */

/* Live windows of that many axes refuse each wrong length of a box, before they look at the box or the id, and of lists. */
static void refuse_live_lengths(juicedelta_handle *live, size_t axes)
{
    outputs to;
    memset(&to, 0x5a, sizeof to);
    for (size_t length = 0; length <= ROOM; length++) {
        if (length == 2 * axes)
            continue;
        CHECK(juicedelta_live_insert(live, 7, upside, length, &to.total) == JUICEDELTA_BAD_LENGTH);
        CHECK(juicedelta_live_move(live, 5, upside, length, &to.total) == JUICEDELTA_BAD_LENGTH);
        CHECK(juicedelta_live_watch(live, 9, upside, length, &to.total) == JUICEDELTA_BAD_LENGTH);
        CHECK(juicedelta_live_shift(live, 5, upside, length, &to.total) == JUICEDELTA_BAD_LENGTH);
        CHECK(juicedelta_live_windows(live, 0, to.ids, 1, to.boxes, length, &to.total) == JUICEDELTA_BAD_LENGTH);
    }
    CHECK(juicedelta_live_changes(live, to.ids, 1, to.others, 0, to.text, 0, &to.total) == JUICEDELTA_BAD_LENGTH);
    CHECK(juicedelta_live_changes(live, to.ids, 0, to.others, 1, to.text, 0, &to.total) == JUICEDELTA_BAD_LENGTH);
    CHECK(juicedelta_live_changes(live, to.ids, 0, to.others, 0, to.text, 1, &to.total) == JUICEDELTA_BAD_LENGTH);
    CHECK(juicedelta_live_changes(live, to.ids, 1, to.others, 1, to.text, 2, &to.total) == JUICEDELTA_BAD_LENGTH);
    CHECK(is_untouched(&to, 0, sizeof to));
}

/* Each code of live windows but TREE_FULL. Row 7 and window 9 have all there is. */
static void live_codes(uint32_t axes)
{
    juicedelta_handle live = {0}, shell = {0};
    size_t width = 2 * axes;
    int32_t box[BOX];
    outputs to;
    for (uint32_t axis = 0; axis < axes; axis++)
        box[axis] = INT32_MIN, box[axes + axis] = INT32_MAX;
    CHECK(juicedelta_live_open(&live, axes, 51, 1, 2) == JUICEDELTA_OK);
    CHECK(juicedelta_live_open(&live, 4, 52, 1, 2) == JUICEDELTA_ALREADY_OPEN);
    CHECK(juicedelta_tree_open(&live, 4, 52, 1, 2) == JUICEDELTA_ALREADY_OPEN);
    CHECK(juicedelta_script_open(&live, 52, 1, 2) == JUICEDELTA_ALREADY_OPEN);
    CHECK(juicedelta_script_open(&shell, 51, 1, 2) == JUICEDELTA_OK);
    CHECK(juicedelta_live_open(&shell, axes, 51, 1, 2) == JUICEDELTA_ALREADY_OPEN);
    CHECK(juicedelta_script_exec(&live, to.text, 0) == JUICEDELTA_OTHER_KIND);
    CHECK(juicedelta_close(&shell) == JUICEDELTA_OK);
    refuse_writes(&live, JUICEDELTA_OTHER_KIND);
    CHECK(juicedelta_live_insert(&live, 7, box, width, &to.total) == JUICEDELTA_OK && to.total == 0);
    CHECK(juicedelta_live_watch(&live, 9, box, width, &to.total) == JUICEDELTA_OK && to.total == 1);
    memset(&to, 0x5a, sizeof to);
    refuse_live_lengths(&live, axes);
    CHECK(juicedelta_live_insert(&live, 7, upside, width, &to.total) == JUICEDELTA_BAD_BOX);
    CHECK(juicedelta_live_insert(&live, 7, box, width, &to.total) == JUICEDELTA_ID_TAKEN);
    CHECK(juicedelta_live_move(&live, 9, upside, width, &to.total) == JUICEDELTA_BAD_BOX);
    CHECK(juicedelta_live_move(&live, 9, box, width, &to.total) == JUICEDELTA_ID_MISSING);
    CHECK(juicedelta_live_remove(&live, 9, &to.total) == JUICEDELTA_ID_MISSING);
    CHECK(juicedelta_live_watch(&live, 9, upside, width, &to.total) == JUICEDELTA_BAD_BOX);
    CHECK(juicedelta_live_watch(&live, 9, box, width, &to.total) == JUICEDELTA_ID_TAKEN);
    CHECK(juicedelta_live_shift(&live, 7, upside, width, &to.total) == JUICEDELTA_BAD_BOX);
    CHECK(juicedelta_live_shift(&live, 7, box, width, &to.total) == JUICEDELTA_ID_MISSING);
    CHECK(juicedelta_live_unwatch(&live, 7, &to.total) == JUICEDELTA_ID_MISSING);
    CHECK(juicedelta_live_rows(&live, 7, to.ids, 2, &to.total) == JUICEDELTA_ID_MISSING);
    CHECK(is_untouched(&to, 0, sizeof to));
    CHECK(juicedelta_live_rows(&live, 9, to.ids, 0, &to.total) == JUICEDELTA_BUFFER_TOO_SMALL && to.total == 1);
    to.total = 77;
    CHECK(juicedelta_live_changes(&live, to.ids, 0, to.others, 0, to.text, 0, &to.total) == JUICEDELTA_BUFFER_TOO_SMALL);
    CHECK(to.total == 1 && is_untouched(&to, sizeof to.total, sizeof to));
    CHECK(juicedelta_live_changes(&live, to.ids, 2, to.others, 2, to.text, 2, &to.total) == JUICEDELTA_OK && to.total == 1);
    CHECK(to.ids[0] == 9 && to.others[0] == 7 && to.text[0] == JUICEDELTA_CAME && to.text[1] == 0x5a);
    CHECK(juicedelta_close(&live) == JUICEDELTA_OK);
    refuse_all(&live, JUICEDELTA_CLOSED);
}

/* The last edit told that many changes, and these, as `3-7` for `row 7 left window 3`, `+` came and `=` moved. */
static void told(const juicedelta_handle *live, uint64_t count, const char *wanted)
{
    int64_t windows[8], ids[8];
    uint8_t kinds[8];
    char text[100] = "";
    uint64_t total = 77;
    CHECK(juicedelta_live_changes(live, windows, 8, ids, 8, kinds, 8, &total) == JUICEDELTA_OK && total == count);
    for (size_t at = 0, end = 0; at < total; at++)
        end += (size_t)sprintf(text + end, " %d%c%d", (int)windows[at], "-+="[kinds[at]], (int)ids[at]);
    CHECK(strcmp(text, wanted) == 0);
}

/* What edits tell, counted by hand: windows 1 from 0 to 9, 2 from 10 to 19 and -3 from 5 to 14. */
static void live_by_hand(void)
{
    static const int32_t views[][2] = {{0, 9}, {10, 19}, {5, 14}, {9, 10}, {4, 9}, {4, 12}, {20, 30}, {12, 14}};
    juicedelta_handle live = {0};
    uint64_t count = 77;
#define TOLD(call, words)                                                                                              \
    do {                                                                                                               \
        CHECK((call) == JUICEDELTA_OK);                                                                                \
        told(&live, count, words);                                                                                     \
    } while (0)
    CHECK(juicedelta_live_open(&live, 1, 5, 1, 2) == JUICEDELTA_OK);
    TOLD(juicedelta_live_watch(&live, 1, views[0], 2, &count), "");
    TOLD(juicedelta_live_watch(&live, 2, views[1], 2, &count), "");
    TOLD(juicedelta_live_watch(&live, -3, views[2], 2, &count), "");
    /* A row on an edge is seen. */
    TOLD(juicedelta_live_insert(&live, 7, views[3], 2, &count), " -3+7 1+7 2+7");
    TOLD(juicedelta_live_insert(&live, -8, views[4], 2, &count), " -3+-8 1+-8");
    TOLD(juicedelta_live_move(&live, 7, views[4], 2, &count), " -3=7 1=7 2-7");
    TOLD(juicedelta_live_move(&live, 7, views[4], 2, &count), "");
    TOLD(juicedelta_live_move(&live, 7, views[6], 2, &count), " -3-7 1-7");
    CHECK(juicedelta_live_move(&live, 9, views[4], 2, &count) == JUICEDELTA_ID_MISSING);
    told(&live, 2, " -3-7 1-7");
    TOLD(juicedelta_live_move(&live, 7, views[5], 2, &count), " -3+7 1+7 2+7");
    TOLD(juicedelta_live_shift(&live, 2, views[0], 2, &count), " 2+-8");
    TOLD(juicedelta_live_shift(&live, 2, views[0], 2, &count), "");
    TOLD(juicedelta_live_shift(&live, 2, views[7], 2, &count), " 2--8");
    TOLD(juicedelta_live_shift(&live, 2, views[6], 2, &count), " 2-7");
    TOLD(juicedelta_live_shift(&live, 2, views[2], 2, &count), " 2+-8 2+7");
    TOLD(juicedelta_live_remove(&live, 7, &count), " -3-7 1-7 2-7");
    TOLD(juicedelta_live_unwatch(&live, -3, &count), " -3--8");
    TOLD(juicedelta_live_insert(&live, 7, views[2], 2, &count), " 1+7 2+7");
    TOLD(juicedelta_live_watch(&live, 4, views[0], 2, &count), " 4+-8 4+7");
#undef TOLD
    CHECK(juicedelta_close(&live) == JUICEDELTA_OK);
}

/* An edit that stays within what was reserved asks for no memory. */
#define RESERVED(pair, edit)                                                                                           \
    do {                                                                                                               \
        CHECK(juicedelta_live_reserve(&(pair).tree, 1, 1, IDS) == JUICEDELTA_OK);                                      \
        arm(1);                                                                                                        \
        CHECK((edit) == JUICEDELTA_OK && !disarm());                                                                   \
    } while (0)

static void reserved(uint32_t axes)
{
    enum { WINDOWS = 20, MOVES = 1000 };
    source from = {NULL, 0, 88172645463325252u};
    pair pair;
    int32_t box[ROOM];
    size_t width = 2 * axes;
    uint64_t count;
    live_open(&pair, axes, 5);
    for (int64_t id = 0; id < IDS; id++) {
        a_box(&from, &pair, 60, 0, box);
        RESERVED(pair, juicedelta_live_insert(&pair.tree, id, box, width, &count));
    }
    for (int64_t window = 0; window < WINDOWS; window++) {
        a_box(&from, &pair, 1000, 0, box);
        RESERVED(pair, juicedelta_live_watch(&pair.tree, window, box, width, &count));
    }
    for (int move = 0; move < MOVES; move++) {
        int64_t id = below(&from, IDS), window = below(&from, WINDOWS);
        a_box(&from, &pair, 1000, 0, box);
        RESERVED(pair, juicedelta_live_shift(&pair.tree, window, box, width, &count));
        RESERVED(pair, juicedelta_live_move(&pair.tree, id, box, width, &count));
        RESERVED(pair, juicedelta_live_remove(&pair.tree, id, &count));
        RESERVED(pair, juicedelta_live_insert(&pair.tree, id, box, width, &count));
        RESERVED(pair, juicedelta_live_unwatch(&pair.tree, window, &count));
        RESERVED(pair, juicedelta_live_watch(&pair.tree, window, box, width, &count));
    }
    CHECK(juicedelta_close(&pair.tree) == JUICEDELTA_OK && plain_close(&pair.list) == JUICEDELTA_OK);
}

/* ---- Dumps and bytes --------------------------------------------------------------------------------------------- */

/* A dump whose leaves stand before the root, as no tree writes them, and the dump of its rows packed. */
static void other_order(void)
{
    static const char leaves_first[] =
        "rtree 1 5 3 3 6\nnode 1 0 3 3\ncell 1 0 0\ncell 2 1 1\ncell 3 2 2\nnode 2 0 3 3\ncell 4 10 10\ncell 5 11 11\n"
        "cell 6 12 12\nnode 3 1 - 2\ncell 1 0 2\ncell 2 10 12\nrow 1 1\nrow 2 1\nrow 3 1\nrow 4 2\nrow 5 2\nrow 6 2\nend\n";
    static const char packed[] =
        "rtree 1 5 1 3 6\nnode 1 1 - 2\ncell 2 0 10\ncell 3 11 12\nnode 2 0 1 4\ncell 1 0 0\ncell 2 1 1\ncell 3 2 2\n"
        "cell 4 10 10\nnode 3 0 1 2\ncell 5 11 11\ncell 6 12 12\nrow 1 2\nrow 2 2\nrow 3 2\nrow 4 2\nrow 5 3\nrow 6 3\nend\n";
    juicedelta_handle tree = {0};
    const uint8_t *text = (const uint8_t *)leaves_first;
    CHECK(juicedelta_tree_open_dump(&tree, 1, text, sizeof leaves_first - 1, 1, 2) == JUICEDELTA_OK);
    writes(juicedelta_tree_dump, &tree, (const uint8_t *)packed, sizeof packed - 1);
    CHECK(juicedelta_close(&tree) == JUICEDELTA_OK);
}

/* A tree of two axes with a row, as bytes that were written by hand. Each other value of each of the first eight bytes makes no
 * tree, but that of the capacity. */
static void bytes_by_hand(void)
{
    static const uint8_t hand[] = {'J', 'D', 'T', 1, 2, 5, 0, 1, 0xff, 0xff, 0xff, 0xff, 0xff, 0xff, 0xff, 0xf9, 0xff, 0xff, 0xff,
        0xfe, 0, 0, 0, 3, 0, 0, 1, 4, 0, 1, 0, 5};
    static const int32_t wanted[] = {-2, 3, 260, 65541};
    juicedelta_handle tree = {0};
    uint8_t bytes[sizeof hand], text[8];
    int32_t box[4];
    uint64_t total = 77;
    CHECK(juicedelta_tree_open_bytes(&tree, 2, hand, sizeof hand, 1, 2) == JUICEDELTA_OK);
    CHECK(juicedelta_tree_len(&tree, &total) == JUICEDELTA_OK && total == 1);
    CHECK(juicedelta_tree_get(&tree, -7, box, 4) == JUICEDELTA_OK && memcmp(box, wanted, sizeof box) == 0);
    writes(juicedelta_tree_to_bytes, &tree, hand, sizeof hand);
    CHECK(juicedelta_tree_remove(&tree, -7) == JUICEDELTA_OK);
    CHECK(juicedelta_tree_to_bytes(&tree, text, sizeof text, &total) == JUICEDELTA_OK && total == 8);
    CHECK(memcmp(text, hand, 7) == 0 && text[7] == 0);
    CHECK(juicedelta_close(&tree) == JUICEDELTA_OK);
    for (size_t at = 0; at < 8; at++)
        for (int value = 0; value < 256; value++) {
            memcpy(bytes, hand, sizeof hand);
            bytes[at] = (uint8_t)value;
            int is_tree = value == hand[at] || (at == 5 && value >= 5 && value <= 51);
            CHECK(juicedelta_tree_open_bytes(&tree, 2, bytes, sizeof bytes, 1, 2)
                == (is_tree ? JUICEDELTA_OK : JUICEDELTA_BAD_BYTES));
            CHECK(juicedelta_close(&tree) == (is_tree ? JUICEDELTA_OK : JUICEDELTA_CLOSED));
        }
}

/* The window finds the only row by these relations. */
static void found(const juicedelta_handle *tree, uint32_t axes, const int32_t *window, const int *relations)
{
    for (uint32_t relation = 0; relation < 3; relation++) {
        uint64_t total = 77;
        CHECK(juicedelta_tree_count(tree, relation, window, 2 * axes, &total) == JUICEDELTA_OK);
        CHECK(total == (uint64_t)relations[relation]);
    }
}

/* What touches, is within and holds a row from 0 to 10 on each axis. */
static void relations(uint32_t axes)
{
    static const struct {
        int32_t min, max;
        int relations[3];
    } windows[] = {
        {0, 10, {1, 1, 1}}, {-1, 11, {1, 1, 0}}, {INT32_MIN, INT32_MAX, {1, 1, 0}}, {0, 9, {1, 0, 1}}, {1, 10, {1, 0, 1}},
        {4, 4, {1, 0, 1}}, {10, 20, {1, 0, 0}}, {-5, 0, {1, 0, 0}}, {11, 20, {0, 0, 0}}, {-5, -1, {0, 0, 0}},
        /* Windows without a point. */
        {4, 3, {0, 0, 1}}, {10, 0, {0, 0, 1}}, {20, 15, {0, 0, 1}}, {INT32_MAX, INT32_MIN, {0, 0, 1}},
    };
    juicedelta_handle tree = {0};
    int32_t box[BOX] = {0}, window[BOX];
    for (uint32_t axis = 0; axis < axes; axis++)
        box[axes + axis] = 10;
    CHECK(juicedelta_tree_open(&tree, axes, 5, 1, 2) == JUICEDELTA_OK);
    CHECK(juicedelta_tree_insert(&tree, 1, box, 2 * axes) == JUICEDELTA_OK);
    for (size_t at = 0; at < sizeof windows / sizeof *windows; at++) {
        for (uint32_t axis = 0; axis < axes; axis++)
            window[axis] = windows[at].min, window[axes + axis] = windows[at].max;
        found(&tree, axes, window, windows[at].relations);
    }
    /* One axis is enough for a window to have no point, or to miss the row. */
    for (uint32_t axis = 0; axis < axes; axis++) {
        memcpy(window, box, sizeof box);
        window[axis] = 7, window[axes + axis] = 6;
        found(&tree, axes, window, (const int[]){0, 0, 1});
        window[axis] = 11, window[axes + axis] = 12;
        found(&tree, axes, window, (const int[]){0, 0, 0});
        window[axis] = 5, window[axes + axis] = 12;
        found(&tree, axes, window, (const int[]){1, 0, 0});
    }
    CHECK(juicedelta_close(&tree) == JUICEDELTA_OK);
}

/* Handles that are opened and closed over and over. */
static void again(int times)
{
    static const char script[] = "CREATE VIRTUAL TABLE t USING rtree_i32(id, a, b);";
    static const int32_t box[] = {0, 0, 1, 1};
    for (int turn = 0; turn < times; turn++) {
        juicedelta_handle tree = {0}, live = {0}, shell = {0};
        uint64_t keys[2], count;
        CHECK(juicedelta_random_keys(keys) == 0);
        CHECK(juicedelta_tree_open(&tree, 2, 5, keys[0], keys[1]) == JUICEDELTA_OK);
        CHECK(juicedelta_live_open(&live, 2, 5, keys[0], keys[1]) == JUICEDELTA_OK);
        CHECK(juicedelta_script_open(&shell, 5, keys[0], keys[1]) == JUICEDELTA_OK);
        for (int id = 0; id < 12; id++) {
            CHECK(juicedelta_tree_insert(&tree, id, box, 4) == JUICEDELTA_OK);
            CHECK(juicedelta_live_insert(&live, id, box, 4, &count) == JUICEDELTA_OK && count == (uint64_t)id);
            CHECK(juicedelta_live_watch(&live, id, box, 4, &count) == JUICEDELTA_OK && count == (uint64_t)id + 1);
        }
        CHECK(juicedelta_script_exec(&shell, (const uint8_t *)script, sizeof script - 1) == JUICEDELTA_OK);
        CHECK(juicedelta_close(&shell) == JUICEDELTA_OK);
        CHECK(juicedelta_close(&live) == JUICEDELTA_OK);
        CHECK(juicedelta_close(&tree) == JUICEDELTA_OK);
    }
}

/* Random calls of two trees by turns, each beside its own list. */
static void random_calls(uint32_t axes, uint32_t capacity, int calls)
{
    source from = {NULL, 0, 88172645463325252u};
    pair pairs[2];
    pair_open(&pairs[0], axes, capacity);
    pair_open(&pairs[1], axes, capacity);
    for (int call = 0; call < calls; call++)
        pair_step(&from, &pairs[below(&from, 2)]);
    for (int place = 0; place < 2; place++) {
        pair_same(&pairs[place]);
        pair_close(&pairs[place]);
    }
}

static void all_random(int calls)
{
    for (uint32_t axes = 1; axes <= 3; axes++) {
        random_calls(axes, 5, calls);
        random_calls(axes, 51, calls);
    }
}

/* That many random edits on each number of axes, and reads between them: few windows and many, at two capacities. */
static void all_live(long edits)
{
    static const uint32_t windows[] = {3, 40, IDS};
    for (uint32_t axes = 1; axes <= 3; axes++)
        for (uint32_t run = 0; run < 6; run++) {
            source from = {NULL, 0, 88172645463325252u + run};
            pair pair;
            live_open(&pair, axes, run % 2 == 0 ? 5 : 51);
            for (long edit = edits * run / 6; edit < edits * (run + 1) / 6;)
                edit += live_step(&from, &pair, windows[run / 2]);
            pair_same(&pair);
            pair_close(&pair);
        }
}

/* A script in which the nth allocation is refused, for each n: the answers are OK, or OUT_OF_MEMORY from some call on. */
static void refused_script(void)
{
    static const char script[] =
        "CREATE VIRTUAL TABLE t USING rtree_i32(id, a, b, +c); .watch v FROM t WHERE a <= 9\n"
        "INSERT INTO t VALUES (1, 2, 3, 'x'), (2, 3, 4, 'y'), (3, 4, 5, NULL), (4, 5, 6, 7), (5, 6, 7, X'00'), (6, 7, 8, 8);"
        "UPDATE t SET a = a - 1, c = 'a longer text than a short one'; SELECT * FROM t WHERE b >= 5; .nodes t\nDELETE FROM t;";
    int hit = 1;
    for (long allocation = 1; hit; allocation++) {
        juicedelta_handle shell = {0};
        long before = blocks;
        uint64_t length = 0;
        uint32_t refused;
        arm(allocation);
        int32_t code = juicedelta_script_open(&shell, 5, 1, 2);
        if (code == JUICEDELTA_OK) {
            int32_t fed = juicedelta_script_exec(&shell, (const uint8_t *)script, sizeof script - 1);
            int32_t end = juicedelta_script_finish(&shell, &refused);
            hit = disarm();
            CHECK(fed == JUICEDELTA_OK || fed == JUICEDELTA_OUT_OF_MEMORY);
            CHECK(end == JUICEDELTA_OK || end == JUICEDELTA_OUT_OF_MEMORY);
            CHECK(fed == JUICEDELTA_OK || end == fed);
            CHECK(hit || (code == JUICEDELTA_OK && fed == JUICEDELTA_OK && end == JUICEDELTA_OK && refused == 0));
            CHECK(juicedelta_script_output_length(&shell, &length) == JUICEDELTA_OK && (hit || length > 400));
            CHECK(juicedelta_close(&shell) == JUICEDELTA_OK);
        } else {
            CHECK(disarm() && code == JUICEDELTA_OUT_OF_MEMORY && juicedelta_close(&shell) == JUICEDELTA_CLOSED);
        }
        CHECK(blocks == before);
    }
}

/* How many rows a window of a tree with two axes finds. */
static uint64_t count_of(const juicedelta_handle *tree, uint32_t relation, int32_t west, int32_t south, int32_t east,
                         int32_t north)
{
    const int32_t window[] = {west, south, east, north};
    uint64_t total = 77;
    CHECK(juicedelta_tree_count(tree, relation, window, 4, &total) == JUICEDELTA_OK);
    return total;
}

/* That many rows come, a fifth of them move, they are found, and half of them go. */
static void many(int32_t rows)
{
    juicedelta_handle tree = {0};
    int32_t got[4];
    CHECK(juicedelta_tree_open(&tree, 2, 51, 1, 2) == JUICEDELTA_OK);
    for (int32_t row = 0; row < rows; row++) {
        int32_t west = row % 1024 * 10, south = row / 1024 * 10;
        const int32_t own[] = {west, south, west + 9, south + 9};
        CHECK(juicedelta_tree_insert(&tree, row, own, 4) == JUICEDELTA_OK);
    }
    for (int32_t row = 0; row < rows; row += 5) {
        int32_t west = row % 1024 * 10, south = row / 1024 * 10 + 1;
        const int32_t own[] = {west, south, west + 9, south + 9};
        CHECK(juicedelta_tree_move(&tree, row, own, 4) == JUICEDELTA_OK);
        CHECK(juicedelta_tree_get(&tree, row, got, 4) == JUICEDELTA_OK && memcmp(got, own, sizeof own) == 0);
    }
    CHECK(juicedelta_tree_insert(&tree, -1, (const int32_t[]){0, 0, 9, 9}, 4) == JUICEDELTA_OK);
    CHECK(count_of(&tree, JUICEDELTA_TOUCHES, INT32_MIN, INT32_MIN, INT32_MAX, INT32_MAX) == (uint64_t)rows + 1);
    /* Rows 2 to 5 and 1026 to 1029 lie within the first, and row 2 alone holds the second. */
    CHECK(count_of(&tree, JUICEDELTA_WITHIN, 11, 0, 65, 19) == 4 + 4);
    CHECK(count_of(&tree, JUICEDELTA_HOLDS, 24, 4, 25, 5) == 1);
    CHECK(count_of(&tree, JUICEDELTA_HOLDS, 25, 4, 24, 5) == (uint64_t)rows + 1);
    CHECK(juicedelta_tree_get(&tree, rows - 1, got, 4) == JUICEDELTA_OK && got[0] == (rows - 1) % 1024 * 10);
    for (int32_t row = 0; row < rows; row += 2)
        CHECK(juicedelta_tree_remove(&tree, row) == JUICEDELTA_OK);
    CHECK(count_of(&tree, JUICEDELTA_WITHIN, INT32_MIN, INT32_MIN, INT32_MAX, INT32_MAX) == (uint64_t)rows / 2 + 1);
    CHECK(juicedelta_close(&tree) == JUICEDELTA_OK);
}

int main(int count, char **words)
{
    const char *part = count > 2 ? words[1] : "";
    int number = count > 2 ? atoi(words[2]) : 0;
    long before = blocks;
    if (strcmp(part, "calls") == 0) {
        CHECK(juicedelta_version() == JUICEDELTA_VERSION_NUMBER);
        scripts();
        script_codes();
        words_of_codes();
        open_codes();
        other_order();
        bytes_by_hand();
        for (uint32_t axes = 1; axes <= 3; axes++) {
            tree_codes(axes);
            live_codes(axes);
            relations(axes);
        }
        live_by_hand();
        all_random(number);
        again(1000);
    } else if (strcmp(part, "live") == 0) {
        all_live(number);
    } else if (strcmp(part, "refused") == 0) {
        refuses = 1;
        all_random(number);
        all_live(number);
        for (uint32_t axes = 1; axes <= 3; axes++)
            reserved(axes);
        refused_script();
    } else if (strcmp(part, "rows") == 0) {
        many(number);
    } else {
        fputs("test calls CALLS, test live EDITS, test refused CALLS or test rows ROWS\n", stderr);
        return 2;
    }
    CHECK(blocks == before);
    printf("bindings/c: %s passed\n", part);
    return 0;
}
