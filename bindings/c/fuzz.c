/*
 * What libFuzzer makes up, tried on the C calls. The first byte of an input chooses: a tree or live windows of one, two or
 * three axes make the calls that the other bytes say beside plain lists (pair.h, pair_live.h); or they are a script, which
 * prints the same in one piece and byte by byte.
 */
#include "pair_live.h"

static void arm(long allocation) { (void)allocation; }
static int disarm(void) { return 0; }

static void calls(source *from, uint32_t axes)
{
    pair pair;
    pair_open(&pair, axes, 5 + below(from, 47));
    while (from->length > 0)
        pair_step(from, &pair);
    pair_same(&pair);
    pair_close(&pair);
}

static void live_calls(source *from, uint32_t axes)
{
    pair pair;
    live_open(&pair, axes, 5 + below(from, 47));
    uint32_t windows = 1 + below(from, IDS);
    while (from->length > 0)
        live_step(from, &pair, windows);
    pair_same(&pair);
    pair_close(&pair);
}

/* What a shell prints of a script that is fed in parts of `part` bytes. */
static uint8_t *printed(const uint8_t *script, size_t length, size_t part, uint64_t *count, uint32_t *refused)
{
    juicedelta_handle shell = {0};
    CHECK(juicedelta_script_open(&shell, 5, 1, 2) == JUICEDELTA_OK);
    for (size_t from = 0; from < length; from += part)
        CHECK(juicedelta_script_exec(&shell, script + from, length - from < part ? length - from : part) == JUICEDELTA_OK);
    CHECK(juicedelta_script_finish(&shell, refused) == JUICEDELTA_OK);
    CHECK(juicedelta_script_output_length(&shell, count) == JUICEDELTA_OK);
    uint8_t *text = malloc(*count + 1);
    CHECK(text != NULL && juicedelta_script_output(&shell, text, *count) == JUICEDELTA_OK);
    CHECK(juicedelta_close(&shell) == JUICEDELTA_OK);
    return text;
}

static void script(const uint8_t *bytes, size_t length)
{
    uint64_t whole_count, count;
    uint32_t whole_refused = 9, refused = 9;
    uint8_t *whole = printed(bytes, length, length + 1, &whole_count, &whole_refused);
    uint8_t *text = printed(bytes, length, 1, &count, &refused);
    CHECK(whole_refused < 2 && whole_refused == refused);
    CHECK(whole_count == count && memcmp(whole, text, count) == 0);
    free(whole);
    free(text);
}

int LLVMFuzzerTestOneInput(const uint8_t *bytes, size_t length)
{
    /* A source without bytes is a generator. */
    static const uint8_t none = 0;
    source from = {length > 1 ? bytes + 1 : &none, length > 1 ? length - 1 : 0, 0};
    uint32_t kind = length > 0 ? bytes[0] % 7 : 0;
    if (kind > 3)
        live_calls(&from, kind - 3);
    else if (kind > 0)
        calls(&from, kind);
    else
        script(from.bytes, from.length);
    return 0;
}
