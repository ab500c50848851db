#include <juicedelta.h>
#include <stdio.h>

int main(void)
{
    juicedelta_handle carts = {0};
    int32_t place[] = {1, 1, 2, 2}, next[] = {10, 1, 11, 2}, screen[] = {0, 0, 9, 9};
    int64_t windows[10], ids[10];
    uint8_t kinds[10];
    uint64_t keys[2], count;
    if (juicedelta_random_keys(keys) != 0 || juicedelta_live_open(&carts, 2, 51, keys[0], keys[1]) != JUICEDELTA_OK)
        return 1;
    juicedelta_live_insert(&carts, 7, place, 4, &count);
    juicedelta_live_watch(&carts, 1, screen, 4, &count);
    juicedelta_live_move(&carts, 7, next, 4, &count);
    if (juicedelta_live_changes(&carts, windows, 10, ids, 10, kinds, 10, &count) == JUICEDELTA_OK && count == 1)
        printf("row %d %s window %d\n", (int)ids[0], kinds[0] == JUICEDELTA_LEFT ? "left" : "is in", (int)windows[0]);
    juicedelta_close(&carts);
}
