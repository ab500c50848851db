#include <juicedelta.h>
#include <stdio.h>

enum { ROWS = 1000 };

int main(void)
{
    static int64_t ids[ROWS], found[2 * ROWS];
    static int32_t boxes[4 * ROWS];
    int32_t windows[] = {0, 0, 9, 9, 990, 0, 2000, 0};
    uint64_t keys[2], at, starts[2], total;
    juicedelta_handle tree = {0};
    for (int row = 0; row < ROWS; row++) {
        int32_t *box = boxes + 4 * row;
        ids[row] = box[0] = row, box[2] = row + 1, box[3] = 1;
    }
    if (juicedelta_random_keys(keys) != 0 ||
        juicedelta_tree_open_rows(&tree, 2, 51, ids, ROWS, boxes, 4 * ROWS, keys[0], keys[1], &at) != JUICEDELTA_OK)
        return 1;
    if (juicedelta_tree_search_many(&tree, JUICEDELTA_TOUCHES, windows, 8, starts, 2, found, 2 * ROWS, &total) == JUICEDELTA_OK)
        printf("%d and %d found\n", (int)starts[1], (int)(total - starts[1]));
    juicedelta_close(&tree);
}
