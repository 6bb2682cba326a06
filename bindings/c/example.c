/* Draws an outline, and reads it back. */
#include "ptree.h"
#include <stdio.h>
#include <stdlib.h>

int main(void) {
    const uint8_t texts[] = "fruitsapplesgreenripepears";
    const struct ptree_item items[] = {{6, 0}, {12, 1}, {17, 2}, {21, 2}, {26, 1}};
    struct ptree_found found;
    uint8_t none[1];

    /* The first call finds the length, the second draws. */
    if (ptree_draw(items, 5, texts, 26, PTREE_CARGO_TREE, PTREE_ALL_LEVELS, none, 0, &found) != PTREE_DONE) return 1;
    size_t length = found.bytes;
    uint8_t *drawing = malloc(length);
    if (!drawing || ptree_draw(items, 5, texts, 26, PTREE_CARGO_TREE, PTREE_ALL_LEVELS, drawing, length, &found) != PTREE_DONE) return 1;
    fwrite(drawing, 1, length, stdout);

    /* There are no more items than lines, and no more bytes of texts than of the drawing: here the room is known. */
    struct ptree_item read[8];
    uint8_t labels[64];
    if (ptree_read(drawing, length, PTREE_CARGO_TREE, PTREE_ALL_LEVELS, read, 8, labels, 64, &found) != PTREE_DONE) return 1;
    size_t from = 0;
    for (size_t i = 0; i < found.items; i++) {
        printf("%u %.*s\n", read[i].level, (int)(read[i].end - from), (const char *)labels + from);
        from = read[i].end;
    }
    free(drawing);
    return 0;
}
