/* Draws each number over those up to its half. The items are made while they are drawn: nothing holds the tree. */
#include "ptree.h"
#include <stdio.h>
#include <stdlib.h>

enum { MOST_LEVELS = 40 };

static struct ptree_config config;
static uint8_t names[64], path[MOST_LEVELS], out[1024];

static void draw(unsigned number, uint32_t level, int is_last) {
    struct ptree_found found;
    char text[12];
    size_t length = (size_t)snprintf(text, sizeof text, "%u", number);
    struct ptree_step step = {{0, length}, level, (uint8_t)is_last};
    if (ptree_draw_steps(&step, 1, (const uint8_t *)text, length, path, MOST_LEVELS, &config, names, sizeof names, out, sizeof out, &found)
            != PTREE_DONE || found.items != 1) exit(1);
    fwrite(out, 1, found.bytes, stdout);
    for (unsigned below = 1; below <= number / 2; below++) draw(below, level + 1, below == number / 2);
}

int main(void) {
    struct ptree_found found;
    if (ptree_config(PTREE_CARGO_TREE, &config, names, sizeof names, &found) != PTREE_DONE || found.bytes > sizeof names) return 1;
    draw(6, 0, 1);
    return 0;
}
