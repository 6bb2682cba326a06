/* Measures the library for C: `ptree_bench_c TASK FILE ITEMS TIMES` makes a call for the drawing of so many items in a file, so many times.
 *
 * The tasks `draw`, `steps` and `read` are calls of ptree.h, and `size` is `draw` without room. If a call finds anything else than is in the
 * file, the status is 1. */
#include "ptree.h"
#include <stdio.h>
#include <stdlib.h>
#include <string.h>

/* How many items a call of ptree_draw_steps gets. */
enum { AT_ONCE = 1000 };

static size_t length, count, levels, texts_length;
static uint8_t *text, *texts, *out, *path, names[64];
static struct ptree_item *items;
/* Their texts are parts of those of the items of one call, since a call looks at all texts that it gets. */
static struct ptree_step *steps;
static struct ptree_config config;

static void expect(int ok) {
    if (!ok) exit(1);
}

static void *room(size_t size) {
    void *got = calloc(size, 1);
    expect(got != NULL);
    return got;
}

static void read_file(const char *name) {
    FILE *file = fopen(name, "rb");
    expect(file != NULL && fseek(file, 0, SEEK_END) == 0);
    length = (size_t)ftell(file);
    rewind(file);
    text = room(length);
    expect(fread(text, 1, length, file) == length);
    fclose(file);
}

static void read_items(void) {
    struct ptree_found found;
    expect(ptree_read(text, length, PTREE_DEFAULT, PTREE_ALL_LEVELS, items, count, texts, length, &found) == PTREE_DONE);
    expect(found.items == count);
    texts_length = found.bytes;
}

/* Where the text of an item begins. */
static size_t start(size_t place) {
    return place ? items[place - 1].end : 0;
}

/* From the last item to the first, since an item is its parent's last child if no other child comes later. */
static void make_steps(void) {
    uint8_t *comes_later = room(count + 1);
    for (size_t i = count; i-- > 0;) {
        size_t front = start(i - i % AT_ONCE);
        uint32_t level = items[i].level;
        steps[i] = (struct ptree_step){{start(i) - front, items[i].end - front}, level, !comes_later[level]};
        comes_later[level] = 1;
        comes_later[level + 1] = 0;
        if (level > levels) levels = level;
    }
    free(comes_later);
}

static void draw_steps(void) {
    struct ptree_found found;
    size_t drawn = 0;
    for (size_t from = 0; from < count; from += AT_ONCE) {
        size_t most = count - from < AT_ONCE ? count - from : AT_ONCE, front = start(from);
        expect(ptree_draw_steps(steps + from, most, texts + front, start(from + most) - front, path, levels, &config, names, sizeof names,
            out + drawn, length - drawn, &found) == PTREE_DONE && found.items == most);
        drawn += found.bytes;
    }
    expect(drawn == length);
}

static void draw(size_t size) {
    struct ptree_found found;
    expect(ptree_draw(items, count, texts, texts_length, PTREE_DEFAULT, PTREE_ALL_LEVELS, out, size, &found) == PTREE_DONE);
    expect(found.bytes == length);
}

int main(int words_count, char **words) {
    struct ptree_found found;
    expect(words_count == 5);
    const char *task = words[1];
    read_file(words[2]);
    count = strtoul(words[3], NULL, 10);
    texts = room(length), out = room(length), path = room(count);
    items = room(count * sizeof *items), steps = room(count * sizeof *steps);
    expect(ptree_config(PTREE_DEFAULT, &config, names, sizeof names, &found) == PTREE_DONE && found.bytes <= sizeof names);
    read_items();
    make_steps();
    for (unsigned long times = strtoul(words[4], NULL, 10); times > 0; times--) {
        if (strcmp(task, "read") == 0) read_items();
        else if (strcmp(task, "steps") == 0) draw_steps();
        else draw(strcmp(task, "size") == 0 ? 0 : length);
    }
    return strcmp(task, "read") != 0 && strcmp(task, "size") != 0 && memcmp(out, text, length) != 0;
}
