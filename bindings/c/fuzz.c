/* Makes random calls of ptree.h, and checks what holds between their results. Link it with -Wl,--wrap=malloc,--wrap=realloc, since it
 * refuses memory now and then.
 *
 *   fuzz SEED CASES
 *
 * For an hour, with what bin/install puts in place:
 *
 *   cc -O1 -g -fsanitize=address,undefined -IPREFIX/include bindings/c/fuzz.c PREFIX/lib/libptree.a -Wl,--wrap=malloc,--wrap=realloc -o fuzz
 *   timeout 1h bash -c 'for ((seed = RANDOM; ; seed++)); do echo "seed $seed"; ./fuzz $seed 100000 || break; done'
 *
 * Every block that a call gets is exactly as long as said, so a checker of memory sees each byte beside it. What is checked: a refusal
 * changes nothing, what is drawn into less room is a prefix, what is behind a result stays, memory runs out only if it was refused or a
 * piece is too long, what is drawn without styles reads back as items that are drawn alike, and items that are given one by one are drawn as
 * an outline. A failure ends the run with its case. */
#include "ptree.h"
#include <stdio.h>
#include <stdlib.h>
#include <string.h>

enum { MOST_ITEMS = 12, MOST_TEXTS = 80, MOST_NAMES = 120, MOST_ROOM = 4000 };

static uint64_t state;
static unsigned long seed, number;

/* The library's request that is refused, counted from 0 down, and whether one was. */
static long refused_in = -1;
static int was_refused;

void *__real_malloc(size_t size);
void *__real_realloc(void *block, size_t size);

static int is_refused(void) {
    if (refused_in < 0 || refused_in-- > 0) return 0;
    was_refused = 1;
    return 1;
}

void *__wrap_malloc(size_t size) {
    return is_refused() ? NULL : __real_malloc(size);
}

void *__wrap_realloc(void *block, size_t size) {
    return is_refused() ? NULL : __real_realloc(block, size);
}

/* Returns a number below a bound. */
static size_t below(size_t bound) {
    state ^= state << 13;
    state ^= state >> 7;
    state ^= state << 17;
    return (size_t)(state >> 11) % bound;
}

static int one_in(size_t count) {
    return below(count) == 0;
}

static void need(int ok, const char *what) {
    if (ok) return;
    printf("FAILED: %s (seed %lu, case %lu)\n", what, seed, number);
    exit(1);
}

/* Memory of exactly this size; at least one byte, which is none of it. */
static void *room(size_t size) {
    char *got = malloc(size ? size : 1);
    if (!got) exit(99);
    memset(got, '#', size ? size : 1);
    return got;
}

static void *copy_of(const void *bytes, size_t size) {
    void *got = room(size);
    memcpy(got, bytes, size);
    return got;
}

/* Appends some of the texts that drawings are made of. */
static size_t add_text(uint8_t *texts, size_t length, size_t most) {
    static const char *const parts[] = {"a", "b", "é", "\n", ": ", "├─ ", "└─ ", "│  ", " ", "", "\xff", "\xe2", "teal", "#102030", "\x1b[1m"};
    for (size_t count = below(4); count > 0; count--) {
        const char *part = parts[one_in(20) ? below(15) : below(10)];
        size_t size = strlen(part);
        if (length + size > most) return length;
        memcpy(texts + length, part, size);
        length += size;
    }
    return length;
}

/* What a call is given. */
struct given {
    struct ptree_item *items;
    size_t *ends;
    size_t count;
    uint8_t *texts;
    size_t length;
    struct ptree_config config;
    uint8_t *names;
    size_t names_length;
    int has_long_pieces;
};

static size_t end_of(size_t length) {
    static const size_t odd[] = {0, 1, SIZE_MAX, SIZE_MAX - 1, (size_t)1 << 63};
    return one_in(200) ? odd[below(5)] : length;
}

static void give_items(struct given *given) {
    struct ptree_item items[MOST_ITEMS];
    size_t ends[MOST_ITEMS];
    uint8_t texts[MOST_TEXTS];
    uint32_t level = 0;
    given->count = below(MOST_ITEMS + 1);
    given->length = 0;
    for (size_t i = 0; i < given->count; i++) {
        given->length = add_text(texts, given->length, MOST_TEXTS);
        level = i == 0 ? 0 : (uint32_t)(1 + below((size_t)level + 1));
        if (one_in(150)) level = one_in(2) ? UINT32_MAX : (uint32_t)below(4);
        ends[i] = end_of(given->length);
        items[i] = (struct ptree_item){ends[i], level};
    }
    if (one_in(30)) given->length = below(given->length + 1);
    given->items = copy_of(items, given->count * sizeof *items);
    given->ends = copy_of(ends, given->count * sizeof *ends);
    given->texts = copy_of(texts, given->length);
}

static struct ptree_part some_part(size_t length) {
    size_t start = below(length + 1);
    if (one_in(40)) return (struct ptree_part){end_of(SIZE_MAX), end_of(1)};
    return (struct ptree_part){start, start + below(length - start + 1)};
}

static struct ptree_color some_color(size_t names) {
    struct ptree_color color = {(uint32_t)below(one_in(20) ? 14 : 12), (uint8_t)below(256), (uint8_t)below(256), (uint8_t)below(256), some_part(names)};
    return color;
}

static struct ptree_style some_style(size_t names) {
    struct ptree_style style;
    memset(&style, 0, sizeof style);
    if (one_in(2)) style.foreground = some_color(names);
    if (one_in(2)) style.background = some_color(names);
    style.bold = (uint8_t)below(3);
    style.underline = (uint8_t)below(2);
    style.strikethrough = (uint8_t)(255 * below(2));
    return style;
}

static void give_config(struct given *given) {
    struct ptree_found found;
    uint8_t names[MOST_NAMES];
    need(ptree_config((uint32_t)below(11), &given->config, names, MOST_NAMES, &found) == PTREE_DONE, "a configuration");
    given->names_length = add_text(names, found.bytes, MOST_NAMES);
    struct ptree_config *config = &given->config;
    given->has_long_pieces = 0;
    if (one_in(4)) config->indent = below(8);
    if (one_in(4)) config->padding = below(4);
    if (one_in(100)) {
        config->indent = SIZE_MAX - below(2);
        given->has_long_pieces = 1;
    }
    if (one_in(3)) config->depth = (uint32_t)below(5);
    config->styled = (uint32_t)below(one_in(30) ? 5 : 3);
    if (one_in(4)) config->branch = some_style(given->names_length);
    if (one_in(4)) config->leaf = some_style(given->names_length);
    if (one_in(6)) config->continued = some_part(given->names_length);
    if (one_in(6)) config->characters.right = some_part(given->names_length);
    if (one_in(6)) config->characters.down = some_part(given->names_length);
    if (one_in(30)) given->names_length = below(given->names_length + 1);
    given->names = copy_of(names, given->names_length);
}

static void take_back(struct given *given) {
    free(given->items);
    free(given->ends);
    free(given->texts);
    free(given->names);
}

/* One of the calls that draw, by its number. */
static uint32_t draw(const struct given *given, size_t call, size_t other, uint8_t *out, size_t length, struct ptree_found *found) {
    const struct ptree_config *config = &given->config;
    struct ptree_edge edges[] = {{other % 5, other % 3}, {other % 7, other % 2}, {1, 0}, {0, 2}};
    struct ptree_style style = config->leaf;
    uint32_t preset = (uint32_t)(other % 12);
    switch (call) {
        case 0: return ptree_draw(given->items, given->count, given->texts, given->length, preset, config->depth, out, length, found);
        case 1: return ptree_draw_document(given->texts, given->length, given->names, given->names_length, (uint32_t)(other % 3), preset,
            config->depth, out, length, found);
        case 2: return ptree_draw_document_with((const uint8_t *)"[{\"a\": 1}, 2]", other % 2 ? 13 : 9, given->texts, given->length,
            PTREE_JSON, config, given->names, given->names_length, out, length, found);
        case 3: return ptree_paint(given->texts, given->length, &style, given->names, given->names_length, out, length, found);
        case 4: return ptree_draw_once(given->ends, given->count, given->texts, given->length, edges, other % 5, other % 13, given->texts,
            other % 2 ? given->length : 0, config, given->names, given->names_length, out, length, found);
        case 5: {
            struct ptree_config flat = *config;
            flat.depth = flat.depth < 4 ? flat.depth : 4;
            return ptree_draw_walks(given->ends, given->count, given->texts, given->length, edges, other % 5, other % 13, &flat, given->names,
                given->names_length, out, length, found);
        }
        default: return ptree_draw_with(given->items, given->count, given->texts, given->length, config, given->names, given->names_length, out,
            length, found);
    }
}

/* Checks that a call that has found no memory had a reason. */
static void need_reason(const struct given *given, uint32_t refusal) {
    need(refusal <= PTREE_STYLED, "a number of no refusal");
    need(refusal != PTREE_MEMORY || was_refused || given->has_long_pieces, "memory ran out, and none was refused");
    need(!was_refused || refusal == PTREE_MEMORY || refusal == PTREE_DONE, "refused memory counts as another refusal");
}

/* Draws into memory of a size. Returns the refusal. */
static uint32_t draw_into(const struct given *given, size_t call, size_t other, size_t size, uint8_t **out, struct ptree_found *found, int refuse) {
    *out = room(size);
    was_refused = 0;
    refused_in = refuse ? (long)below(30) : -1;
    uint32_t refusal = draw(given, call, other, *out, size, found);
    refused_in = -1;
    need_reason(given, refusal);
    /* (if memory runs out, a part of the drawing of an outline may be there) */
    size_t written = refusal == PTREE_MEMORY ? size : refusal ? 0 : found->bytes;
    for (size_t i = written; i < size; i++) need((*out)[i] == '#', "what is behind a result was changed");
    if (size == 0) need((*out)[0] == '#', "a byte of no room was changed");
    need(!refusal || (found->bytes == 0 && found->items == 0), "a refusal has found something");
    return refusal;
}

/* Reads what was drawn, and draws what was read. */
static void read_back(const struct given *given, const uint8_t *drawing, size_t length) {
    struct ptree_found found, again;
    const struct ptree_config *config = &given->config;
    struct ptree_item *items = room(length * sizeof *items);
    uint8_t *texts = room(length), *out = room(length);
    was_refused = 0;
    uint32_t refusal = ptree_read_with(drawing, length, config, given->names, given->names_length, items, length, texts, length, &found);
    need_reason(given, refusal);
    need(refusal != PTREE_LINE && refusal != PTREE_INCOMPLETE, "a drawing is not read");
    if (refusal == PTREE_DONE) {
        refusal = ptree_draw_with(items, found.items, texts, found.bytes, config, given->names, given->names_length, out, length, &again);
        need(refusal == PTREE_DONE && again.bytes == length && memcmp(out, drawing, length) == 0, "what was read is drawn otherwise");
    }
    free(items);
    free(texts);
    free(out);
}

/* Reads any text into rooms of any size. */
static void read_any(const struct given *given) {
    struct ptree_found found;
    size_t items_size = below(4), texts_size = below(20);
    struct ptree_item *items = room(items_size * sizeof *items);
    uint8_t *texts = room(texts_size);
    was_refused = 0;
    refused_in = one_in(4) ? (long)below(20) : -1;
    uint32_t refusal = ptree_read_with(given->texts, given->length, &given->config, given->names, given->names_length, items, items_size, texts,
        texts_size, &found);
    refused_in = -1;
    need_reason(given, refusal);
    if (refusal) {
        for (size_t i = 0; i < texts_size; i++) need(texts[i] == '#', "a refusal changed the texts");
        for (size_t i = 0; i < items_size * sizeof *items; i++) need(((char *)items)[i] == '#', "a refusal changed the items");
    }
    free(items);
    free(texts);
}

/* Whether the item at a place has a later sibling. */
static int has_later(const struct ptree_item *items, size_t count, size_t place) {
    for (size_t i = place + 1; i < count && items[i].level >= items[place].level; i++) {
        if (items[i].level == items[place].level) return 1;
    }
    return 0;
}

/* Draws steps into a room, and is refused memory one time in `chance`. */
static uint32_t some_steps(const struct given *given, const struct ptree_step *steps, size_t count, uint8_t *path, size_t path_length,
    uint8_t *out, size_t size, size_t chance, struct ptree_found *found) {
    was_refused = 0;
    refused_in = one_in(chance) ? (long)below(30) : -1;
    uint32_t refusal = ptree_draw_steps(steps, count, given->texts, given->length, path, path_length, &given->config, given->names,
        given->names_length, out, size, found);
    refused_in = -1;
    need_reason(given, refusal);
    return refusal;
}

/* Draws the items of an outline one by one, some at a call, into rooms of any size, and compares that with the outline's drawing. */
static void draw_by_steps(const struct given *given, const uint8_t *drawing, size_t length) {
    struct ptree_step steps[MOST_ITEMS];
    uint8_t *path = room(MOST_ITEMS);
    size_t from = 0, at = 0, start = 0, size = below(60);
    for (size_t i = 0; i < given->count; i++) {
        uint8_t last = has_later(given->items, given->count, i) ? 0 : (uint8_t)(1 + below(255));
        steps[i] = (struct ptree_step){{start, given->items[i].end}, given->items[i].level, last};
        start = given->items[i].end;
    }
    while (from < given->count && steps[from].level <= given->config.depth) {
        struct ptree_found found;
        size_t count = 0, most = 1 + below(MOST_ITEMS);
        while (count < most && from + count < given->count && steps[from + count].level <= given->config.depth) count++;
        struct ptree_step *some = copy_of(steps + from, count * sizeof *some);
        uint8_t *out = room(size);
        uint32_t refusal = some_steps(given, some, count, path, MOST_ITEMS, out, size, 8, &found);
        need(refusal == PTREE_DONE || refusal == PTREE_MEMORY, "steps of what was drawn are refused");
        need(found.items <= count && found.bytes <= size && found.bytes <= length - at, "more is drawn than there is");
        need(memcmp(out, drawing + at, found.bytes) == 0, "steps are drawn otherwise");
        for (size_t i = found.bytes; i < size; i++) need(out[i] == '#', "what is behind the entries was changed");
        need(refusal || (found.place == 0 ? found.items == count : found.bytes + found.place > size), "steps ended too early");
        at += found.bytes;
        from += found.items;
        if (!refusal && found.place > size) size = found.place;
        free(some);
        free(out);
        while (from < given->count && steps[from].level > given->config.depth) from++;
    }
    need(at == length, "steps draw less");
    free(path);
}

/* Draws any steps. */
static void draw_any_steps(const struct given *given) {
    struct ptree_step steps[4];
    struct ptree_found found;
    size_t length = below(5), size = below(40), count = below(5);
    uint8_t *path = room(length), *out = room(size);
    for (size_t i = 0; i < 4; i++) {
        uint32_t level = one_in(50) ? UINT32_MAX : (uint32_t)below(5);
        steps[i] = (struct ptree_step){some_part(given->length), level, (uint8_t)below(3)};
    }
    some_steps(given, steps, count, path, length, out, size, 4, &found);
    need(found.items <= count && found.bytes <= size, "more steps are drawn than there are");
    for (size_t i = found.bytes; i < size; i++) need(out[i] == '#', "what is behind steps was changed");
    if (length == 0) need(path[0] == '#', "a byte of no path was changed");
    if (found.items == 0) {
        for (size_t i = 0; i < length; i++) need(path[i] == '#', "the path was changed for no item");
    }
    free(path);
    free(out);
}

/* The names and values of variables. */
static const uint8_t named[] = "PTREE_DEPTHPTREE_LEAF_FOREGROUND7tealptree_styledalways";

/* Asks for the faults in sources that loading has ended with a refusal. */
static void find_faults(const struct given *given, uint32_t format, const struct ptree_variable *variables, size_t count, uint32_t loaded) {
    struct ptree_found found;
    size_t size = below(200), lines = 0;
    uint8_t *out = room(size);
    was_refused = 0;
    refused_in = one_in(4) ? (long)below(40) : -1;
    uint32_t refusal = ptree_faults(given->texts, given->length, format, variables, count, named, sizeof named - 1, out, size, &found);
    refused_in = -1;
    need_reason(given, refusal);
    if (refusal != PTREE_MEMORY) need(refusal == (loaded == PTREE_FAULT ? PTREE_DONE : loaded), "faults are refused otherwise than loading");
    if (refusal == PTREE_DONE) {
        need((found.items == 0) == (loaded == PTREE_DONE), "sources are loaded in spite of a fault");
        for (size_t i = 0; i < found.bytes && i < size; i++) lines += out[i] == '\n';
        need(lines == found.items || found.bytes > size, "there are not as many lines as faults");
    }
    for (size_t i = refusal ? 0 : found.bytes; i < size; i++) need(out[i] == '#', "what is behind the faults was changed");
    free(out);
}

/* Loads a configuration from any text and variables. */
static void load_any(const struct given *given) {
    struct ptree_variable variables[] = {{{0, 11}, {32, 33}}, {{11, 32}, {33, 37}}, {{37, 49}, {49, 55}}, {some_part(55), some_part(55)}};
    struct ptree_config config;
    struct ptree_found found;
    size_t size = below(60);
    uint8_t *names = room(size);
    memset(&config, '#', sizeof config);
    was_refused = 0;
    refused_in = one_in(4) ? (long)below(40) : -1;
    uint32_t format = (uint32_t)below(5);
    size_t count = below(5);
    uint32_t refusal = ptree_load(given->texts, given->length, format, variables, count, named, sizeof named - 1, &config, names, size, &found);
    refused_in = -1;
    need_reason(given, refusal);
    if (refusal) {
        for (size_t i = 0; i < size; i++) need(names[i] == '#', "a refusal changed the names");
        for (size_t i = 0; i < sizeof config; i++) need(((char *)&config)[i] == '#', "a refusal changed the configuration");
    }
    free(names);
    if (refusal != PTREE_MEMORY) find_faults(given, format, variables, count, refusal);
}

static void try_case(void) {
    struct given given;
    struct ptree_found whole, part;
    uint8_t *out, *less;
    give_items(&given);
    give_config(&given);
    size_t call = below(8), other = below(1000);
    uint32_t refusal = draw_into(&given, call, other, MOST_ROOM, &out, &whole, one_in(4));
    if (refusal == PTREE_DONE && whole.bytes <= MOST_ROOM) {
        size_t size = below(whole.bytes + 3);
        uint32_t again = draw_into(&given, call, other, size, &less, &part, one_in(8));
        if (again == PTREE_DONE) {
            need(part.bytes == whole.bytes && part.items == whole.items, "two calls have found different sizes");
            need(memcmp(less, out, size < whole.bytes ? size : whole.bytes) == 0, "what is drawn into less room is no prefix");
        }
        free(less);
        if (call >= 6 && given.config.styled != PTREE_ALWAYS) read_back(&given, out, whole.bytes);
        if (call >= 6) draw_by_steps(&given, out, whole.bytes);
    }
    free(out);
    read_any(&given);
    draw_any_steps(&given);
    load_any(&given);
    take_back(&given);
}

int main(int count, char **words) {
    if (count != 3) return 2;
    seed = strtoul(words[1], NULL, 10);
    unsigned long cases = strtoul(words[2], NULL, 10);
    state = seed * 2654435761u + 88172645463325252u;
    for (number = 0; number < cases; number++) try_case();
    printf("%lu cases are right\n", cases);
    return 0;
}
