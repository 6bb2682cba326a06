/* Tries the calls of ptree.h. Each expectation was worked out by hand. Writes what failed, and ends with 1 then.
 *
 * Without arguments it makes all tests. With the word of a call, as `test draw`, it makes that call alone, which must end in PTREE_DONE
 * or PTREE_MEMORY: the status is that number. */
#include "ptree.h"
#include <stdio.h>
#include <stdlib.h>
#include <string.h>

#define ALL PTREE_ALL_LEVELS
#define TEXT(s) (const uint8_t *)(s), sizeof(s) - 1

static int failed;

static void expect(int ok, const char *name) {
    if (!ok) {
        printf("FAILED: %s\n", name);
        failed = 1;
    }
}

/* The tree of the examples; the text of `b` is of two lines. */
static const struct ptree_item items[] = {{1, 0}, {2, 1}, {3, 2}, {6, 1}};
static const uint8_t texts[] = "raxb\nc";
static const char drawn[] = "r\n├── a\n│   └── x\n└── b\n    : c\n";

/* Returns memory of exactly this size, so that a checker of memory sees each byte beside it; at least one byte, which is none of it. */
static void *room(size_t size) {
    char *got = malloc(size ? size : 1);
    if (!got) exit(99);
    memset(got, '#', size ? size : 1);
    return got;
}

static void draws_into_each_size(void) {
    const size_t length = sizeof drawn - 1;
    for (size_t size = 0; size <= length + 3; size++) {
        struct ptree_found found = {7, 7, 7};
        uint8_t *out = room(size);
        uint32_t got = ptree_draw(items, 4, texts, 6, PTREE_CARGO_TREE, ALL, out, size, &found);
        size_t part = size < length ? size : length;
        expect(got == PTREE_DONE && found.bytes == length && found.items == 4 && found.place == 0, "a drawing's size");
        expect(memcmp(out, drawn, part) == 0, "a drawing");
        for (size_t i = part; i < size; i++) expect(out[i] == '#', "what is behind a drawing stays");
        if (size == 0) expect(out[0] == '#', "no byte of no room");
        free(out);
    }
}

static void draws_to_a_depth(void) {
    struct ptree_found found;
    uint8_t out[64];
    expect(ptree_draw(items, 4, texts, 6, PTREE_CARGO_TREE, 0, out, 64, &found) == PTREE_DONE && found.bytes == 2
        && memcmp(out, "r\n", 2) == 0, "depth 0");
    const char one[] = "r\n|-- a\n`-- b\n    : c\n";
    expect(ptree_draw(items, 4, texts, 6, PTREE_TREE_ASCII, 1, out, 64, &found) == PTREE_DONE && found.bytes == sizeof one - 1
        && memcmp(out, one, sizeof one - 1) == 0, "depth 1");
}

/* The items must be refused, and nothing be written. */
static void refuses(const struct ptree_item *bad, size_t count, const char *bytes, size_t length, uint32_t refusal, size_t place) {
    struct ptree_found found = {7, 7, 7};
    struct ptree_item *copy = room(count * sizeof *bad);
    uint8_t *given = room(length), *out = room(8);
    memcpy(copy, bad, count * sizeof *bad);
    memcpy(given, bytes, length);
    expect(ptree_draw(copy, count, given, length, PTREE_DEFAULT, ALL, out, 8, &found) == refusal, "a refusal");
    expect(found.bytes == 0 && found.items == 0 && found.place == place, "the place of a refusal");
    expect(memcmp(out, "########", 8) == 0, "a refusal leaves the room");
    free(copy);
    free(given);
    free(out);
}

static void refuses_items(void) {
    const struct ptree_item root_below[] = {{1, 1}}, root_again[] = {{1, 0}, {2, 0}}, too_deep[] = {{1, 0}, {2, 2}};
    const struct ptree_item deepest[] = {{1, 0}, {2, UINT32_MAX}}, back[] = {{2, 0}, {1, 1}}, beyond[] = {{1, 0}, {3, 1}};
    const struct ptree_item last[] = {{1, 0}, {SIZE_MAX, 1}}, halves[] = {{1, 0}, {3, 1}}, one[] = {{2, 0}};
    refuses(one, 0, "ab", 2, PTREE_LEVEL, 0);
    refuses(root_below, 1, "ab", 2, PTREE_LEVEL, 0);
    refuses(root_again, 2, "ab", 2, PTREE_LEVEL, 1);
    refuses(too_deep, 2, "ab", 2, PTREE_LEVEL, 1);
    refuses(deepest, 2, "ab", 2, PTREE_LEVEL, 1);
    refuses(back, 2, "ab", 2, PTREE_END, 1);
    refuses(beyond, 2, "ab", 2, PTREE_END, 1);
    refuses(last, 2, "ab", 2, PTREE_END, 1);
    refuses(one, 1, "", 0, PTREE_END, 0);
    refuses(halves, 2, "a\xff\xfe", 3, PTREE_UTF8, 1);
    /* an end within a character */
    refuses(root_again, 1, "\xc3\xa9", 2, PTREE_UTF8, 0);
}

/* The same tree, given one by one: the texts stand in another order than the items. */
static const struct ptree_step steps[] = {{{0, 1}, 0, 9}, {{5, 6}, 1, 0}, {{4, 5}, 2, 1}, {{1, 4}, 1, 1}};

/* The configuration of `cargo tree`. */
static void give_cargo_tree(struct ptree_config *config, uint8_t names[64]) {
    struct ptree_found found;
    expect(ptree_config(PTREE_CARGO_TREE, config, names, 64, &found) == PTREE_DONE && found.bytes <= 64, "a configuration");
}

/* Draws the tree, some items at a call, each into so much room, and returns how many calls it took. */
static size_t draws_steps_by(size_t most, size_t size) {
    struct ptree_config config;
    uint8_t names[64], path[] = {7, 7}, whole[sizeof drawn], *out = room(size);
    size_t from = 0, length = 0, calls = 0;
    give_cargo_tree(&config, names);
    while (from < 4 && calls++ < 9) {
        struct ptree_found found = {7, 7, 7};
        size_t count = most < 4 - from ? most : 4 - from;
        expect(ptree_draw_steps(steps + from, count, TEXT("rb\ncxa"), path, 2, &config, names, 64, out, size, &found) == PTREE_DONE, "steps");
        expect((found.place == 0) == (found.items == count) && found.bytes <= size, "whole entries");
        expect(found.place == 0 || found.bytes + found.place > size, "an entry that has no room");
        expect(length + found.bytes < sizeof drawn, "no more than the drawing");
        memcpy(whole + length, out, found.bytes);
        length += found.bytes;
        from += found.items;
    }
    expect(length == sizeof drawn - 1 && memcmp(whole, drawn, length) == 0, "the drawing of steps");
    expect(path[0] == 1 && path[1] == 1, "the path after steps");
    free(out);
    return calls;
}

static void draws_steps(void) {
    expect(draws_steps_by(4, 100) == 1, "all at once");
    expect(draws_steps_by(1, 100) == 4, "one at a call");
    expect(draws_steps_by(3, 100) == 2, "three at a call");
    expect(draws_steps_by(4, sizeof drawn - 1) == 1, "as much room as the drawing needs");
    expect(draws_steps_by(4, sizeof drawn - 2) == 2, "a byte less");
    /* the longest entry, of `b`, has 12 and 8 bytes */
    expect(draws_steps_by(4, 20) == 3, "room for the longest entry");
}

/* The steps must be refused at a place, and those before it be drawn. */
static void refuses_steps(const struct ptree_step *bad, size_t count, const char *bytes, size_t length, uint32_t refusal, size_t place) {
    struct ptree_config config;
    struct ptree_found found = {7, 7, 7};
    uint8_t names[64], path[] = {7, 7}, *given = room(length), *out = room(8);
    give_cargo_tree(&config, names);
    memcpy(given, bytes, length);
    expect(ptree_draw_steps(bad, count, given, length, path, 2, &config, names, 64, out, 8, &found) == refusal, "a refusal of steps");
    expect(found.items == place && found.place == place && found.bytes == 2 * place, "the place of a refused step");
    expect(memcmp(out, place ? "a\n######" : "########", 8) == 0 && path[0] == 7 && path[1] == 7, "a refused step draws nothing");
    free(given);
    free(out);
}

static void refuses_some_steps(void) {
    const struct ptree_step deep[] = {{{0, 1}, 0, 0}, {{0, 1}, 3, 0}}, back[] = {{{0, 1}, 0, 0}, {{2, 1}, 1, 0}};
    const struct ptree_step beyond[] = {{{0, 1}, 0, 0}, {{1, 4}, 1, 0}}, halves[] = {{{0, 1}, 0, 0}, {{1, 2}, 1, 0}};
    const struct ptree_step whole[] = {{{0, 1}, 0, 0}, {{1, 3}, 1, 0}}, last[] = {{{0, SIZE_MAX}, 0, 0}};
    refuses_steps(deep, 2, "abc", 3, PTREE_LEVEL, 1);
    refuses_steps(back, 2, "abc", 3, PTREE_END, 1);
    refuses_steps(beyond, 2, "abc", 3, PTREE_END, 1);
    refuses_steps(halves, 2, "a\xc3\xa9", 3, PTREE_UTF8, 1);
    refuses_steps(whole, 2, "a\xff\xfe", 3, PTREE_UTF8, 1);
    refuses_steps(last, 1, "abc", 3, PTREE_END, 0);
    /* a part of texts that are not all UTF-8 */
    struct ptree_config config;
    struct ptree_found found;
    uint8_t names[64], path[1], out[8];
    give_cargo_tree(&config, names);
    expect(ptree_draw_steps(whole, 1, TEXT("a\xff"), path, 0, &config, names, 64, out, 8, &found) == PTREE_DONE && found.bytes == 2, "a part");
    config.characters.right.end = 99;
    expect(ptree_draw_steps(whole, 1, TEXT("a"), path, 0, &config, names, 64, out, 8, &found) == PTREE_NAMES && found.items == 0, "bad names");
    give_cargo_tree(&config, names);
    config.styled = 3;
    expect(ptree_draw_steps(whole, 1, TEXT("a"), path, 0, &config, names, 64, out, 8, &found) == PTREE_STYLED && found.items == 0, "bad styled");
}

static void reads_into_each_size(void) {
    for (size_t size = 0; size <= 8; size++) {
        struct ptree_found found = {7, 7, 7};
        struct ptree_item *got = room(size * sizeof *got);
        uint8_t *labels = room(size);
        expect(ptree_read(TEXT(drawn), PTREE_CARGO_TREE, ALL, got, size, labels, size, &found) == PTREE_DONE, "a reading");
        expect(found.bytes == 6 && found.items == 4 && found.place == 0, "a reading's sizes");
        for (size_t i = 0; i < 4 && i < size; i++) {
            expect(got[i].end == items[i].end && got[i].level == items[i].level, "an item that was read");
        }
        expect(memcmp(labels, texts, size < 6 ? size : 6) == 0, "the texts that were read");
        for (size_t i = 6; i < size; i++) expect(labels[i] == '#', "what is behind the texts stays");
        free(got);
        free(labels);
    }
}

/* The text must be refused. */
static void refuses_text(const uint8_t *text, size_t length, uint32_t preset, uint32_t depth, uint32_t refusal, size_t place) {
    struct ptree_found found = {7, 7, 7};
    struct ptree_item got[1] = {{77, 7}};
    uint8_t labels[1] = {'#'}, *given = room(length);
    memcpy(given, text, length);
    expect(ptree_read(given, length, preset, depth, got, 1, labels, 1, &found) == refusal, "a text that is refused");
    expect(found.bytes == 0 && found.items == 0 && found.place == place, "the line of a refusal");
    expect(got[0].end == 77 && got[0].level == 7 && labels[0] == '#', "a text that is refused leaves the rooms");
    free(given);
}

static void refuses_texts(void) {
    refuses_text(TEXT("r\nx\n"), PTREE_CARGO_TREE, ALL, PTREE_LINE, 2);
    refuses_text(TEXT("r\n├── a\n"), PTREE_CARGO_TREE, ALL, PTREE_INCOMPLETE, 0);
    refuses_text(TEXT("r"), PTREE_CARGO_TREE, ALL, PTREE_INCOMPLETE, 0);
    refuses_text(TEXT(""), PTREE_CARGO_TREE, ALL, PTREE_INCOMPLETE, 0);
    refuses_text(TEXT("r\xff\n"), PTREE_CARGO_TREE, ALL, PTREE_UTF8, 0);
    refuses_text(TEXT("r\n└── a\n"), PTREE_CARGO_TREE, 0, PTREE_LINE, 2);
    refuses_text(TEXT("r\n"), 11, ALL, PTREE_PRESET, 0);
    refuses_text(TEXT("r\n"), UINT32_MAX, ALL, PTREE_PRESET, 0);
}

static void draws_documents(void) {
    struct ptree_found found;
    uint8_t out[128], small[3] = "##";
    const char want[] = "doc\n├── a\n│   ├── 1\n│   └── 2\n└── b = x\n";
    expect(ptree_draw_document(TEXT("{\"b\": \"x\", \"a\": [1, 2]}"), TEXT("doc"), PTREE_JSON, PTREE_CARGO_TREE, ALL, out, 128, &found)
        == PTREE_DONE && found.bytes == sizeof want - 1 && memcmp(out, want, sizeof want - 1) == 0, "a JSON document");
    expect(ptree_draw_document(TEXT("b = \"x\"\na = [1, 2]\n"), TEXT("doc"), PTREE_TOML, PTREE_CARGO_TREE, ALL, out, 128, &found)
        == PTREE_DONE && found.bytes == sizeof want - 1 && memcmp(out, want, sizeof want - 1) == 0, "a TOML document");
    expect(ptree_draw_document(TEXT("[1]"), TEXT("doc"), PTREE_JSON, PTREE_DEFAULT, 0, small, 2, &found) == PTREE_DONE
        && found.bytes == 4 && memcmp(small, "do", 3) == 0, "a document into little room");
    expect(ptree_draw_document(TEXT("5"), TEXT(""), PTREE_JSON, PTREE_DEFAULT, ALL, out, 128, &found) == PTREE_DONE
        && found.bytes == 2 && memcmp(out, "5\n", 2) == 0, "a document under no label");
    expect(ptree_draw_document(TEXT("[1"), TEXT(""), PTREE_JSON, 0, ALL, out, 128, &found) == PTREE_SYNTAX, "bad JSON");
    expect(ptree_draw_document(TEXT("a"), TEXT(""), PTREE_TOML, 0, ALL, out, 128, &found) == PTREE_SYNTAX, "bad TOML");
    expect(ptree_draw_document(TEXT("[1.5]"), TEXT(""), PTREE_JSON, 0, ALL, out, 128, &found) == PTREE_FLOAT, "a float");
    expect(ptree_draw_document(TEXT("a = 1979-05-27"), TEXT(""), PTREE_TOML, 0, ALL, out, 128, &found) == PTREE_DATE, "a date");
    expect(ptree_draw_document(TEXT("\"\xff\""), TEXT(""), PTREE_JSON, 0, ALL, out, 128, &found) == PTREE_UTF8 && found.place == 0,
        "a document that is not UTF-8");
    expect(ptree_draw_document(TEXT("1"), TEXT("\xff"), PTREE_JSON, 0, ALL, out, 128, &found) == PTREE_UTF8 && found.place == 1,
        "a label that is not UTF-8");
    expect(ptree_draw_document(TEXT("1"), TEXT(""), 2, 0, ALL, out, 128, &found) == PTREE_NO_FORMAT, "an unknown format");
    expect(ptree_draw_document(TEXT("1"), TEXT(""), PTREE_JSON, 11, ALL, out, 128, &found) == PTREE_PRESET, "an unknown preset");
}

/* The text of each refusal, by its number, and that of any other number. */
static const char *const refusal_texts[] = {
    "done",
    "out of memory",
    "a text is not UTF-8",
    "no item can have that level there",
    "unknown preset",
    "drawings with these pieces cannot be read back",
    "that line cannot continue the drawing",
    "the text is incomplete",
    "the document is invalid",
    "the document has a float",
    "the document has a date or a time",
    "the text of an item ends before it begins, or beyond the texts",
    "unknown format",
    "a text of the configuration is not UTF-8, or ends beyond its texts",
    "unknown kind of colour",
    "invalid configuration file or variable",
    "an end of an edge is not a node",
    "unknown value of `styled`",
    "unknown error code",
};

static void knows_presets_and_refusals(void) {
    uint8_t out[80];
    for (uint32_t preset = 0; preset <= 10; preset++) expect(ptree_is_readable(preset) == PTREE_DONE, "a preset is readable");
    expect(ptree_is_readable(11) == PTREE_PRESET, "no preset is readable");
    for (uint32_t number = 0; number <= 18; number++) {
        const char *want = refusal_texts[number];
        size_t length = strlen(want);
        expect(ptree_refusal_text(number, out, 80) == length && memcmp(out, want, length) == 0, want);
    }
    expect(ptree_refusal_text(99, out, 0) == 18, "the text of an unknown error code");
}

/* The start of the line of an only child under each preset, which tells the presets apart where their programs do. */
static void draws_as_each_preset(void) {
    const char *want[] = {"└─ a", "└── a", "`-- a", "└── a", "`-- a", "└─a", "`-a", "`--a", "└─ a", "`-a", " \\_ a"};
    const struct ptree_item two[] = {{1, 0}, {2, 1}};
    for (uint32_t preset = 0; preset <= 10; preset++) {
        struct ptree_found found;
        uint8_t out[32];
        size_t length = strlen(want[preset]);
        expect(ptree_draw(two, 2, TEXT("ra"), preset, ALL, out, 32, &found) == PTREE_DONE && found.bytes == length + 3
            && memcmp(out + 2, want[preset], length) == 0, want[preset]);
    }
}

/* A configuration and its texts, in memory of exactly their size. */
struct given {
    struct ptree_config config;
    uint8_t *names;
    size_t length;
};

/* Returns a preset's configuration. Its texts are asked for with each smaller room first. */
static struct given given_by(uint32_t preset) {
    struct given got;
    struct ptree_found found;
    uint8_t *none = room(0);
    expect(ptree_config(preset, &got.config, none, 0, &found) == PTREE_DONE && none[0] == '#', "the size of a configuration");
    free(none);
    got.length = found.bytes;
    for (size_t size = 0; size < got.length; size++) {
        uint8_t *names = room(size);
        expect(ptree_config(preset, &got.config, names, size, &found) == PTREE_DONE && found.bytes == got.length, "part of a configuration");
        free(names);
    }
    got.names = room(got.length);
    expect(ptree_config(preset, &got.config, got.names, got.length, &found) == PTREE_DONE, "a configuration");
    return got;
}

static int part_is(const struct given *given, struct ptree_part part, const char *text) {
    return part.end - part.start == strlen(text) && part.end <= given->length && memcmp(given->names + part.start, text, strlen(text)) == 0;
}

static void makes_configurations(void) {
    struct given given = given_by(PTREE_DEFAULT);
    const struct ptree_config *config = &given.config;
    expect(config->depth == ALL && config->styled == PTREE_TTY && config->indent == 3 && config->padding == 1, "the default's numbers");
    expect(part_is(&given, config->characters.down_and_right, "├") && part_is(&given, config->characters.down, "│")
        && part_is(&given, config->characters.turn_right, "└") && part_is(&given, config->characters.right, "─")
        && part_is(&given, config->characters.empty, " ") && part_is(&given, config->continued, ": "), "the default's texts");
    expect(config->branch.dimmed && !config->branch.bold && !config->leaf.dimmed, "the default's flags");
    expect(config->branch.foreground.kind == PTREE_NO_COLOR && config->leaf.background.kind == PTREE_NO_COLOR, "the default's colours");
    free(given.names);
    for (uint32_t preset = 1; preset <= 10; preset++) free(given_by(preset).names);
    struct ptree_found found = {7, 7, 7};
    struct ptree_config other;
    memset(&other, '#', sizeof other);
    uint8_t none[1];
    expect(ptree_config(11, &other, none, 0, &found) == PTREE_PRESET && found.bytes == 0 && other.depth == 0x23232323, "no preset");
}

/* What is drawn as the configuration says must be this. */
static void draws_as(const struct given *given, const char *want, const char *name) {
    struct ptree_found found;
    uint8_t *out = room(strlen(want));
    expect(ptree_draw_with(items, 4, texts, 6, &given->config, given->names, given->length, out, strlen(want), &found) == PTREE_DONE
        && found.bytes == strlen(want) && found.items == 4 && memcmp(out, want, strlen(want)) == 0, name);
    free(out);
}

/* Drawing as the configuration says must be refused. */
static void refuses_config(const struct given *given, uint32_t refusal, const char *name) {
    struct ptree_found found = {7, 7, 7};
    struct ptree_item got[1];
    uint8_t out[4] = "###";
    expect(ptree_draw_with(items, 4, texts, 6, &given->config, given->names, given->length, out, 3, &found) == refusal
        && found.bytes == 0 && found.place == 0 && memcmp(out, "###", 3) == 0, name);
    expect(ptree_read_with(TEXT("r\n"), &given->config, given->names, given->length, got, 1, out, 3, &found) == refusal, name);
    expect(ptree_draw_document_with(TEXT("1"), TEXT(""), PTREE_JSON, &given->config, given->names, given->length, out, 3, &found) == refusal,
        name);
}

static void draws_by_fields(void) {
    struct given given = given_by(PTREE_CARGO_TREE);
    struct ptree_config *config = &given.config;
    draws_as(&given, drawn, "the fields of a preset");
    config->indent = 3;
    config->depth = 1;
    draws_as(&given, "r\n├─ a\n└─ b\n   : c\n", "other numbers");
    config->characters.right = config->characters.empty;
    config->continued = config->characters.down;
    draws_as(&given, "r\n├  a\n└  b\n   │c\n", "other characters");
    config->depth = 0;
    config->styled = PTREE_ALWAYS;
    config->branch.dimmed = 0;
    config->leaf.bold = 200;
    config->leaf.foreground = (struct ptree_color){.kind = PTREE_FIXED, .red = 9};
    config->leaf.background = (struct ptree_color){.kind = PTREE_RGB, .red = 1, .green = 2, .blue = 3};
    draws_as(&given, "\x1b[1m\x1b[38;5;9m\x1b[48;2;1;2;3mr\x1b[0m\n", "styles");
    config->leaf.background = (struct ptree_color){.kind = PTREE_NAMED, .name = config->characters.empty};
    draws_as(&given, "\x1b[1m\x1b[38;5;9mr\x1b[0m\n", "an unknown name");
    config->styled = PTREE_TTY;
    draws_as(&given, "r\n", "no terminal");
    config->styled = PTREE_TTY + 1;
    refuses_config(&given, PTREE_STYLED, "the first number that styles nothing");
    config->styled = UINT32_MAX;
    refuses_config(&given, PTREE_STYLED, "the last number that styles nothing");
    config->styled = PTREE_TTY;
    config->leaf.foreground.kind = 12;
    refuses_config(&given, PTREE_COLOR, "no colour");
    config->leaf.foreground.kind = UINT32_MAX;
    refuses_config(&given, PTREE_COLOR, "no colour at all");
    config->leaf.foreground.kind = PTREE_WHITE;
    config->continued = (struct ptree_part){given.length, given.length + 1};
    refuses_config(&given, PTREE_NAMES, "a text beyond the texts");
    config->continued = (struct ptree_part){1, 0};
    refuses_config(&given, PTREE_NAMES, "a text that ends before it begins");
    config->continued = (struct ptree_part){SIZE_MAX, SIZE_MAX};
    refuses_config(&given, PTREE_NAMES, "a text far beyond the texts");
    config->continued = (struct ptree_part){0, 1};
    refuses_config(&given, PTREE_NAMES, "a text that is not UTF-8");
    free(given.names);
}

static void reads_by_fields(void) {
    struct given given = given_by(PTREE_CARGO_TREE);
    struct ptree_found found;
    struct ptree_item got[4];
    uint8_t labels[6];
    expect(ptree_read_with(TEXT(drawn), &given.config, given.names, given.length, got, 4, labels, 6, &found) == PTREE_DONE
        && found.items == 4 && found.bytes == 6 && memcmp(labels, texts, 6) == 0 && got[2].level == 2 && got[3].end == 6, "a reading by fields");
    expect(ptree_read_with(TEXT("r\nx\n"), &given.config, given.names, given.length, got, 4, labels, 6, &found) == PTREE_LINE
        && found.place == 2, "the first wrong line");
    given.config.indent = 0;
    given.config.padding = 0;
    given.config.characters.down_and_right = given.config.characters.turn_right = given.config.characters.down;
    given.config.characters.empty = given.config.characters.down;
    expect(ptree_read_with(TEXT("r\n"), &given.config, given.names, given.length, got, 4, labels, 6, &found) == PTREE_PIECES, "pieces");
    free(given.names);
}

static void paints(void) {
    struct ptree_style style = {.underline = 1, .background = {.kind = PTREE_NAMED, .name = {1, 6}}};
    struct ptree_found found;
    uint8_t out[32];
    const char want[] = "\x1b[4m\x1b[48;2;0;128;0mhi\x1b[0m";
    expect(ptree_paint(TEXT("hi"), &style, TEXT("#Green#"), out, 32, &found) == PTREE_DONE && found.bytes == sizeof want - 1
        && memcmp(out, want, sizeof want - 1) == 0, "a painted text");
    expect(ptree_paint(TEXT("\xff"), &style, TEXT("#Green#"), out, 32, &found) == PTREE_UTF8 && found.place == 0, "no text to paint");
    expect(ptree_paint(TEXT("hi"), &style, TEXT("#Gree"), out, 32, &found) == PTREE_NAMES, "a name that is cut off");
}

/* The number that each number of `styled` gives for other output, then for standard output that is no terminal and that is one. */
static void says_what_is_styled(void) {
    const uint32_t want[][3] = {{0, 0, 0}, {1, 1, 1}, {0, 0, 1}, {17, 17, 17}};
    for (uint32_t styled = 0; styled <= 3; styled++) {
        expect(ptree_is_styled(styled, 0, 0) == want[styled][0] && ptree_is_styled(styled, 0, 1) == want[styled][0], "other output");
        expect(ptree_is_styled(styled, 1, 0) == want[styled][1], "no terminal");
        expect(ptree_is_styled(styled, 1, 1) == want[styled][2] && ptree_is_styled(styled, 256, UINT32_MAX) == want[styled][2], "a terminal");
    }
    expect(ptree_is_styled(UINT32_MAX, 1, 1) == PTREE_STYLED, "the last number that styles nothing");
}

static void loads(void) {
    const char file[] = "{\"indent\": 5, \"leaf\": {\"foreground\": \"teal\"}}";
    const char named[] = "PTREE_DEPTH7ptree_indent8HOME/";
    const struct ptree_variable variables[] = {{{0, 11}, {11, 12}}, {{12, 24}, {24, 25}}, {{25, 29}, {29, 30}}};
    struct given given;
    struct ptree_found found;
    given.names = room(100);
    given.length = 100;
    expect(ptree_load(TEXT(file), PTREE_JSON, variables, 3, TEXT(named), &given.config, given.names, 100, &found) == PTREE_DONE
        && given.config.depth == 7 && given.config.indent == 8 && given.config.leaf.foreground.kind == PTREE_NAMED
        && part_is(&given, given.config.leaf.foreground.name, "teal"), "sources");
    expect(ptree_load(TEXT(file), PTREE_NO_FILE, variables, 1, TEXT(named), &given.config, given.names, 100, &found) == PTREE_DONE
        && given.config.depth == 7 && given.config.indent == 3, "no file");
    expect(ptree_load(TEXT("indent = 5\ndepth = 1"), PTREE_TOML, variables, 0, TEXT(""), &given.config, given.names, 100, &found) == PTREE_DONE
        && given.config.depth == 1 && given.config.indent == 5, "a TOML file");
    given.config.depth = 77;
    expect(ptree_load(TEXT("indent = 5\ndepth = \n"), PTREE_TOML, variables, 0, TEXT(""), &given.config, given.names, 100, &found)
        == PTREE_FAULT && found.place == 2 && given.config.depth == 77, "a fault of syntax");
    expect(ptree_load(TEXT("{\"depth\": -1}"), PTREE_JSON, variables, 0, TEXT(""), &given.config, given.names, 100, &found) == PTREE_FAULT
        && found.place == 0, "a fault of a value");
    expect(ptree_load(TEXT("\xff"), PTREE_JSON, variables, 0, TEXT(""), &given.config, given.names, 100, &found) == PTREE_UTF8, "no UTF-8");
    expect(ptree_load(TEXT("\xff"), PTREE_NO_FILE, variables, 0, TEXT(""), &given.config, given.names, 100, &found) == PTREE_DONE,
        "no file is read");
    expect(ptree_load(TEXT("\xff"), PTREE_UNREADABLE, variables, 0, TEXT(""), &given.config, given.names, 100, &found) == PTREE_FAULT
        && found.place == 0, "a file that could not be read");
    expect(ptree_load(TEXT(""), 4, variables, 0, TEXT(""), &given.config, given.names, 100, &found) == PTREE_NO_FORMAT, "no format");
    expect(ptree_load(TEXT(""), PTREE_TOML, variables, 3, TEXT("PTREE_DEPTH7"), &given.config, given.names, 100, &found) == PTREE_NAMES,
        "a variable beyond the texts");
    free(given.names);
}

/* The faults in a file of a format and in two variables must be these, in room of each size. */
static void has_faults(const char *file, uint32_t format, const char *named, size_t count, const char *want, const char *name) {
    const struct ptree_variable variables[] = {{{0, 11}, {11, 12}}, {{12, 24}, {24, 25}}};
    const size_t length = strlen(want);
    struct ptree_config config;
    uint8_t names[64];
    for (size_t size = 0; size <= length + 1; size++) {
        struct ptree_found found = {7, 7, 7};
        uint8_t *out = room(size);
        expect(ptree_faults((const uint8_t *)file, strlen(file), format, variables, 2, (const uint8_t *)named, strlen(named), out, size, &found)
            == PTREE_DONE && found.bytes == length && found.items == count && found.place == 0, name);
        expect(memcmp(out, want, size < length ? size : length) == 0 && (size <= length || out[length] == '#'), name);
        expect((ptree_load((const uint8_t *)file, strlen(file), format, variables, 2, (const uint8_t *)named, strlen(named), &config, names, 64,
            &found) == PTREE_DONE) == (count == 0), "sources without a fault are loaded");
        free(out);
    }
}

static void finds_faults(void) {
    const char right[] = "PTREE_DEPTH7PTREE_STYLED7";
    has_faults("{}", PTREE_JSON, "PTREE_DEPTH7PTREE_INDENT8", 0, "", "no fault");
    has_faults("{\"depth\": -1, \"leaf\": 1}", PTREE_JSON, "PTREE_DEPTHxPTREE_STYLED7", 4,
        "the file's key leaf is not a table\nthe variable PTREE_DEPTH isn't a whole number up to 4294967295\n"
        "the file's key depth isn't a whole number up to 4294967295\nthe variable PTREE_STYLED isn't never, always or tty\n", "each fault");
    has_faults("depth = ", PTREE_TOML, right, 2, "the file has a syntax error\nthe variable PTREE_STYLED isn't never, always or tty\n",
        "a fault of syntax");
    has_faults("\xff", PTREE_UNREADABLE, right, 2, "the file couldn't be read\nthe variable PTREE_STYLED isn't never, always or tty\n",
        "an unreadable file");
    has_faults("\xff", PTREE_NO_FILE, right, 1, "the variable PTREE_STYLED isn't never, always or tty\n", "no file");
    struct ptree_found found;
    const struct ptree_variable variable = {{0, 11}, {11, 12}};
    uint8_t out[4] = "###";
    expect(ptree_faults(TEXT("\xff"), PTREE_TOML, &variable, 0, TEXT(""), out, 3, &found) == PTREE_UTF8 && found.place == 0, "no UTF-8");
    expect(ptree_faults(TEXT("\xff"), 4, &variable, 0, TEXT(""), out, 3, &found) == PTREE_NO_FORMAT, "no format");
    expect(ptree_faults(TEXT(""), PTREE_TOML, &variable, 1, TEXT("PTREE_DEPTH"), out, 3, &found) == PTREE_NAMES, "a value beyond the texts");
    expect(found.bytes == 0 && found.items == 0 && memcmp(out, "###", 3) == 0, "a refusal leaves the room");
}

static void draws_graphs(void) {
    /* a to b, b to a, a to c */
    const size_t ends[] = {1, 2, 3};
    const struct ptree_edge edges[] = {{0, 1}, {1, 0}, {0, 2}}, wrong[] = {{0, 1}, {1, 3}}, far[] = {{SIZE_MAX, 0}};
    struct given given = given_by(PTREE_DEFAULT);
    struct ptree_found found;
    uint8_t out[64];
    const char once[] = "a\n├─ c\n└─ b\n   └─ a!\n", walks[] = "a\n├─ c\n└─ b\n   └─ a\n";
    expect(ptree_draw_once(ends, 3, TEXT("abc"), edges, 3, 0, TEXT("!"), &given.config, given.names, given.length, out, 64, &found) == PTREE_DONE
        && found.bytes == sizeof once - 1 && memcmp(out, once, sizeof once - 1) == 0, "a graph once");
    given.config.depth = 2;
    expect(ptree_draw_walks(ends, 3, TEXT("abc"), edges, 3, 0, &given.config, given.names, given.length, out, 64, &found) == PTREE_DONE
        && found.bytes == sizeof walks - 1 && memcmp(out, walks, sizeof walks - 1) == 0, "the walks of a graph");
    expect(ptree_draw_walks(ends, 3, TEXT("abc"), edges, 3, 3, &given.config, given.names, given.length, out, 64, &found) == PTREE_DONE
        && found.bytes == 1 && out[0] == '\n', "a start that is no node");
    expect(ptree_draw_walks(ends, 0, TEXT(""), edges, 0, 0, &given.config, given.names, given.length, out, 64, &found) == PTREE_DONE
        && found.bytes == 1, "no node");
    given.config.styled = PTREE_ALWAYS;
    given.config.leaf.bold = 1;
    expect(ptree_draw_walks(ends, 3, TEXT("abc"), edges, 3, 3, &given.config, given.names, given.length, out, 64, &found) == PTREE_DONE
        && found.bytes == 9 && memcmp(out, "\x1b[2m\x1b[0m\n", 9) == 0, "the codes of no node");
    given.config.styled = PTREE_NEVER;
    expect(ptree_draw_walks(ends, 3, TEXT("abc"), wrong, 2, 0, &given.config, given.names, given.length, out, 64, &found) == PTREE_EDGE
        && found.place == 1, "an edge to no node");
    expect(ptree_draw_once(ends, 3, TEXT("abc"), far, 1, 0, TEXT(""), &given.config, given.names, given.length, out, 64, &found) == PTREE_EDGE
        && found.place == 0, "an edge from no node");
    expect(ptree_draw_walks(ends, 3, TEXT("ab"), edges, 3, 0, &given.config, given.names, given.length, out, 64, &found) == PTREE_END
        && found.place == 2, "a label beyond the texts");
    expect(ptree_draw_once(ends, 3, TEXT("abc"), edges, 3, 0, TEXT("\xff"), &given.config, given.names, given.length, out, 64, &found)
        == PTREE_NAMES, "a mark that is not UTF-8");
    free(given.names);
}

/* A tree, a graph and sources of a size: a root whose text has `size` bytes over `size` children, each of one byte. */
struct large {
    size_t size, drawn;
    struct given given;
    uint8_t *texts, *out;
};

/* A call of a size must be done, since memory is ample, and find so many bytes. */
static void done(const struct large *large, uint32_t got, const struct ptree_found *found, size_t bytes, const char *name) {
    expect(got == PTREE_DONE && found->bytes == bytes && found->place == 0, name);
    if (got != PTREE_DONE || found->bytes != bytes) {
        printf("  size %zu: refusal %u, %zu bytes, and not %zu\n", large->size, (unsigned)got, found->bytes, bytes);
    }
}

static void draws_and_reads_large(const struct large *large) {
    size_t size = large->size, count = size + 1, room_size = large->drawn;
    const struct given *given = &large->given;
    struct ptree_item *outline = room(count * sizeof *outline);
    struct ptree_step *one_by_one = room(count * sizeof *one_by_one);
    struct ptree_found found;
    uint8_t path[1], *labels = room(2 * size);
    for (size_t i = 0; i < count; i++) {
        outline[i] = (struct ptree_item){size + i, i > 0};
        one_by_one[i] = (struct ptree_step){{i ? size + i - 1 : 0, size + i}, i > 0, i == size};
    }
    done(large, ptree_draw(outline, count, large->texts, 2 * size, PTREE_CARGO_TREE, ALL, large->out, room_size, &found), &found, large->drawn,
        "a large drawing");
    done(large, ptree_draw_with(outline, count, large->texts, 2 * size, &given->config, given->names, given->length, large->out, room_size, &found),
        &found, large->drawn, "a large drawing by fields");
    done(large, ptree_draw_steps(one_by_one, count, large->texts, 2 * size, path, 1, &given->config, given->names, given->length, large->out,
        room_size, &found), &found, large->drawn, "a large drawing of steps");
    done(large, ptree_read(large->out, large->drawn, PTREE_CARGO_TREE, ALL, outline, count, labels, 2 * size, &found), &found, 2 * size,
        "a large reading");
    done(large, ptree_read_with(large->out, large->drawn, &given->config, given->names, given->length, outline, count, labels, 2 * size, &found),
        &found, 2 * size, "a large reading by fields");
    expect(found.items == count && memcmp(labels, large->texts, 2 * size) == 0, "the texts of a large reading");
    free(outline);
    free(one_by_one);
    free(labels);
}

/* The root has an edge to each other node, and the first of these one back, so that its neighbours are drawn last. */
static void draws_large_graphs(struct large *large) {
    size_t size = large->size, *ends = room((size + 1) * sizeof *ends), back = size ? 15 + 2 * size : 0;
    struct given *given = &large->given;
    struct ptree_edge *edges = room((size + 1) * sizeof *edges);
    struct ptree_found found;
    for (size_t i = 0; i <= size; i++) {
        ends[i] = size + i;
        edges[i] = i < size ? (struct ptree_edge){0, i + 1} : (struct ptree_edge){1, 0};
    }
    done(large, ptree_draw_once(ends, size + 1, large->texts, 2 * size, edges, size ? size + 1 : 0, 0, large->texts, size, &given->config,
        given->names, given->length, large->out, large->drawn, &found), &found, large->drawn + back, "a large graph once");
    given->config.depth = 1;
    done(large, ptree_draw_walks(ends, size + 1, large->texts, 2 * size, edges, size ? size + 1 : 0, 0, &given->config, given->names,
        given->length, large->out, large->drawn, &found), &found, large->drawn, "the walks of a large graph");
    given->config.depth = ALL;
    free(ends);
    free(edges);
}

/* A list of `size` numbers, and the text. */
static void draws_large_documents(const struct large *large) {
    size_t size = large->size, length = 0;
    char *document = room(3 * size + 64);
    struct ptree_found found;
    length += (size_t)sprintf(document, "{\"list\": [0");
    for (size_t i = 0; i < size; i++) length += (size_t)sprintf(document + length, ",0");
    length += (size_t)sprintf(document + length, "], \"text\": \"%.*s\"}", (int)size, (const char *)large->texts);
    done(large, ptree_draw_document((const uint8_t *)document, length, TEXT("r"), PTREE_JSON, PTREE_CARGO_TREE, ALL, large->out, large->drawn,
        &found), &found, 2 + 15 + 18 * (size + 1) + 18 + size, "a large document");
    done(large, ptree_draw_document_with((const uint8_t *)document, length, TEXT("r"), PTREE_JSON, &large->given.config, large->given.names,
        large->given.length, large->out, large->drawn, &found), &found, 2 + 15 + 18 * (size + 1) + 18 + size, "a large document by fields");
    free(document);
}

/* A file of `size` keys of no field, and of the text as a marker; and as many variables of no field. */
static void loads_large(const struct large *large) {
    size_t size = large->size, length = 1;
    char *file = room(24 * size + size + 64);
    struct ptree_variable *variables = room(size * sizeof *variables);
    struct ptree_config config;
    struct ptree_found found;
    file[0] = '{';
    for (size_t i = 0; i < size; i++) {
        variables[i] = (struct ptree_variable){{0, 11}, {11, 12}};
        length += (size_t)sprintf(file + length, "\"other_%zu\": 1,\n", i);
    }
    length += (size_t)sprintf(file + length, "\"continued\": \"%.*s\"}", (int)size, (const char *)large->texts);
    expect(ptree_load((const uint8_t *)file, length, PTREE_JSON, variables, size, TEXT("PTREE_OTHER1"), &config, large->out, large->drawn, &found)
        == PTREE_DONE && config.continued.end - config.continued.start == size, "large sources");
    done(large, ptree_faults((const uint8_t *)file, length, PTREE_JSON, variables, size, TEXT("PTREE_OTHER1"), large->out, large->drawn, &found),
        &found, 0, "the faults of large sources");
    free(file);
    free(variables);
}

static void makes_large_calls(void) {
    const size_t sizes[] = {0, 1, 2, 40, 2500, 70000};
    const struct ptree_style bold = {.bold = 1};
    struct ptree_found found;
    for (size_t i = 0; i < sizeof sizes / sizeof *sizes; i++) {
        size_t size = sizes[i];
        struct large large = {size, size + 1 + 12 * size, given_by(PTREE_CARGO_TREE), room(2 * size), room(size + 1 + 12 * size)};
        memset(large.texts, 'x', 2 * size);
        draws_and_reads_large(&large);
        draws_large_graphs(&large);
        draws_large_documents(&large);
        loads_large(&large);
        done(&large, ptree_paint(large.texts, size, &bold, TEXT(""), large.out, large.drawn, &found), &found, size + 8, "a large painted text");
        free(large.given.names);
        free(large.texts);
        free(large.out);
    }
}

static uint32_t call_by_fields(const char *call) {
    static struct ptree_item got[8];
    static uint8_t out[64], names[64];
    static const size_t ends[] = {1, 2, 3};
    static const struct ptree_edge edges[] = {{0, 1}, {1, 0}, {0, 2}};
    static const struct ptree_variable variables[] = {{{0, 11}, {11, 12}}};
    struct ptree_config config;
    struct ptree_found found;
    struct ptree_style style = {.bold = 1, .foreground = {.kind = PTREE_NAMED, .name = {0, 4}}};
    if (strcmp(call, "paint") == 0) return ptree_paint(TEXT("hi"), &style, TEXT("teal"), out, 64, &found);
    if (strcmp(call, "load") == 0) {
        return ptree_load(TEXT("{\"indent\": 5}"), PTREE_JSON, variables, 1, TEXT("PTREE_DEPTH7"), &config, names, 64, &found);
    }
    if (strcmp(call, "faults") == 0) {
        return ptree_faults(TEXT("{\"indent\": \"x\"}"), PTREE_JSON, variables, 1, TEXT("PTREE_DEPTHx"), out, 64, &found);
    }
    uint32_t refusal = ptree_config(PTREE_CARGO_TREE, &config, names, 64, &found);
    if (refusal || strcmp(call, "config") == 0) return refusal;
    if (strcmp(call, "draw_with") == 0) return ptree_draw_with(items, 4, texts, 6, &config, names, 64, out, 64, &found);
    if (strcmp(call, "read_with") == 0) return ptree_read_with(TEXT(drawn), &config, names, 64, got, 8, out, 64, &found);
    if (strcmp(call, "walks") == 0) {
        config.depth = 2;
        return ptree_draw_walks(ends, 3, TEXT("abc"), edges, 3, 0, &config, names, 64, out, 64, &found);
    }
    if (strcmp(call, "steps") == 0) {
        uint8_t path[2];
        return ptree_draw_steps(steps, 4, TEXT("rb\ncxa"), path, 2, &config, names, 64, out, 64, &found);
    }
    if (strcmp(call, "once") == 0) return ptree_draw_once(ends, 3, TEXT("abc"), edges, 3, 0, TEXT("!"), &config, names, 64, out, 64, &found);
    return 98;
}

static uint32_t call_once(const char *call) {
    static struct ptree_item got[8];
    static uint8_t out[64];
    struct ptree_found found;
    if (strcmp(call, "draw") == 0) return ptree_draw(items, 4, texts, 6, PTREE_CARGO_TREE, ALL, out, 64, &found);
    if (strcmp(call, "read") == 0) return ptree_read(TEXT(drawn), PTREE_CARGO_TREE, ALL, got, 8, out, 64, &found);
    if (strcmp(call, "document") == 0) {
        return ptree_draw_document(TEXT("{\"b\": \"x\", \"a\": [1, 2]}"), TEXT("doc"), PTREE_JSON, PTREE_TREE, ALL, out, 64, &found);
    }
    if (strcmp(call, "readable") == 0) return ptree_is_readable(PTREE_TREE);
    return call_by_fields(call);
}

/* Makes a call over many items, whose levels are 1 to 8 again and again, or over one of as many lines. So the cost of an item, or of a
   line, can be counted. */
static uint32_t call_with_many(const char *call, size_t count) {
    struct ptree_item *many = malloc(count * sizeof *many);
    struct ptree_step *given = malloc(count * sizeof *given);
    struct ptree_edge *edges = malloc(count * sizeof *edges);
    size_t *ends = malloc(count * sizeof *ends), size = 64 * count;
    uint8_t *labels = malloc(count), *out = malloc(size), names[64], path[8];
    struct ptree_config config;
    struct ptree_found found = {0};
    uint32_t refusal = ptree_config(PTREE_CARGO_TREE, &config, names, 64, &found);
    memset(labels, 'x', count);
    for (size_t i = 0; i < count; i++) {
        uint32_t level = i ? 1 + (uint32_t)(i - 1) % 8 : 0;
        many[i] = (struct ptree_item){i + 1, level};
        given[i] = (struct ptree_step){{i, i + 1}, level, level > 1};
        edges[i] = (struct ptree_edge){i / 2, i};
        ends[i] = i + 1;
    }
    if (strcmp(call, "steps") == 0) {
        refusal |= ptree_draw_steps(given, count, labels, count, path, 8, &config, names, 64, out, size, &found);
    } else if (strcmp(call, "lines") == 0) {
        memset(labels, '\n', count);
        given->text.end = count;
        refusal |= ptree_draw_steps(given, 1, labels, count, path, 8, &config, names, 64, out, size, &found);
        found.items = found.bytes > count ? count : 0;
    } else if (strcmp(call, "once") == 0) {
        refusal |= ptree_draw_once(ends, count, labels, count, edges, count, 0, TEXT("!"), &config, names, 64, out, size, &found);
        found.items = found.bytes > count ? count : 0;
    } else {
        refusal |= ptree_draw_with(many, count, labels, count, &config, names, 64, out, size, &found);
        size = found.bytes;
        if (strcmp(call, "read_with") == 0) {
            refusal |= ptree_read_with(out, size, &config, names, 64, many, count, labels, count, &found);
        }
    }
    free(many);
    free(given);
    free(edges);
    free(ends);
    free(labels);
    free(out);
    return refusal | (found.items != count);
}

/* Loads a configuration from so many variables of no field, or finds the one fault of a file beside them. */
static uint32_t load_many(const char *call, size_t count) {
    struct ptree_variable *variables = malloc(count * sizeof *variables);
    struct ptree_config config;
    struct ptree_found found = {0};
    uint8_t out[64];
    uint32_t refusal;
    for (size_t i = 0; i < count; i++) variables[i] = (struct ptree_variable){{0, 11}, {11, 12}};
    if (strcmp(call, "load") == 0) {
        refusal = ptree_load(TEXT("{}"), PTREE_JSON, variables, count, TEXT("PTREE_OTHER1"), &config, out, 64, &found);
    } else {
        refusal = ptree_faults(TEXT("{\"depth\": -1}"), PTREE_JSON, variables, count, TEXT("PTREE_OTHER1"), out, 64, &found);
        refusal |= found.items != 1;
    }
    free(variables);
    return refusal | (found.bytes == 0);
}

int main(int count, char **words) {
    if (count > 2) {
        size_t size = strtoul(words[2], NULL, 10);
        int loads_many = strcmp(words[1], "load") == 0 || strcmp(words[1], "faults") == 0;
        return (int)(loads_many ? load_many(words[1], size) : call_with_many(words[1], size));
    }
    if (count > 1) return (int)call_once(words[1]);
    draws_into_each_size();
    draws_to_a_depth();
    refuses_items();
    draws_steps();
    refuses_some_steps();
    reads_into_each_size();
    refuses_texts();
    draws_documents();
    knows_presets_and_refusals();
    draws_as_each_preset();
    makes_configurations();
    draws_by_fields();
    reads_by_fields();
    paints();
    says_what_is_styled();
    loads();
    finds_faults();
    draws_graphs();
    makes_large_calls();
    if (!failed) puts("all calls are right");
    return failed;
}
