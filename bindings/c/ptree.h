/* ptree: draws trees, graphs, and JSON and TOML documents as text, and reads drawings back.
 *
 * Each call except ptree_is_styled and ptree_refusal_text returns 0 (PTREE_DONE), or an error code. On error nothing but `found` is
 * written, except by ptree_draw_steps. No call ends the process, keeps a pointer, or returns memory for you to free: all memory is yours,
 * and a call frees what it allocates before it returns.
 *
 * A result is written to your memory as far as there is room, and `found` gets its whole size, as `snprintf` returns a length. So call
 * with lengths of 0 to learn the size, and again with that much room. Memory behind a result stays as it is. No text ends in a zero byte.
 *
 * No pointer may be NULL, even if its length is 0, and each must be aligned for its type. What a call writes to (`out`, `items`, `texts`,
 * `found`) must not overlap anything else that you give to that call.
 *
 * The library has no state: threads may call it at the same time, each with memory of its own. Drawing documents and graphs takes stack for
 * each level of the tree.
 *
 * There are no callbacks. To draw items that are made on demand, give them to ptree_draw_steps, as many at a call as you like.
 */
#ifndef PTREE_H
#define PTREE_H

#include <stddef.h>
#include <stdint.h>

#ifdef __cplusplus
extern "C" {
#endif

/* The error codes. */
enum ptree_refusal {
    PTREE_DONE = 0,        /* no error */
    PTREE_MEMORY = 1,      /* out of memory */
    PTREE_UTF8 = 2,        /* a text is not UTF-8; `place` says which: an item's place, or that of the argument as each call says */
    PTREE_LEVEL = 3,       /* the item at `place` cannot have its level there, or there is no item; in a step: its level is beyond `path` */
    PTREE_PRESET = 4,      /* unknown preset */
    PTREE_PIECES = 5,      /* drawings with the pieces of the preset or configuration cannot be read back */
    PTREE_LINE = 6,        /* line `place`, counted from 1, cannot continue the drawing */
    PTREE_INCOMPLETE = 7,  /* the text is incomplete: a sibling is missing, or the last line feed */
    PTREE_SYNTAX = 8,      /* the document is invalid */
    PTREE_FLOAT = 9,       /* the document has a float, before any date */
    PTREE_DATE = 10,       /* the document has a date or a time, before any float */
    PTREE_END = 11,        /* the text of the item at `place` ends before it begins, or beyond the texts */
    PTREE_NO_FORMAT = 12,  /* unknown format */
    PTREE_NAMES = 13,      /* a mark, or a text of a configuration, style or variable, is not UTF-8, or ends where it cannot */
    PTREE_COLOR = 14,      /* unknown kind of colour */
    PTREE_FAULT = 15,      /* invalid configuration file or variable (ptree_faults); `place` is the line of wrong syntax, else 0 */
    PTREE_EDGE = 16,       /* an end of the edge at `place` is not a node */
    PTREE_STYLED = 17      /* unknown value of `styled` (ptree_styled) */
};

/* The presets: what a drawing looks like. */
enum ptree_preset {
    PTREE_DEFAULT = 0,           /* the default configuration */
    PTREE_TREE = 1,              /* `tree` */
    PTREE_TREE_ASCII = 2,        /* `tree --charset=ascii` */
    PTREE_CARGO_TREE = 3,        /* `cargo tree` */
    PTREE_CARGO_TREE_ASCII = 4,  /* `cargo tree --charset ascii` */
    PTREE_FINDMNT = 5,           /* `findmnt` */
    PTREE_FINDMNT_ASCII = 6,     /* `findmnt --ascii` */
    PTREE_SQLITE = 7,            /* `explain query plan` of `sqlite3` */
    PTREE_MAVEN = 8,             /* `mvn dependency:tree` */
    PTREE_CLANG = 9,             /* `clang -Xclang -ast-dump` */
    PTREE_PS = 10                /* `ps --forest` */
};

/* The formats of documents. */
enum ptree_format {
    PTREE_JSON = 0,
    PTREE_TOML = 1,
    /* only for ptree_load and ptree_faults, which then read no byte of `file`: */
    PTREE_NO_FILE = 2,    /* there is no file */
    PTREE_UNREADABLE = 3  /* there is a file, but it could not be read, or is not UTF-8 */
};

/* The kinds of colours. */
enum ptree_color_kind {
    PTREE_NO_COLOR = 0,
    PTREE_BLACK = 1,
    PTREE_RED = 2,
    PTREE_GREEN = 3,
    PTREE_YELLOW = 4,
    PTREE_BLUE = 5,
    PTREE_PURPLE = 6,
    PTREE_CYAN = 7,
    PTREE_WHITE = 8,
    PTREE_FIXED = 9,  /* number `red` in the terminal's table of 256 colours */
    PTREE_RGB = 10,   /* `red`, `green` and `blue` */
    PTREE_NAMED = 11  /* the colour named `name`; an unknown name sets no colour */
};

/* When output is styled. */
enum ptree_styled {
    PTREE_NEVER = 0,
    PTREE_ALWAYS = 1,
    PTREE_TTY = 2  /* only on a terminal; a drawing in memory is not styled (ptree_is_styled) */
};

/* The depth that draws and reads every level. */
#define PTREE_ALL_LEVELS UINT32_MAX

/* An item of an outline. The texts of all items follow one another, in the order of drawing: an item's text begins where that of the
 * item before it ends. A text may be any UTF-8, with line feeds and zero bytes too. */
struct ptree_item {
    size_t end;      /* where the item's text ends in the texts */
    uint32_t level;  /* 0 for the first item, the root; for any other at least 1, and at most one more than the item before it */
};

/* What a call found. Each call sets all fields, and those that its comment does not mention to 0. */
struct ptree_found {
    size_t bytes;  /* the bytes of the whole drawing, or of all texts */
    size_t items;  /* the number of items */
    size_t place;  /* on error, the place of what is wrong */
};

/* A text: the bytes from `start` up to `end` of the texts that the call gets with it. */
struct ptree_part {
    size_t start;
    size_t end;
};

/* An item for ptree_draw_steps: its text, its level, and whether it is its parent's last child. */
struct ptree_step {
    struct ptree_part text;
    uint32_t level;   /* 0 for the root */
    uint8_t is_last;  /* 0 if it is not; ignored for a root */
};

/* A colour, or none. Fields that its kind does not use are ignored. */
struct ptree_color {
    uint32_t kind;
    uint8_t red;
    uint8_t green;
    uint8_t blue;
    struct ptree_part name;
};

/* A style. A flag is set if it is not 0. */
struct ptree_style {
    struct ptree_color foreground;
    struct ptree_color background;
    uint8_t bold;
    uint8_t dimmed;
    uint8_t italic;
    uint8_t underline;
    uint8_t blink;
    uint8_t reverse;
    uint8_t hidden;
    uint8_t strikethrough;
};

/* The characters that branches are drawn with; each may be any text. */
struct ptree_characters {
    struct ptree_part down_and_right;
    struct ptree_part down;
    struct ptree_part turn_right;
    struct ptree_part right;
    struct ptree_part empty;
};

/* How a tree is drawn. Its texts are parts of `names`, which each call gets with it. Fill it in with ptree_config or ptree_load, and
 * then change fields as you like; put new texts behind the others in `names`. */
struct ptree_config {
    uint32_t depth;                      /* the greatest level that is drawn; the root has level 0 */
    uint32_t styled;                     /* PTREE_NEVER, PTREE_ALWAYS or PTREE_TTY */
    size_t indent;                       /* how many characters a piece has, with the padding; at least 1 + `padding` */
    size_t padding;                      /* how many `characters.empty` a piece ends in */
    struct ptree_characters characters;
    struct ptree_style branch;
    struct ptree_style leaf;
    struct ptree_part continued;         /* the marker before each further line of a text */
};

/* A variable: its name and its value. */
struct ptree_variable {
    struct ptree_part name;
    struct ptree_part value;
};

/* An edge, by the places of its two nodes. */
struct ptree_edge {
    size_t source;
    size_t target;
};

/* Writes a preset's configuration, with every level, to `config`, and its texts to `names`. On success, `found->bytes` is the length of
 * all texts; with less room, texts of `config` end beyond `names`. Errors: MEMORY, PRESET; `config` and `names` are unchanged. */
uint32_t ptree_config(uint32_t preset, struct ptree_config *config, uint8_t *names, size_t names_length, struct ptree_found *found);

/* Writes the configuration of a file's text and of variables to `config`, and its texts to `names`, as ptree_config does. The names and
 * values of the variables are parts of `texts`; other variables than the library's are ignored. Errors: MEMORY, UTF8 (the file), NO_FORMAT,
 * NAMES (a variable), FAULT; `config` and `names` are unchanged. */
uint32_t ptree_load(const uint8_t *file, size_t file_length, uint32_t format, const struct ptree_variable *variables,
                    size_t variables_count, const uint8_t *texts, size_t texts_length, struct ptree_config *config, uint8_t *names,
                    size_t names_length, struct ptree_found *found);

/* Writes all errors in the file and the variables that ptree_load takes to `out`, one a line. On success, `found->bytes` is the length of
 * all lines, and `found->items` the number of errors: 0 exactly if ptree_load can load these sources. Errors: MEMORY, UTF8 (the file),
 * NO_FORMAT, NAMES (a variable); `out` is unchanged. */
uint32_t ptree_faults(const uint8_t *file, size_t file_length, uint32_t format, const struct ptree_variable *variables,
                      size_t variables_count, const uint8_t *texts, size_t texts_length, uint8_t *out, size_t out_length,
                      struct ptree_found *found);

/* Tells whether output is styled: returns PTREE_ALWAYS if it is, PTREE_NEVER if it is not, and PTREE_STYLED if `styled` is unknown. The
 * other two numbers say whether the output is standard output, and whether that is a terminal: 0 is no, any other number is yes. To draw
 * into memory what you then write there, set the configuration's `styled` to the result. */
uint32_t ptree_is_styled(uint32_t styled, uint32_t is_standard_output, uint32_t is_terminal);

/* Draws items into `out`, by a configuration. On success, `found->bytes` is the length of the whole drawing, and `found->items` the
 * number of items given. Errors: MEMORY, UTF8, LEVEL, END, NAMES, COLOR, STYLED; `out` is unchanged, but after MEMORY it may hold a part of
 * the drawing.
 *
 * To give items styles of their own, paint their texts with ptree_paint, and leave the configuration's style of leaves plain. */
uint32_t ptree_draw_with(const struct ptree_item *items, size_t items_count, const uint8_t *texts, size_t texts_length,
                         const struct ptree_config *config, const uint8_t *names, size_t names_length, uint8_t *out, size_t out_length,
                         struct ptree_found *found);

/* Draws items one by one, as many complete entries at a call as fit, and keeps none of them: so a tree of any size can be drawn with
 * little memory, while its items are made. Give the items in the order of drawing, in as many calls as you like, and with each call the
 * texts of its own items: it takes time for all texts that it gets.
 *
 * `path` says for each level from 1 on whether the last item there is its parent's last child. Give the same bytes to all calls of a
 * drawing. At first they may be anything; there must be as many as the greatest level of the call's items. Each call updates them for
 * the next one; to make `path` longer, copy them. The configuration's depth is ignored: give no items below it.
 *
 * `found->items` is the number of items drawn, and `found->bytes` the length of their entries; `path` is updated for them, also on error.
 * On success `found->place` is 0 if all items were drawn. Otherwise it is the length of the next entry, which did not fit: take away
 * what was drawn, and go on with that item. Errors: MEMORY, UTF8, LEVEL (beyond `path`), END, NAMES, COLOR, STYLED; `place` is the item's
 * with UTF8, LEVEL and END, else 0. Levels and flags are not checked to be those of a tree: each entry is drawn as its flag and those in
 * `path` say. */
uint32_t ptree_draw_steps(const struct ptree_step *steps, size_t steps_count, const uint8_t *texts, size_t texts_length, uint8_t *path,
                          size_t path_length, const struct ptree_config *config, const uint8_t *names, size_t names_length,
                          uint8_t *out, size_t out_length, struct ptree_found *found);

/* Reads a drawing by ptree_draw_with, as ptree_read does. Errors: MEMORY, UTF8 (`place` is 0), PIECES, LINE, INCOMPLETE, NAMES, COLOR,
 * STYLED; `items` and `texts` are unchanged. */
uint32_t ptree_read_with(const uint8_t *text, size_t text_length, const struct ptree_config *config, const uint8_t *names,
                         size_t names_length, struct ptree_item *items, size_t items_count, uint8_t *texts, size_t texts_length,
                         struct ptree_found *found);

/* Draws a document by a configuration, and otherwise as ptree_draw_document does. Errors: those of ptree_draw_document except PRESET, and
 * NAMES, COLOR, STYLED; `out` is unchanged. */
uint32_t ptree_draw_document_with(const uint8_t *text, size_t text_length, const uint8_t *label, size_t label_length, uint32_t format,
                                  const struct ptree_config *config, const uint8_t *names, size_t names_length, uint8_t *out,
                                  size_t out_length, struct ptree_found *found);

/* Draws all walks of a graph from the node at place `start` into `out`. The texts of the nodes follow one another; `ends` says where each
 * ends. A node's neighbours are drawn newest edge first. If the graph has a cycle, only the configuration's depth ends the drawing. If
 * `start` is not the place of a node, one empty line is drawn; if output is styled, it has the codes of branches, but not of leaves.
 * Errors: MEMORY, UTF8, END (`place` is the node's), EDGE, NAMES, COLOR, STYLED; `out` is unchanged. */
uint32_t ptree_draw_walks(const size_t *ends, size_t nodes, const uint8_t *texts, size_t texts_length, const struct ptree_edge *edges,
                          size_t edges_count, size_t start, const struct ptree_config *config, const uint8_t *names,
                          size_t names_length, uint8_t *out, size_t out_length, struct ptree_found *found);

/* Draws a graph as ptree_draw_walks does, but what is below a node only once: at its later places `mark` follows its text instead, unless
 * nothing is below it. So a cycle ends. Errors: those of ptree_draw_walks, and NAMES if the mark is not UTF-8; `out` is unchanged. */
uint32_t ptree_draw_once(const size_t *ends, size_t nodes, const uint8_t *texts, size_t texts_length, const struct ptree_edge *edges,
                         size_t edges_count, size_t start, const uint8_t *mark, size_t mark_length, const struct ptree_config *config,
                         const uint8_t *names, size_t names_length, uint8_t *out, size_t out_length, struct ptree_found *found);

/* Writes a text painted in a style to `out`: the codes, the text, and a reset if there is a code. Names of colours are parts of `names`.
 * On success, `found->bytes` is the whole length. Errors: MEMORY, UTF8 (`place` is 0), NAMES, COLOR; `out` is unchanged. */
uint32_t ptree_paint(const uint8_t *text, size_t text_length, const struct ptree_style *style, const uint8_t *names,
                     size_t names_length, uint8_t *out, size_t out_length, struct ptree_found *found);

/* Draws items into `out`, down to a depth: at 0 only the root. On success, `found->bytes` is the length of the whole drawing, and
 * `found->items` the number of items given. Errors: MEMORY, UTF8, LEVEL, PRESET, END; `out` is unchanged, but after MEMORY it may hold a part of the
 * drawing. */
uint32_t ptree_draw(const struct ptree_item *items, size_t items_count, const uint8_t *texts, size_t texts_length, uint32_t preset,
                    uint32_t depth, uint8_t *out, size_t out_length, struct ptree_found *found);

/* Reads the drawing of a tree with no level beyond `depth`. The text must be, byte for byte, what `ptree_draw` draws of the items that are
 * found. On success, `found->items` is their number, and `found->bytes` the length of their texts. Errors: MEMORY, UTF8 (`place` is 0),
 * PRESET, PIECES, LINE, INCOMPLETE; `items` and `texts` are unchanged. */
uint32_t ptree_read(const uint8_t *text, size_t text_length, uint32_t preset, uint32_t depth, struct ptree_item *items,
                    size_t items_count, uint8_t *texts, size_t texts_length, struct ptree_found *found);

/* Draws a document under a label into `out`, down to a depth. If the label is empty, the root has the text of the value. On success,
 * `found->bytes` is the length of the whole drawing. Errors: MEMORY, UTF8 (`place` is 0 for the document, 1 for the label), PRESET, SYNTAX,
 * FLOAT, DATE, NO_FORMAT; `out` is unchanged. */
uint32_t ptree_draw_document(const uint8_t *text, size_t text_length, const uint8_t *label, size_t label_length, uint32_t format,
                             uint32_t preset, uint32_t depth, uint8_t *out, size_t out_length, struct ptree_found *found);

/* Returns 0 if `ptree_read` can read what `ptree_draw` draws with this preset. Errors: MEMORY, PRESET, PIECES. */
uint32_t ptree_is_readable(uint32_t preset);

/* Writes the text of an error code to `out`, as far as there is room, and returns its whole length. The text is ASCII. Any number has
 * one. */
size_t ptree_refusal_text(uint32_t refusal, uint8_t *out, size_t out_length);

#ifdef __cplusplus
}
#endif

#endif
