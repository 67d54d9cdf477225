/*
 * Takes an input as one call of the library, makes the call on slices of exactly their lengths
 * beside pages that cannot be accessed, and holds all that came of it against the paper. An input:
 *
 *     byte 0         the operation, modulo 8; 8 more for PLAIN; 16 more for a view, whatever the
 *                    operation; 32 more for a small tree, whatever the others; 64 more for dots,
 *                    whatever the others; 128 more for a layout for TreeTeX, whatever the others
 *     byte 1         what is done to the rest, see the bits below
 *     bytes 2, 3     the separation, low byte first, as are all words
 *     bytes 4 to 8   for each slice besides the table, file, text or dots, how many entries more
 *                    than needed, signed
 *     byte 9         the greatest half-width, or 0 for the greatest that is taken
 *     bytes 10 to 13 where a damage goes, and its word
 *     the rest       a table's words, or the bytes of a file or a Newick text; or, with TREE, one
 *                    byte for each node after the root, whose low half says how far it hangs above
 *                    the node before it; or a view's three floats, the level and the place; or a
 *                    small tree's count of nodes and its place, in words; or a count of nodes, in a
 *                    word, and the entries of dots; for TreeTeX, the extra space, in a word, and
 *                    then a table
 *
 * The high half of the rest's byte r says how great the half-width of node r is. With TREE, the
 * lowest word of each of a view's centres says how far the node is from the middle, signed, and the
 * lowest byte of the zoom, modulo 8, which power of 2 eight times the zoom is; a small tree's count
 * is taken modulo 10 and its place modulo 430; and dots are those of a small tree, its place modulo
 * the length of its list, as many entries more than needed as byte 4 says, with the bytes that
 * follow added to them, signed.
 */

#include "hiwenoka.h"
#include "../reference/c/dots.h"
#include "../reference/c/lent.h"
#include "../reference/c/random.h"
#include "../reference/c/small_trees.h"
#include "paper.h"
#include <stdio.h>
#include <string.h>

enum {
    TREE = 1,         /* the rest is a well-formed tree, and a file or a text is of that tree; or a
                         view with its middle near the node; or a small tree, or nearly one, and
                         dots are of that tree */
    TURNED = 2,       /* the tree's nodes but the root are numbered from the last */
    DAMAGED = 4,      /* an entry, a word of the file or of a float, or a byte of the text is
                         replaced */
    CLOSED = 8,       /* then both sums of every block are made right, or dots put in order; and no
                         node of a tree for TreeTeX gets a third child */
    AFTER_GUARD = 16, /* the slices start after a guarded page, and do not end at one */
    CUT = 32,         /* before any damage, a part of the tree is cut off as a stray */
    RING = 64,        /* with CUT: parts of it are joined to rings instead */
    WIDE = 128,       /* a half-width is replaced by the damage's word */
    PLAIN = 256       /* with CLOSED: the plain sums alone are made right */
};

enum { HEAD = 14, MOST_ENTRIES = (MOST_FILE + BLOCK_BYTES) / 2 };

struct input {
    unsigned bits;
    int treetex;
    uint16_t separation, extra;
    int8_t slack[5];
    uint8_t widest;
    uint16_t index, word;
    const uint8_t *rest;
    size_t rest_len;
};

/* How large a drawing is, what conflicts it has and, for TreeTeX, how many nodes are significant, for
   the fuzzer to keep what is new in any, as small trees take every branch already; and how many trees
   of how many nodes fit dots. */
#define COUNTERS __attribute__((section("__libfuzzer_extra_counters"))) static uint8_t
COUNTERS drawn[4][12][12];
COUNTERS fitted[MOST_SMALL + 1][6];

/* The count of binary digits. */
static size_t digits(size_t number)
{
    return number == 0 ? 0 : 1 + digits(number / 2);
}

static size_t at_most(size_t number, size_t bound)
{
    return number < bound ? number : bound;
}

/* The length of a slice for which so many entries are needed. */
static size_t length(const struct input *input, int slice, size_t needed)
{
    int slack = input->slack[slice];
    return slack < 0 && needed < (size_t)-slack ? 0 : needed + (size_t)slack;
}

/* So many half-widths, of which those of the first nodes hang on the rest and the others are any
   words; with WIDE, one of them is the damage's. */
static void widths_of(const struct input *input, size_t nodes, uint16_t *half_widths, size_t len)
{
    size_t greatest = input->widest == 0 ? MOST_HALF_WIDTH : input->widest;
    make_tapes(half_widths, len);
    for (size_t node = 0; node < nodes && node < len; node++) {
        size_t high = node < input->rest_len ? input->rest[node] / 16u : 0;
        half_widths[node] = (uint16_t)(greatest * high / 15);
    }
    if ((input->bits & WIDE) && len > 0) {
        half_widths[input->index % len] = input->word;
    }
}

/* A byte says that a node is the child of the node before it, of that node's parent, and so on. */
static size_t tree_of(const struct input *input, uint16_t *table)
{
    static const uint8_t climbs[16] = {0, 0, 0, 0, 0, 0, 0, 1, 1, 1, 1, 2, 2, 3, 6, 255};
    uint16_t parent[MOST_NODES + 1] = {0}, last[MOST_NODES + 1];
    size_t nodes = 1 + at_most(input->rest_len, MOST_NODES), children[MOST_NODES + 1] = {0};
    size_t most = input->treetex && (input->bits & CLOSED) ? 2 : nodes;
    memset(table, 0xff, 4 * nodes);
    for (size_t node = 1; node < nodes; node++) {
        size_t above = node - 1;
        for (unsigned steps = climbs[input->rest[node - 1] % 16]; steps > 0 && above > 0; steps--) {
            above = parent[above];
        }
        above = children[above] < most ? above : node - 1;
        children[above]++;
        int turned = (input->bits & TURNED) != 0;
        uint16_t number = (uint16_t)(turned ? nodes - node : node);
        size_t under = turned && above > 0 ? nodes - above : above;
        *(table[2 * under] == NONE ? &table[2 * under] : &table[2 * last[above] + 1]) = number;
        last[above] = number;
        parent[node] = (uint16_t)above;
    }
    if ((input->bits & CUT) && nodes > 1) {
        damage_tree(table, nodes, input->bits & RING ? 14 : 5);
    }
    return 2 * nodes;
}

static size_t table_of(const struct input *input, uint16_t *table)
{
    size_t len = at_most(input->rest_len / 2, MOST_ENTRIES);
    if (input->bits & TREE) {
        len = tree_of(input, table);
    } else {
        memcpy(table, input->rest, 2 * len);
    }
    if ((input->bits & DAMAGED) && len > 1) {
        /* Mostly a word that names a node. */
        table[input->index % len]
            = input->word >= 0x8000 ? input->word : (uint16_t)(input->word % (len / 2));
    }
    return len;
}

static size_t file_of(const struct input *input, uint8_t *file)
{
    size_t bytes = at_most(input->rest_len, MOST_FILE + BLOCK_BYTES);
    if (input->bits & TREE) {
        uint16_t table[2 * MOST_NODES + 2], tapes[2 * MOST_NODES], half_widths[MOST_NODES];
        size_t nodes = at_most(tree_of(input, table) / 2, MOST_NODES);
        make_tapes(tapes, 2 * nodes);
        widths_of(input, nodes, half_widths, nodes);
        bytes = make_sheet(file, table, tapes, half_widths, nodes, input->separation);
    } else {
        memcpy(file, input->rest, bytes);
    }
    size_t blocks = bytes / BLOCK_BYTES;
    if ((input->bits & DAMAGED) && blocks > 0) {
        put_word(file, 0, input->index % (blocks * BLOCK_WORDS), input->word);
    }
    for (size_t block = 0; (input->bits & CLOSED) && block < blocks; block++) {
        (input->bits & PLAIN ? close_plain_sum : close_block)(file, block);
    }
    return bytes;
}

static size_t text_of(const struct input *input, uint8_t *text)
{
    size_t bytes = at_most(input->rest_len, MOST_TEXT + 1);
    if (input->bits & TREE) {
        uint16_t table[2 * MOST_NODES + 2], labels[2 * MOST_NODES + 2];
        make_labels(labels, tree_of(input, table) / 2);
        bytes = make_text(text, table, labels);
    } else {
        memcpy(text, input->rest, bytes);
    }
    if ((input->bits & DAMAGED) && bytes > 0) {
        text[input->index % bytes] = (uint8_t)input->word;
    }
    return bytes;
}

/* The table of the tree whose nodes have their children in reverse order. */
static void mirror_plainly(const uint16_t *table, size_t len, uint16_t *mirrored)
{
    memset(mirrored, 0xff, 2 * len);
    for (size_t node = 0; node < len / 2; node++) {
        for (uint16_t child = table[2 * node]; child != NONE; child = table[2 * child + 1]) {
            mirrored[2 * child + 1] = mirrored[2 * node];
            mirrored[2 * node] = child;
        }
    }
}

/* The table of the tree whose nodes are numbered parent first, and their old numbers. */
static void renumber_plainly(const uint16_t *table, size_t nodes, uint16_t *renumbered,
                             uint16_t *old)
{
    uint16_t new[MOST_NODES];
    number_parents_first(table, old);
    for (size_t node = 0; node < nodes; node++) {
        new[old[node]] = (uint16_t)node;
    }
    for (size_t i = 0; i < 2 * nodes; i++) {
        uint16_t named = table[2 * old[i / 2] + i % 2];
        renumbered[i] = named == NONE ? NONE : new[named];
    }
}

static void expect_word(const struct lent *lent, size_t word)
{
    expect(*(uint16_t *)lent->start == word, "a result field is that of the paper");
}

static void expect_number(const struct lent *input, unsigned number, unsigned wanted)
{
    expect(number == wanted, "the number is that of the paper");
    expect_written(input, 0);
}

static void check_table(const uint16_t *entries, size_t len)
{
    struct lent table = lend_input(entries, 2 * len), nodes = lend_output(2);
    unsigned number = hiwenoka_check_table(table.start, len, nodes.start);
    expect_number(&table, number, table_number(entries, len));
    expect_word(&nodes, number == 0 ? len / 2 : 0);
}

static void mirror(const struct input *input, const uint16_t *entries, size_t len)
{
    uint16_t mirrored[2 * MOST_NODES];
    size_t out_len = length(input, 0, len);
    struct lent table = lend_input(entries, 2 * len), out = lend_output(2 * out_len);
    unsigned number = hiwenoka_mirror(table.start, len, out.start, out_len);
    unsigned wanted = table_number(entries, len);
    expect_number(&table, number, wanted != 0 ? wanted : out_len < len ? 7 : 0);
    if (number == 0) {
        mirror_plainly(entries, len, mirrored);
    }
    expect_words(&out, mirrored, number == 0 ? len : 0);
}

static void renumber(const struct input *input, const uint16_t *entries, size_t len)
{
    uint16_t old[MOST_NODES], renumbered[2 * MOST_NODES];
    size_t nodes = len / 2, out_len = length(input, 0, len), map_len = length(input, 1, nodes);
    struct lent table = lend_input(entries, 2 * len);
    struct lent out = lend_output(2 * out_len), map = lend_output(2 * map_len);
    unsigned number = hiwenoka_renumber(table.start, len, out.start, out_len, map.start, map_len);
    unsigned wanted = table_number(entries, len);
    expect_number(&table, number, wanted != 0 ? wanted : out_len < len || map_len < nodes ? 7 : 0);
    if (number == 0) {
        renumber_plainly(entries, nodes, renumbered, old);
    }
    expect_words(&out, renumbered, number == 0 ? len : 0);
    expect_words(&map, old, number == 0 ? nodes : 0);
}

/* What the paper says of places without naming them. */
static void expect_promises(const uint16_t *entries, const int32_t *place, size_t nodes,
                            int32_t separation, const uint16_t *half_widths,
                            const struct levels *levels)
{
    expect(place[0] == 0, "the root is at 0");
    for (size_t i = 0; i < 2 * levels->pairs; i += 2) {
        uint16_t left = levels->record[i], right = levels->record[i + 1];
        expect(place[right] - place[left] >= needed(separation, half_widths, left, right),
               "neighbours keep the distance they need");
    }
    for (size_t node = 0; node < nodes; node++) {
        uint16_t first = entries[2 * node], last = first;
        while (last != NONE && entries[2 * last + 1] != NONE) {
            last = entries[2 * last + 1];
        }
        expect(first == NONE || place[node] == place[first] + (place[last] - place[first]) / 2,
               "a parent stands in the middle of its children");
    }
}

static void layout(const struct input *input, const uint16_t *entries, size_t len)
{
    static struct drawing drawing;
    static uint16_t half_widths[MOST_NODES + 1 + INT8_MAX];
    /* Slices for a table that is too long anyway need not be longer than for the longest. */
    size_t n = at_most(len / 2, MOST_NODES + 1);
    size_t places_len = length(input, 0, n), levels_len = length(input, 1, n);
    size_t record_len = length(input, 2, 2 * n), work_len = length(input, 3, 16 * n);
    size_t widths_len = length(input, 4, n);
    widths_of(input, n, half_widths, widths_len);
    struct lent table = lend_input(entries, 2 * len);
    struct lent widths = lend_input(half_widths, 2 * widths_len);
    struct lent places = lend_output(4 * places_len), levels = lend_output(2 * levels_len);
    struct lent record = lend_output(2 * record_len), work = lend_output(4 * work_len);
    struct lent nodes = lend_output(2), level_count = lend_output(2), pairs = lend_output(2);
    struct lent least = lend_output(4), greatest = lend_output(4);
    unsigned number
        = input->treetex
              ? hiwenoka_layout_treetex(table.start, len, input->separation, widths.start,
                                        widths_len, input->extra, places.start, places_len,
                                        levels.start, levels_len, record.start, record_len,
                                        work.start, work_len, nodes.start, level_count.start,
                                        least.start, greatest.start, pairs.start)
              : hiwenoka_layout(table.start, len, input->separation, widths.start, widths_len,
                                places.start, places_len, levels.start, levels_len, record.start,
                                record_len, work.start, work_len, nodes.start, level_count.start,
                                least.start, greatest.start, pairs.start);
    unsigned wanted = table_number(entries, len);
    wanted = wanted != 0                                                             ? wanted
             : input->treetex && most_children(entries, n) > 2                       ? 23
             : input->separation < 1 || input->separation > 1024                     ? 6
             : half_widths_refused((struct half_widths){half_widths, widths_len}, n) ? 17
             : input->extra > 1024                                                   ? 24
             : places_len < n || levels_len < n || record_len < 2 * n                ? 7
             : work_len < 16 * n                                                     ? 8
                                                                                     : 0;
    expect_number(&table, number, wanted);
    expect_written(&widths, 0);
    if (number != 0) {
        n = 0;
        drawing.levels.count = drawing.levels.pairs = 0;
        drawing.least = drawing.greatest = 0;
    } else {
        draw(entries, n, input->separation, input->extra, half_widths, &drawing);
        drawn[0][digits(n)][digits(drawing.levels.count)] = 1;
        drawn[1][digits(drawing.conflicts)][digits(drawing.widest)] = 1;
        drawn[2][digits(drawing.widest)][digits(drawing.remainder)] = 1;
        if (input->treetex) {
            drawn[3][digits(drawing.significant)][digits(input->extra)] = 1;
        }
        expect_promises(entries, places.start, n, input->separation, half_widths, &drawing.levels);
    }
    expect(memcmp(places.start, drawing.place, 4 * n) == 0, "the places are those of the rule");
    expect_written(&places, 4 * n);
    expect_words(&levels, drawing.levels.of, n);
    expect(drawing.levels.pairs + drawing.levels.count == n, "as many pairs as nodes less levels");
    expect_words(&record, drawing.levels.record, 2 * drawing.levels.pairs);
    expect_zero(&work, 64 * n);
    expect_written(&work, 64 * n);
    expect_word(&nodes, n);
    expect_word(&level_count, drawing.levels.count);
    expect_word(&pairs, drawing.levels.pairs);
    expect(*(int32_t *)least.start == drawing.least, "the least place");
    expect(*(int32_t *)greatest.start == drawing.greatest, "the greatest place");
}

/* The rest starts with the extra space. */
static void layout_treetex(struct input input)
{
    static uint16_t table[MOST_ENTRIES];
    input.treetex = 1;
    if (input.rest_len >= 2) {
        input.extra = get_word(input.rest, 0, 0);
        input.rest += 2;
        input.rest_len -= 2;
    }
    layout(&input, table, table_of(&input, table));
}

static void write_sheet(const struct input *input, const uint16_t *entries, size_t len)
{
    static uint16_t words[2 * MOST_NODES + 2 + INT8_MAX];
    static uint16_t half_widths[MOST_NODES + 1 + INT8_MAX];
    static uint8_t file[MOST_FILE];
    size_t n = at_most(len / 2, MOST_NODES + 1), tapes_len = length(input, 0, 2 * n);
    size_t out_len = length(input, 1, BLOCK_BYTES * block_count(n));
    size_t widths_len = length(input, 2, n);
    make_tapes(words, tapes_len);
    widths_of(input, n, half_widths, widths_len);
    struct lent table = lend_input(entries, 2 * len), tapes = lend_input(words, 2 * tapes_len);
    struct lent widths = lend_input(half_widths, 2 * widths_len);
    struct lent out = lend_output(out_len), bytes = lend_output(2);
    unsigned number = hiwenoka_write_sheet(table.start, len, input->separation, tapes.start,
                                           tapes_len, widths.start, widths_len, out.start, out_len,
                                           bytes.start);
    unsigned wanted = write_number(entries, len, input->separation, tapes_len,
                                   (struct half_widths){half_widths, widths_len}, out_len);
    expect_number(&table, number, wanted);
    expect_written(&tapes, 0);
    expect_written(&widths, 0);
    size_t written = 0;
    if (number == 0) {
        written = make_sheet(file, entries, words, half_widths, n, input->separation);
    }
    expect_word(&bytes, written);
    expect_bytes(&out, file, written);
}

/* The table, the tape numbers and the half-widths of a file's first rows. */
static void rows_of(const uint8_t *file, size_t nodes, uint16_t *table, uint16_t *tapes,
                    uint16_t *half_widths)
{
    for (size_t node = 0; node < nodes; node++) {
        size_t block = 1 + node / BLOCK_ROWS, word = 2 + ROW_WORDS * (node % BLOCK_ROWS);
        for (size_t i = 0; i < 2; i++) {
            table[2 * node + i] = get_word(file, block, word + i);
            tapes[2 * node + i] = get_word(file, block, word + 2 + i);
        }
        half_widths[node] = get_word(file, block, word + 4);
    }
}

static void read_sheet(const struct input *input, const uint8_t *bytes, size_t len)
{
    uint16_t wanted_table[2 * MOST_NODES], wanted_tapes[2 * MOST_NODES];
    uint16_t wanted_widths[MOST_NODES];
    size_t n = len < BLOCK_BYTES ? 0 : at_most(get_word(bytes, 0, 2), MOST_NODES);
    size_t table_len = length(input, 0, 2 * n), tapes_len = length(input, 1, 2 * n);
    size_t widths_len = length(input, 2, n);
    struct lent file = lend_input(bytes, len);
    struct lent table = lend_output(2 * table_len), tapes = lend_output(2 * tapes_len);
    struct lent widths = lend_output(2 * widths_len);
    struct lent nodes = lend_output(2), separation = lend_output(2);
    unsigned number = hiwenoka_read_sheet(file.start, len, table.start, table_len, tapes.start,
                                          tapes_len, widths.start, widths_len, nodes.start,
                                          separation.start);
    expect_number(&file, number, sheet_number(bytes, len, table_len, tapes_len, widths_len));
    n = number == 0 ? n : 0;
    rows_of(bytes, n, wanted_table, wanted_tapes, wanted_widths);
    expect_words(&table, wanted_table, 2 * n);
    expect_words(&tapes, wanted_tapes, 2 * n);
    expect_words(&widths, wanted_widths, n);
    expect_word(&nodes, n);
    expect_word(&separation, number == 0 ? get_word(bytes, 0, 3) : 0);
}

/* What is printed for a file. Its length. */
static int print_plainly(const uint8_t *file, size_t bytes, char *text)
{
    static struct drawing drawing;
    uint16_t table[2 * MOST_NODES], tapes[2 * MOST_NODES], half_widths[MOST_NODES];
    unsigned number = sheet_number(file, bytes, 2 * MOST_NODES, 2 * MOST_NODES, MOST_NODES);
    size_t nodes = number == 0 ? get_word(file, 0, 2) : 0;
    rows_of(file, nodes, table, tapes, half_widths);
    number = number == 0 ? table_number(table, 2 * nodes) : number;
    if (number == 0 && half_widths_refused((struct half_widths){half_widths, nodes}, nodes)) {
        number = 17;
    }
    if (number != 0) {
        return sprintf(text, "refused %u\n", number);
    }
    uint16_t separation = get_word(file, 0, 3);
    draw(table, nodes, separation, 0, half_widths, &drawing);
    int len = sprintf(text, "sheet %zu %zu %d %d %d\n", nodes, drawing.levels.count, separation,
                      drawing.least, drawing.greatest);
    for (size_t node = 0; node < nodes; node++) {
        uint32_t tape = tapes[2 * node] + 65536 * (uint32_t)tapes[2 * node + 1];
        len += sprintf(text + len, "%zu %d %d %u\n", node, drawing.levels.of[node],
                       drawing.place[node], tape);
    }
    return len;
}

static void list_sheet(const struct input *input, const uint8_t *bytes, size_t len)
{
    static char text[HIWENOKA_TEXT_ROOM + 1];
    size_t out_len = length(input, 0, HIWENOKA_TEXT_ROOM);
    struct lent file = lend_input(bytes, len), out = lend_output(out_len);
    size_t written = hiwenoka_list_sheet(file.start, len, out.start, out_len);
    size_t wanted = out_len < HIWENOKA_TEXT_ROOM ? 0 : (size_t)print_plainly(bytes, len, text);
    expect(written == wanted, "the text is as long as that of the paper");
    expect_bytes(&out, text, wanted);
    expect_written(&file, 0);
}

static void read_newick(const struct input *input, const uint8_t *bytes, size_t len)
{
    static struct family family;
    uint16_t old[MOST_NODES], wanted_table[2 * MOST_NODES], wanted_tapes[2 * MOST_NODES];
    read_text(bytes, len, &family);
    size_t n = at_most(family.nodes, MOST_NODES);
    size_t table_len = length(input, 0, 2 * n), tapes_len = length(input, 1, 2 * n);
    struct lent text = lend_input(bytes, len), nodes = lend_output(2);
    struct lent table = lend_output(2 * table_len), tapes = lend_output(2 * tapes_len);
    unsigned number = hiwenoka_read_newick(text.start, len, table.start, table_len, tapes.start,
                                           tapes_len, nodes.start);
    unsigned wanted = family.nodes == 0                        ? 15
                      : family.nodes > MOST_NODES              ? 16
                      : table_len < 2 * n || tapes_len < 2 * n ? 7
                                                               : 0;
    expect_number(&text, number, wanted);
    n = number == 0 ? n : 0;
    if (n > 0) {
        renumber_plainly(family.table, n, wanted_table, old);
    }
    for (size_t i = 0; i < 2 * n; i++) {
        wanted_tapes[i] = family.labels[2 * old[i / 2] + i % 2];
    }
    expect_words(&table, wanted_table, 2 * n);
    expect_words(&tapes, wanted_tapes, 2 * n);
    expect_word(&nodes, n);
}

/* A view's floats, by their bits, and a node. */
struct sight {
    uint64_t view[3];
    uint16_t level;
    int32_t place;
};

static void sight_of(const struct input *input, struct sight *sight)
{
    uint8_t bytes[30] = {0};
    memcpy(bytes, input->rest, at_most(input->rest_len, sizeof bytes));
    memcpy(sight->view, bytes, 24);
    memcpy(&sight->level, bytes + 24, 2);
    memcpy(&sight->place, bytes + 26, 4);
    if (input->bits & TREE) {
        int16_t across, down;
        memcpy(&across, bytes, 2);
        memcpy(&down, bytes + 8, 2);
        double view[3] = {(double)sight->place - across, 64.0 * sight->level - down,
                          (1 << bytes[16] % 8) / 8.0};
        memcpy(sight->view, view, 24);
    }
    if (input->bits & DAMAGED) {
        memcpy((uint8_t *)sight->view + 2 * (input->index % 12), &input->word, 2);
    }
}

static void on_screen(const struct input *input)
{
    struct sight sight;
    struct judged judged;
    double view[3];
    sight_of(input, &sight);
    judge_node(sight.view, sight.level, sight.place, &judged);
    memcpy(view, sight.view, 24);
    struct lent on = lend_output(1), x = lend_output(8), y = lend_output(8);
    unsigned number = hiwenoka_on_screen(view[0], view[1], view[2], sight.level, sight.place,
                                         on.start, x.start, y.start);
    expect(number == judged.number, "the number is that of the paper");
    expect_bytes(&on, &judged.on, 1);
    expect_bytes(&x, &judged.x, 8);
    expect_bytes(&y, &judged.y, 8);
}

static void small_tree(const struct input *input)
{
    uint8_t bytes[4] = {0};
    memcpy(bytes, input->rest, at_most(input->rest_len, sizeof bytes));
    uint16_t nodes = get_word(bytes, 0, 0), place = get_word(bytes, 0, 1);
    if (input->bits & TREE) {
        nodes %= MOST_SMALL + 2;
        place %= MOST_LISTED + 1;
    }
    /* For a count that has no list anyway the slice need not be longer than for any table. */
    size_t table_len = length(input, 0, 2 * at_most(nodes, MOST_NODES));
    struct lent table = lend_output(2 * table_len);
    unsigned number = hiwenoka_small_tree(nodes, place, table.start, table_len);
    unsigned wanted = nodes < 1 || nodes > MOST_SMALL ? 20
                      : place >= list_length(nodes)   ? 21
                      : table_len < 2 * (size_t)nodes ? 7
                                                      : 0;
    expect(number == wanted, "the number is that of the paper");
    if (number == 0) {
        expect_words(&table, listed_tree(nodes, place), 2 * (size_t)nodes);
    } else {
        expect_written(&table, 0);
    }
}

enum { MOST_DOTS = 512 };

/* The dots of a small tree, its place being modulo the list's length. */
static size_t dots_of_tree(const struct input *input, size_t nodes, size_t place, int32_t *dots)
{
    /* For a count that has no list, those of another. */
    size_t count = nodes < 1 || nodes > MOST_SMALL ? MOST_SMALL : nodes;
    int in_range = input->separation >= 1 && input->separation <= 1024;
    memset(dots, 0, MOST_DOTS * sizeof *dots);
    draw_dots(listed_tree(count, place % list_length(count)), count,
              in_range ? input->separation : 1, dots);
    for (size_t i = 0; i < 2 * count && 4 + i < input->rest_len; i++) {
        dots[i] += (int8_t)input->rest[4 + i];
    }
    return length(input, 0, 2 * nodes);
}

static void trees_of_dots(const struct input *input)
{
    static int32_t entries[MOST_DOTS];
    struct fitting fitting;
    uint8_t bytes[4] = {0};
    memcpy(bytes, input->rest, at_most(input->rest_len, sizeof bytes));
    uint16_t nodes = get_word(bytes, 0, 0);
    size_t len = input->rest_len < 2 ? 0 : at_most((input->rest_len - 2) / 4, MOST_DOTS);
    if (input->bits & TREE) {
        nodes %= MOST_SMALL + 2;
        len = dots_of_tree(input, nodes, get_word(bytes, 0, 1), entries);
    } else if (len > 0) {
        memcpy(entries, input->rest + 2, 4 * len);
    }
    if ((input->bits & DAMAGED) && len > 0) {
        entries[input->index % len] = (int16_t)input->word;
    }
    if (input->bits & CLOSED) {
        sort_dots(entries, len / 2);
    }
    struct lent dots = lend_input(entries, 4 * len);
    struct lent lowest = lend_output(2), count = lend_output(2);
    unsigned number = hiwenoka_trees_of_dots(nodes, dots.start, len, input->separation,
                                             lowest.start, count.start);
    fit_trees(nodes, entries, len, input->separation, &fitting);
    expect_number(&dots, number, fitting.number);
    expect_word(&lowest, fitting.lowest);
    expect_word(&count, fitting.count);
    if (number == 0) {
        fitted[nodes][at_most(fitting.count, 5)] = 1;
    }
}

int LLVMFuzzerInitialize(int *count, char ***words)
{
    (void)count;
    (void)words;
    take_back(AT_END);
    return 0;
}

/* The operations on a table, on a sheet file and on a text. */
static void call(unsigned operation, const struct input *input)
{
    static uint16_t table[MOST_ENTRIES];
    static uint8_t bytes[MOST_TEXT + 1];
    size_t len = operation == 7   ? text_of(input, bytes)
                 : operation >= 5 ? file_of(input, bytes)
                                  : table_of(input, table);
    switch (operation) {
    case 0:
        check_table(table, len);
        break;
    case 1:
        mirror(input, table, len);
        break;
    case 2:
        renumber(input, table, len);
        break;
    case 3:
        layout(input, table, len);
        break;
    case 4:
        write_sheet(input, table, len);
        break;
    case 5:
        read_sheet(input, bytes, len);
        break;
    case 6:
        list_sheet(input, bytes, len);
        break;
    case 7:
        read_newick(input, bytes, len);
        break;
    }
}

int LLVMFuzzerTestOneInput(const uint8_t *data, size_t size)
{
    if (size < HEAD) {
        return 0;
    }
    struct input input = {
        .bits = data[1] + (data[0] / 8 % 2 == 1 ? PLAIN : 0),
        .separation = get_word(data, 0, 1),
        .widest = data[9],
        .index = get_word(data, 0, 5),
        .word = get_word(data, 0, 6),
        .rest = data + HEAD,
        .rest_len = size - HEAD,
    };
    memcpy(input.slack, data + 4, 5);
    /* What is cut off, what the slices hold, a sheet's tapes and a text's labels hang on the input
       alone. */
    seed_random(input.separation + 65536 * (uint64_t)size);
    take_back(input.bits & AFTER_GUARD ? AT_START : AT_END);
    if (data[0] / 128 == 1) {
        layout_treetex(input);
    } else if (data[0] / 64 % 2 == 1) {
        trees_of_dots(&input);
    } else if (data[0] / 32 % 2 == 1) {
        small_tree(&input);
    } else if (data[0] / 16 % 2 == 1) {
        on_screen(&input);
    } else {
        call(data[0] % 8, &input);
    }
    return 0;
}
