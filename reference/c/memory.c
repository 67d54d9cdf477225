/*
 * Calls each of the library's functions on very many inputs, every slice and every result lent from
 * memory of exactly its length.
 *
 *     memory guarded ROUNDS SEED   each input twice: slices end at a page that cannot be accessed,
 *                                  then start right after one; inputs lie on read-only pages
 *     memory apart ROUNDS SEED     each slice is a block of its own, for valgrind's memcheck; what
 *                                  is to be written is not initialised
 *     memory stack                 what calls of read_newick, of trees_of_dots and of
 *                                  layout_treetex take of the stack
 */

#include "hiwenoka.h"
#include "dots.h"
#include "levels.h"
#include "lent.h"
#include "random.h"
#include "small_trees.h"
#include "stack.h"
#include <math.h>
#include <stdio.h>
#include <stdlib.h>
#include <string.h>

_Static_assert(HIWENOKA_INTERFACE == 2, "the interface with half-widths");

enum operation {
    CHECK,
    LAYOUT,
    MIRROR,
    RENUMBER,
    READ,
    WRITE,
    LIST,
    NEWICK,
    SCREEN,
    SMALL,
    DOTS,
    TREETEX,
    OPERATIONS
};

static const char *const names[OPERATIONS]
    = {"check_table", "layout",      "mirror",    "renumber",   "read_sheet",    "write_sheet",
       "list_sheet",  "read_newick", "on_screen", "small_tree", "trees_of_dots", "layout_treetex"};

/* The numbers that each operation can give, as bits. */
static const unsigned possible[OPERATIONS]
    = {0x403f,  0x241ff, 0x40bf,  0x40bf,   0x1e81,   0x260ff,
       0x25ebd, 0x18081, 0xc0001, 0x300081, 0x500041, 0x18241ff};

/* The number that a call must give is not known. */
enum { ANY = 25 };

static unsigned long given[OPERATIONS][ANY];
static enum placing placing;

/* Holds a call's number against the one it must give. */
static void count_number(enum operation operation, unsigned number, unsigned wanted)
{
    expect(number < ANY && (number == wanted || wanted == ANY), names[operation]);
    given[operation][number]++;
}

/* The same, and its table or file against what it was. */
static void expect_number(enum operation operation, const struct lent *input, unsigned number,
                          unsigned wanted)
{
    count_number(operation, number, wanted);
    expect_written(input, 0);
}

/* A result field: written, and 0 after a refusal. */
static void expect_field(const struct lent *field, unsigned number)
{
    expect_written(field, field->bytes);
    if (number != 0) {
        expect_zero(field, field->bytes);
    }
}

static void check_table(const uint16_t *entries, size_t len, unsigned wanted)
{
    take_back(placing);
    struct lent table = lend_input(entries, 2 * len), nodes = lend_output(2);
    uint16_t number = hiwenoka_check_table(table.start, len, nodes.start);
    expect_number(CHECK, &table, number, wanted);
    expect_field(&nodes, number);
    expect(number != 0 || *(uint16_t *)nodes.start == len / 2, "n is half the length");
}

/* Half-widths for so many nodes, and then a few words of any kind. */
static void make_widths(uint16_t *widths, size_t nodes)
{
    make_half_widths(widths, nodes);
    make_tapes(widths + nodes, 16);
}

static const uint16_t *some_widths(size_t nodes)
{
    static uint16_t widths[MOST_NODES + 17];
    make_widths(widths, nodes);
    return widths;
}

/* The same with one of them too great. */
static const uint16_t *wrong_widths(size_t nodes)
{
    static uint16_t widths[MOST_NODES + 17];
    make_widths(widths, nodes);
    damage_half_widths(widths, nodes);
    return widths;
}

/* Counts of entries. */
struct lengths {
    size_t widths, places, levels, record, work;
};

/* D and E; the plain layout has no E. */
struct spaces {
    uint16_t separation, extra;
};

static void lay_out(enum operation operation, const uint16_t *entries, size_t len,
                    struct spaces spaces, const uint16_t *half_widths, struct lengths lengths,
                    unsigned wanted)
{
    take_back(placing);
    struct lent table = lend_input(entries, 2 * len);
    struct lent widths = lend_input(half_widths, 2 * lengths.widths);
    struct lent places = lend_output(4 * lengths.places), levels = lend_output(2 * lengths.levels);
    struct lent record = lend_output(2 * lengths.record), work = lend_output(4 * lengths.work);
    struct lent nodes = lend_output(2), level_count = lend_output(2), pairs = lend_output(2);
    struct lent least = lend_output(4), greatest = lend_output(4);
    uint16_t number
        = operation == LAYOUT
              ? hiwenoka_layout(table.start, len, spaces.separation, widths.start, lengths.widths,
                                places.start, lengths.places, levels.start, lengths.levels,
                                record.start, lengths.record, work.start, lengths.work, nodes.start,
                                level_count.start, least.start, greatest.start, pairs.start)
              : hiwenoka_layout_treetex(table.start, len, spaces.separation, widths.start,
                                        lengths.widths, spaces.extra, places.start, lengths.places,
                                        levels.start, lengths.levels, record.start, lengths.record,
                                        work.start, lengths.work, nodes.start, level_count.start,
                                        least.start, greatest.start, pairs.start);
    expect_number(operation, &table, number, wanted);
    expect_written(&widths, 0);
    expect_field(&nodes, number);
    expect_field(&level_count, number);
    expect_field(&least, number);
    expect_field(&greatest, number);
    expect_field(&pairs, number);
    size_t n = *(uint16_t *)nodes.start;
    static struct levels walked;
    walked.count = walked.pairs = 0;
    if (number == 0) {
        expect(n == len / 2, "n is half the length");
        walk_levels(entries, n, &walked);
    }
    expect(*(uint16_t *)level_count.start == walked.count, "the count of levels");
    expect(*(uint16_t *)pairs.start == walked.pairs, "the count of pairs");
    expect(walked.pairs + walked.count == n, "as many pairs as nodes less levels");
    expect_written(&places, 4 * n);
    expect_words(&levels, walked.of, n);
    expect_words(&record, walked.record, 2 * walked.pairs);
    expect_written(&work, 64 * n);
    expect_zero(&work, 64 * n);
}

static void layout(const uint16_t *entries, size_t len, uint16_t separation,
                   const uint16_t *half_widths, struct lengths lengths, unsigned wanted)
{
    lay_out(LAYOUT, entries, len, (struct spaces){separation, 0}, half_widths, lengths, wanted);
}

static void layout_treetex(const uint16_t *entries, size_t len, struct spaces spaces,
                           const uint16_t *half_widths, struct lengths lengths, unsigned wanted)
{
    lay_out(TREETEX, entries, len, spaces, half_widths, lengths, wanted);
}

static void mirror(const uint16_t *entries, size_t len, size_t out_len, unsigned wanted)
{
    take_back(placing);
    struct lent table = lend_input(entries, 2 * len), out = lend_output(2 * out_len);
    uint16_t number = hiwenoka_mirror(table.start, len, out.start, out_len);
    expect_number(MIRROR, &table, number, wanted);
    expect_written(&out, number == 0 ? 2 * len : 0);
}

static void renumber(const uint16_t *entries, size_t len, size_t out_len, size_t map_len,
                     unsigned wanted)
{
    take_back(placing);
    struct lent table = lend_input(entries, 2 * len);
    struct lent out = lend_output(2 * out_len), map = lend_output(2 * map_len);
    uint16_t number = hiwenoka_renumber(table.start, len, out.start, out_len, map.start, map_len);
    expect_number(RENUMBER, &table, number, wanted);
    expect_written(&out, number == 0 ? 2 * len : 0);
    expect_written(&map, number == 0 ? len : 0);
}

static void read_sheet(const uint8_t *bytes, size_t len, size_t table_len, size_t tapes_len,
                       size_t widths_len, unsigned wanted)
{
    take_back(placing);
    struct lent file = lend_input(bytes, len);
    struct lent table = lend_output(2 * table_len), tapes = lend_output(2 * tapes_len);
    struct lent widths = lend_output(2 * widths_len);
    struct lent nodes = lend_output(2), separation = lend_output(2);
    uint16_t number = hiwenoka_read_sheet(file.start, len, table.start, table_len, tapes.start,
                                          tapes_len, widths.start, widths_len, nodes.start,
                                          separation.start);
    expect_number(READ, &file, number, wanted);
    expect_field(&nodes, number);
    expect_field(&separation, number);
    size_t n = *(uint16_t *)nodes.start;
    expect_written(&table, 4 * n);
    expect_written(&tapes, 4 * n);
    expect_written(&widths, 2 * n);
}

/* Counts of tape words, of half-widths and of bytes. */
struct room {
    size_t tapes, widths, out;
};

static void write_sheet(const uint16_t *entries, size_t len, uint16_t separation,
                        const uint16_t *half_widths, struct room room, unsigned wanted)
{
    static uint16_t words[2 * MOST_NODES + 16];
    static uint8_t file[MOST_FILE];
    make_tapes(words, room.tapes);
    take_back(placing);
    struct lent table = lend_input(entries, 2 * len), tapes = lend_input(words, 2 * room.tapes);
    struct lent widths = lend_input(half_widths, 2 * room.widths);
    struct lent out = lend_output(room.out), bytes = lend_output(2);
    uint16_t number = hiwenoka_write_sheet(table.start, len, separation, tapes.start, room.tapes,
                                           widths.start, room.widths, out.start, room.out,
                                           bytes.start);
    expect_number(WRITE, &table, number, wanted);
    expect_written(&tapes, 0);
    expect_written(&widths, 0);
    expect_field(&bytes, number);
    size_t written
        = number == 0 ? make_sheet(file, entries, words, half_widths, len / 2, separation) : 0;
    expect(*(uint16_t *)bytes.start == written, "the length of the file");
    expect_bytes(&out, file, written);
}

/* The number that a listing says; 7, for want of room, is said by no text. ANY if it says none. */
static unsigned number_in(const char *text, size_t bytes)
{
    for (unsigned number = 1; number < ANY; number++) {
        char line[16];
        size_t len = number == 7 ? 0 : (size_t)sprintf(line, "refused %u\n", number);
        if (bytes == len && memcmp(text, line, len) == 0) {
            return number;
        }
    }
    return memcmp(text, "sheet ", 6) == 0 ? 0 : ANY;
}

static void list_sheet(const uint8_t *bytes, size_t len, size_t out_len, unsigned wanted)
{
    take_back(placing);
    struct lent file = lend_input(bytes, len), out = lend_output(out_len);
    size_t written = hiwenoka_list_sheet(file.start, len, out.start, out_len);
    expect_written(&out, written);
    expect_number(LIST, &file, number_in(out.start, written), wanted);
}

static void read_newick(const uint8_t *bytes, size_t len, size_t table_len, size_t tapes_len,
                        unsigned wanted)
{
    take_back(placing);
    struct lent text = lend_input(bytes, len), nodes = lend_output(2);
    struct lent table = lend_output(2 * table_len), tapes = lend_output(2 * tapes_len);
    uint16_t number = hiwenoka_read_newick(text.start, len, table.start, table_len, tapes.start,
                                           tapes_len, nodes.start);
    expect_number(NEWICK, &text, number, wanted);
    expect_field(&nodes, number);
    size_t n = *(uint16_t *)nodes.start;
    expect_written(&table, 4 * n);
    expect_written(&tapes, 4 * n);
}

struct view {
    double across, down, zoom;
};

/* Where a view shows a node. */
struct seen {
    uint8_t on;
    double x, y;
};

static const struct seen off = {0, 0, 0};

static void on_screen(struct view view, uint16_t level, int32_t place, unsigned wanted,
                      struct seen seen)
{
    take_back(placing);
    struct lent on = lend_output(1), x = lend_output(8), y = lend_output(8);
    uint16_t number = hiwenoka_on_screen(view.across, view.down, view.zoom, level, place, on.start,
                                         x.start, y.start);
    count_number(SCREEN, number, wanted);
    expect_bytes(&on, &seen.on, 1);
    expect_bytes(&x, &seen.x, 8);
    expect_bytes(&y, &seen.y, 8);
}

static void small_tree(size_t nodes, size_t place, size_t len, unsigned wanted)
{
    take_back(placing);
    struct lent table = lend_output(2 * len);
    uint16_t number = hiwenoka_small_tree((uint16_t)nodes, (uint16_t)place, table.start, len);
    count_number(SMALL, number, wanted);
    if (number == 0) {
        expect_words(&table, listed_tree(nodes, place), 2 * nodes);
    } else {
        expect_written(&table, 0);
    }
}

/* The lowest place and how many trees fit. */
struct fit {
    uint16_t lowest, count;
};

static struct fit trees_of_dots(size_t nodes, const int32_t *entries, size_t len,
                                uint16_t separation, unsigned wanted)
{
    take_back(placing);
    struct lent dots = lend_input(entries, 4 * len);
    struct lent lowest = lend_output(2), count = lend_output(2);
    uint16_t number = hiwenoka_trees_of_dots((uint16_t)nodes, dots.start, len, separation,
                                             lowest.start, count.start);
    expect_number(DOTS, &dots, number, wanted);
    expect_field(&lowest, number);
    expect_field(&count, number);
    return (struct fit){*(uint16_t *)lowest.start, *(uint16_t *)count.start};
}

/* Often a small one. */
static uint16_t some_separation(void)
{
    return (uint16_t)(1 + below(below(2) == 0 ? 4 : 1024));
}

/* Below the range or above it. */
static uint16_t wrong_separation(void)
{
    return (uint16_t)(below(4) == 0 ? 0 : 1025 + below(64511));
}

static struct spaces some_spaces(void)
{
    return (struct spaces){some_separation(), (uint16_t)below(below(2) == 0 ? 4 : 1025)};
}

static uint16_t wrong_extra(void)
{
    return (uint16_t)(1025 + (below(2) == 0 ? 0 : below(64511)));
}

/* Just long enough for so many nodes. */
static struct lengths exact(size_t nodes)
{
    return (struct lengths){nodes, nodes, nodes, 2 * nodes, 16 * nodes};
}

static struct room exact_room(size_t nodes)
{
    return (struct room){2 * nodes, nodes, BLOCK_BYTES * block_count(nodes)};
}

/* The six operations on a table, with slices that are just long enough. */
static void every_operation(const uint16_t *table, size_t len, unsigned wanted)
{
    size_t nodes = (len + 1) / 2;
    unsigned for_treetex = wanted == 0 && most_children(table, nodes) > 2 ? 23 : wanted;
    check_table(table, len, wanted);
    layout(table, len, some_separation(), some_widths(nodes), exact(nodes), wanted);
    layout_treetex(table, len, some_spaces(), some_widths(nodes), exact(nodes), for_treetex);
    mirror(table, len, 2 * nodes, wanted);
    renumber(table, len, 2 * nodes, nodes, wanted);
    write_sheet(table, len, some_separation(), some_widths(nodes), exact_room(nodes), wanted);
}

/* Lengths that are wrong for any table. */
static void wrong_lengths(void)
{
    uint16_t table[2 * (MOST_NODES + 1)];
    make_tree(table, MOST_NODES + 1, MOST_NODES);
    size_t lengths[] = {0, 1, 3, 2047, 2049, 2050};
    every_operation(table, lengths[below(6)], 1);
}

/* A file's listing, with just enough room and with too little. */
static void listings(const uint8_t *file, size_t bytes, unsigned wanted)
{
    list_sheet(file, bytes, HIWENOKA_TEXT_ROOM, wanted);
    list_sheet(file, bytes, below(4) == 0 ? 0 : HIWENOKA_TEXT_ROOM - 1, 7);
}

static void damaged_tables(const uint16_t *table, size_t nodes)
{
    static const unsigned numbers[] = {2, 3, 4, 5, 14};
    uint16_t damaged[2 * MOST_NODES], tapes[2 * MOST_NODES];
    uint8_t file[MOST_FILE];
    make_tapes(tapes, 2 * nodes);
    for (size_t i = 0; i < (nodes == 1 ? 3 : 5); i++) {
        memcpy(damaged, table, 4 * nodes);
        damage_tree(damaged, nodes, numbers[i]);
        every_operation(damaged, 2 * nodes, numbers[i]);
        /* The tree is judged before the half-widths. */
        const uint16_t *widths = below(2) == 0 ? some_widths(nodes) : wrong_widths(nodes);
        size_t bytes = make_sheet(file, damaged, tapes, widths, nodes, some_separation());
        listings(file, bytes, numbers[i]);
    }
    memcpy(damaged, table, 4 * nodes);
    for (size_t count = 1 + below(4); count > 0; count--) {
        change_entry(damaged, nodes);
    }
    every_operation(damaged, 2 * nodes, ANY);
}

/* One of a layout's slices shorter, and the number that it gives. */
static unsigned shorten(struct lengths *lengths, unsigned slice, size_t by)
{
    lengths->places -= slice == 0 ? by : 0;
    lengths->levels -= slice == 1 ? by : 0;
    lengths->record -= slice == 2 ? by : 0;
    lengths->work -= slice == 3 ? by : 0;
    lengths->widths -= slice == 4 ? by : 0;
    return slice == 4 ? 17 : slice == 3 ? 8 : 7;
}

/* All of them longer than so many nodes need. */
static struct lengths longer_than(size_t nodes)
{
    struct lengths longer = exact(nodes);
    longer.widths += 1 + below(9);
    longer.places += 1 + below(9);
    longer.levels += 1 + below(9);
    longer.record += 1 + below(9);
    longer.work += 1 + below(33);
    return longer;
}

/* Slices one too short, empty and longer than needed. */
static void other_lengths(const uint16_t *table, size_t nodes)
{
    size_t len = 2 * nodes, shorter = below(2) == 0 ? 1 : nodes;
    uint16_t separation = some_separation();
    for (unsigned slice = 0; slice < 5; slice++) {
        struct lengths lengths = exact(nodes);
        unsigned number = shorten(&lengths, slice, shorter);
        layout(table, len, separation, some_widths(nodes), lengths, number);
        if (below(2) == 0) {
            layout(table, len, separation, wrong_widths(nodes), lengths, 17);
        } else {
            layout(table, len, wrong_separation(), wrong_widths(nodes), lengths, 6);
        }
    }
    layout(table, len, separation, some_widths(nodes), (struct lengths){nodes, 0, 0, 0, 0}, 7);
    layout(table, len, separation, some_widths(nodes), (struct lengths){0, 0, 0, 0, 0}, 17);
    layout(table, len, separation, wrong_widths(nodes), exact(nodes), 17);
    layout(table, len, separation, some_widths(nodes), longer_than(nodes), 0);
    mirror(table, len, len - shorter, 7);
    mirror(table, len, len + 1 + below(9), 0);
    renumber(table, len, len - shorter, nodes, 7);
    renumber(table, len, len, nodes - shorter, 7);
    renumber(table, len, len + 1 + below(9), nodes + 1 + below(9), 0);
}

/* A tree with at most two children a node, and one with more, laid out for TreeTeX with slices of all
   lengths. Where more than one thing is wrong, the first decides. */
static void sheets_for_treetex(size_t nodes)
{
    uint16_t table[2 * MOST_NODES];
    size_t len = 2 * nodes, shorter = below(2) == 0 ? 1 : nodes;
    make_tree(table, nodes, 2);
    struct spaces spaces = some_spaces(), greatest = {1024, 1024};
    struct spaces too_great = {spaces.separation, wrong_extra()};
    struct spaces both_wrong = {wrong_separation(), wrong_extra()};
    struct lengths enough = exact(nodes), none = {nodes, 0, 0, 0, 0};
    layout_treetex(table, len, spaces, some_widths(nodes), enough, 0);
    layout_treetex(table, len, greatest, some_widths(nodes), longer_than(nodes), 0);
    layout_treetex(table, len, too_great, some_widths(nodes), below(2) == 0 ? enough : none, 24);
    layout_treetex(table, len, too_great, wrong_widths(nodes), below(2) == 0 ? enough : none, 17);
    layout_treetex(table, len, both_wrong, wrong_widths(nodes), enough, 6);
    for (unsigned slice = 0; slice < 5; slice++) {
        struct lengths lengths = enough;
        unsigned number = shorten(&lengths, slice, shorter);
        layout_treetex(table, len, spaces, some_widths(nodes), lengths, number);
    }
    make_tree(table, nodes, MOST_NODES);
    if (most_children(table, nodes) > 2) {
        layout_treetex(table, len, both_wrong, wrong_widths(nodes), none, 23);
    }
}

/* A sheet that is written, with slices of all lengths; again the first decides. */
static void other_rooms(const uint16_t *table, size_t nodes)
{
    size_t len = 2 * nodes;
    struct room room = exact_room(nodes), longer = room, none = {0, 0, 0}, few_tapes = room;
    struct room few_widths = room, small = room, a_block_less = room;
    longer.tapes += 1 + below(9);
    longer.widths += 1 + below(9);
    longer.out += 1 + below(999);
    few_tapes.tapes--;
    few_widths.widths--;
    small.out--;
    a_block_less.out -= BLOCK_BYTES;
    const uint16_t *some = some_widths(nodes), *wrong = wrong_widths(nodes);
    write_sheet(table, len, wrong_separation(), some, room, 6);
    write_sheet(table, len, wrong_separation(), wrong, below(2) == 0 ? few_tapes : none, 6);
    write_sheet(table, len, some_separation(), wrong, few_tapes, 13);
    write_sheet(table, len, some_separation(), some, none, 13);
    write_sheet(table, len, some_separation(), some, few_widths, 17);
    write_sheet(table, len, some_separation(), wrong, below(2) == 0 ? room : small, 17);
    write_sheet(table, len, some_separation(), some, small, 7);
    write_sheet(table, len, some_separation(), some, a_block_less, 7);
    write_sheet(table, len, some_separation(), some, longer, 0);
}

static void sheets(const uint16_t *table, size_t nodes)
{
    uint8_t file[MOST_FILE + BLOCK_BYTES] = {0}, damaged[MOST_FILE + BLOCK_BYTES];
    uint16_t tapes[2 * MOST_NODES];
    make_tapes(tapes, 2 * nodes);
    size_t bytes
        = make_sheet(file, table, tapes, wrong_widths(nodes), nodes, some_separation());
    size_t len = 2 * nodes, shorter = below(2) == 0 ? 1 : nodes;
    /* A half-width is carried as it is, but not laid out. */
    read_sheet(file, bytes, len, len, nodes, 0);
    listings(file, bytes, 17);
    make_sheet(file, table, tapes, some_widths(nodes), nodes, some_separation());
    read_sheet(file, bytes, len, len, nodes, 0);
    read_sheet(file, bytes, len - shorter, len, nodes, 7);
    read_sheet(file, bytes, len, len - shorter, nodes, 7);
    read_sheet(file, bytes, len, len, nodes - shorter, 7);
    read_sheet(file, bytes, len + 1 + below(9), len + 1 + below(9), nodes + 1 + below(9), 0);
    listings(file, bytes, 0);
    list_sheet(file, bytes, HIWENOKA_TEXT_ROOM + 1 + below(9), 0);
    for (unsigned number = 9; number <= 12; number++) {
        memcpy(damaged, file, sizeof file);
        size_t damaged_bytes = damage_sheet(damaged, bytes, number);
        read_sheet(damaged, damaged_bytes, len, len, nodes, number);
        listings(damaged, damaged_bytes, number);
    }
}

static void damaged_texts(const uint8_t *text, size_t bytes, size_t len)
{
    uint8_t damaged[MOST_TEXT + 1];
    for (unsigned way = 0; way < DAMAGES; way++) {
        memcpy(damaged, text, bytes);
        read_newick(damaged, damage_text(damaged, bytes, way), len, len, 15);
    }
    memcpy(damaged, text, bytes);
    for (size_t count = 1 + below(3); count > 0; count--) {
        damaged[below(bytes)] = (uint8_t)"(),;0123456789"[below(14)];
    }
    read_newick(damaged, bytes, len, len, ANY);
}

/* Brackets without end, and a tree with a node too many. */
static void large_texts(size_t len)
{
    uint8_t text[MOST_TEXT];
    uint16_t table[2 * (MOST_NODES + 1)], labels[2 * (MOST_NODES + 1)];
    memset(text, '(', sizeof text);
    read_newick(text, below(2) == 0 ? MOST_TEXT : below(MOST_TEXT), len, len, 15);
    make_tree(table, MOST_NODES + 1, MOST_NODES);
    make_labels(labels, MOST_NODES + 1);
    size_t bytes = make_text(text, table, labels);
    read_newick(text, bytes, len, len, 16);
    read_newick(text, bytes - 1, len, len, 15);
}

static void texts(const uint16_t *table, size_t nodes)
{
    uint8_t text[MOST_TEXT];
    uint16_t labels[2 * MOST_NODES];
    make_labels(labels, nodes);
    size_t bytes = make_text(text, table, labels);
    size_t len = 2 * nodes, shorter = below(2) == 0 ? 1 : len;
    read_newick(text, bytes, len, len, 0);
    read_newick(text, bytes, len - shorter, len, 7);
    read_newick(text, bytes, len, len - shorter, 7);
    read_newick(text, bytes, len + 1 + below(9), len + 1 + below(9), 0);
    damaged_texts(text, bytes, len);
    if (below(8) == 0) {
        large_texts(len);
    }
}

/* A whole number of up to this size. */
static int32_t some_number(int32_t most)
{
    return (int32_t)below(2 * (size_t)most + 1) - most;
}

/* A node on screen, off across and off down, and a place and views that are refused. */
static void views(void)
{
    static const double zooms[] = {0.125, 0.25, 0.5, 1, 2, 4, 8};
    static const double others[] = {0, -0.0, -1, 3, 16, 0.0625, NAN, INFINITY};
    static const double not_whole[] = {0.5, -2097152.5, 5e-324, NAN, -INFINITY};
    double zoom = zooms[below(7)];
    int32_t place = some_number(1000000), far = 2097153 + (int32_t)below(1000000);
    int32_t across = some_number((int32_t)(960 / zoom)), down = some_number((int32_t)(540 / zoom));
    uint16_t level = (uint16_t)below(30000);
    struct view view = {place - across, 64 * level - down, zoom}, other = view, wrong = view;
    on_screen(view, level, place, 0, (struct seen){1, across * zoom, down * zoom});
    on_screen(view, level, place + (across < 0 ? -16000 : 16000), 0, off);
    on_screen(view, (uint16_t)(level + 200), place, 0, off);
    on_screen(view, level, below(2) == 0 ? far : -far, 19, off);
    other.zoom = others[below(8)];
    on_screen(other, level, below(2) == 0 ? place : far, 18, off);
    *(below(2) == 0 ? &wrong.across : &wrong.down) = below(2) == 0 ? far : not_whole[below(5)];
    on_screen(wrong, level, place, 19, off);
}

/* A tree of a list, the place after its last or one farther on, and a count that has no list. */
static void small_trees(void)
{
    size_t nodes = 1 + below(MOST_SMALL), len = 2 * nodes, length = list_length(nodes);
    size_t past = below(2) == 0 ? length : length + below(65536 - length);
    size_t other = below(4) == 0 ? 0 : MOST_SMALL + 1 + below(below(2) == 0 ? 4 : 65527);
    size_t place = below(length), lengths[] = {0, 1, len - 1, len, len + 1 + below(9)};
    small_tree(nodes, place, len, 0);
    small_tree(nodes, place, len - 1, 7);
    small_tree(nodes, place, below(len), 7);
    small_tree(nodes, place, lengths[4], 0);
    small_tree(nodes, past, lengths[below(5)], 21);
    small_tree(other, below(2) == 0 ? place : past, lengths[below(5)], 20);
}

/* A length of other than two entries for each node, up to nine more. */
static size_t wrong_length(size_t nodes)
{
    size_t len = below(2 * nodes + 9);
    return len < 2 * nodes ? len : len + 1;
}

/* The dots of a tree of a list, found again, with the root elsewhere and with any dot elsewhere;
   and dots, counts and separations that are refused. Where more than one thing is wrong, the first
   decides. */
static void plots(void)
{
    size_t nodes = 1 + below(MOST_SMALL), len = 2 * nodes, place = below(list_length(nodes));
    size_t other = below(4) == 0 ? 0 : MOST_SMALL + 1 + below(below(2) == 0 ? 4 : 65527);
    uint16_t separation = some_separation();
    uint16_t any_separation = below(2) == 0 ? separation : wrong_separation();
    int32_t dots[2 * MOST_SMALL + 9] = {0}, changed[2 * MOST_SMALL + 9];
    lay_out_dots(nodes, place, separation, dots);
    struct fit fit = trees_of_dots(nodes, dots, len, separation, 0);
    expect(fit.count > 0 && fit.lowest <= place, "the tree is found again");
    lay_out_dots(nodes, fit.lowest, separation, changed);
    expect(memcmp(changed, dots, 4 * len) == 0, "the lowest has the same dots");
    memcpy(changed, dots, sizeof dots);
    changed[1] = below(2) == 0 ? 1 + (int32_t)below(INT32_MAX) : -1 - (int32_t)below(INT32_MAX);
    fit = trees_of_dots(nodes, changed, len, separation, 0);
    expect(fit.count == 0 && fit.lowest == 0, "no tree has its root elsewhere");
    memcpy(changed, dots, sizeof dots);
    changed[1 + 2 * below(nodes)] += below(2) == 0 ? 1 : -(int32_t)separation;
    trees_of_dots(nodes, changed, len, separation, ANY);
    trees_of_dots(nodes, dots, wrong_length(nodes), any_separation, 22);
    memcpy(changed, dots, sizeof dots);
    changed[2 * below(nodes)] = below(2) == 0 ? -1 - (int32_t)below(INT32_MAX)
                                              : MOST_SMALL + (int32_t)below(INT32_MAX - MOST_SMALL);
    trees_of_dots(nodes, changed, len, any_separation, 22);
    if (nodes > 1) {
        size_t later = 1 + below(nodes - 1);
        memcpy(changed, dots, sizeof dots);
        memcpy(changed + 2 * below(later), dots + 2 * later, 8);
        trees_of_dots(nodes, changed, len, any_separation, 22);
    }
    trees_of_dots(nodes, dots, len, wrong_separation(), 6);
    trees_of_dots(other, dots, below(2) == 0 ? len : wrong_length(nodes), any_separation, 20);
}

/* Small trees often, and those at the edges of a block and of the whole range. */
static size_t some_size(void)
{
    static const size_t edges[] = {1, 2, 49, 50, 51, 100, 101, 1000, 1001, 1023, 1024};
    switch (below(4)) {
    case 0:
        return edges[below(11)];
    case 1:
        return 1 + below(MOST_NODES);
    default:
        return 1 + below(48);
    }
}

static void one_round(uint64_t seed)
{
    uint16_t table[2 * MOST_NODES];
    seed_random(seed);
    size_t nodes = some_size();
    make_tree(table, nodes, MOST_NODES);
    every_operation(table, 2 * nodes, 0);
    other_lengths(table, nodes);
    sheets_for_treetex(nodes);
    other_rooms(table, nodes);
    wrong_lengths();
    damaged_tables(table, nodes);
    sheets(table, nodes);
    texts(table, nodes);
    views();
    small_trees();
    plots();
}

/* Every number that an operation can give must have been given, and no other. */
static void report(void)
{
    for (int operation = 0; operation < OPERATIONS; operation++) {
        unsigned seen = 0;
        printf("%s:", names[operation]);
        for (unsigned number = 0; number < ANY; number++) {
            if (given[operation][number] != 0) {
                seen |= 1u << number;
                printf(" %lu gave %u,", given[operation][number], number);
            }
        }
        printf(" no other\n");
        expect(seen == possible[operation], "every number was given");
    }
}

int main(int count, char **words)
{
    if (count == 2 && strcmp(words[1], "stack") == 0) {
        report_stack();
        return 0;
    }
    if (count != 4) {
        fprintf(stderr, "usage: memory guarded|apart ROUNDS SEED, or memory stack\n");
        return 2;
    }
    int guarded = strcmp(words[1], "guarded") == 0;
    uint64_t rounds = strtoull(words[2], NULL, 0), seed = strtoull(words[3], NULL, 0);
    seed_random(seed);
    take_back(guarded ? AT_END : APART);
    for (uint64_t round = 0; round < rounds; round++) {
        placing = guarded ? AT_END : APART;
        one_round(seed + round);
        if (guarded) {
            placing = AT_START;
            one_round(seed + round);
        }
    }
    take_back(placing);
    report();
    return 0;
}
