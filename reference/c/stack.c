#define _DEFAULT_SOURCE
#include "stack.h"
#include "dots.h"
#include "hiwenoka.h"
#include "lent.h"
#include "random.h"
#include "small_trees.h"
#include <stdio.h>
#include <string.h>
#include <sys/mman.h>
#include <ucontext.h>

/* The stack ends at a guard as large as itself; a call that does not go into the text takes little.
   Clearing more memory may take a few bytes more. */
enum { STACK = 256 << 10, LITTLE = 1 << 10, FEW = 64, PAINT = 0xa5 };

/* A text of parts, some of them repeated; `nodes` is how many it has. */
struct text {
    const char *name, *start, *before, *middle, *after, *end;
    size_t count, nodes;
    unsigned number;
};

static const struct text texts[] = {
    {"a node alone", "", "", "0", "", ";", 0, 1, 0},
    {"a chain", "", "(", "0", ")0", ";", 1023, 1024, 0},
    {"a star", "(", "0,", "0", "", ")0;", 1022, 1024, 0},
    {"a path with a leaf before each node", "", "(0,", "0", ")0", ";", 511, 1023, 0},
    {"a path with a leaf after each node", "", "(", "0", ",0)0", ";", 511, 1023, 0},
    {"a path that turns at each node", "", "(0,(", "0", ",0)0)0", ";", 255, 1021, 0},
    {"a chain of long labels", "", "(", "4294967295", ")4294967295", ";", 1023, 1024, 0},
    {"a chain with a node too many", "", "(", "0", ")0", ";", 1024, 1025, 16},
    {"a star with a node too many", "(", "0,", "0", "", ")0;", 1023, 1025, 16},
    {"the deepest chain", "", "(", "0", ")0", ";", 5460, 5461, 16},
    {"the broadest star", "(", "0,", "0", "", ")0;", 8189, 8191, 16},
    {"the deepest chain without its end", "", "(", "0", ")0", "", 5460, 5461, 15},
    {"opening brackets alone", "", "(", "", "", "", MOST_TEXT, 0, 15},
    {"closing brackets alone", "", ")", "", "", "", MOST_TEXT, 0, 15},
    {"digits alone", "", "0", "", "", "", MOST_TEXT, 0, 15},
};

static uint8_t bytes[MOST_TEXT + 1];
static size_t len;
static uint16_t table[2 * MOST_NODES], tapes[2 * MOST_NODES], nodes, number, separation;

static void put(const char *part, size_t count)
{
    for (; count > 0; count--) {
        size_t part_len = strlen(part);
        expect(len + part_len <= MOST_TEXT, "the text is not too long");
        memcpy(bytes + len, part, part_len);
        len += part_len;
    }
}

static void call(void)
{
    number = hiwenoka_read_newick(bytes, len, table, 2 * MOST_NODES, tapes, 2 * MOST_NODES, &nodes);
}

static void no_call(void)
{
}

/* The bytes of a stack of its own down to the deepest that a function has written to. */
static size_t depth_of(void (*function)(void))
{
    static ucontext_t here, there;
    unsigned char *memory = mmap(NULL, 2 * STACK, PROT_READ | PROT_WRITE,
                                 MAP_PRIVATE | MAP_ANONYMOUS, -1, 0);
    expect(memory != MAP_FAILED && mprotect(memory, STACK, PROT_NONE) == 0, "there is a stack");
    unsigned char *stack = memory + STACK;
    memset(stack, PAINT, STACK);
    expect(getcontext(&there) == 0, "the stack can be changed");
    there.uc_stack.ss_sp = stack;
    there.uc_stack.ss_size = STACK;
    there.uc_link = &here;
    makecontext(&there, function, 0);
    expect(swapcontext(&here, &there) == 0, "the stack can be changed");
    size_t untouched = 0;
    while (untouched < STACK && stack[untouched] == PAINT) {
        untouched++;
    }
    munmap(memory, 2 * STACK);
    return STACK - untouched;
}

static void report_texts(size_t outside)
{
    for (size_t i = 0; i < sizeof texts / sizeof *texts; i++) {
        const struct text *text = &texts[i];
        len = 0;
        put(text->start, 1);
        put(text->before, text->count);
        put(text->middle, 1);
        put(text->after, text->count);
        put(text->end, 1);
        size_t used = depth_of(call) - outside;
        expect(number == text->number, text->name);
        expect(nodes == (number == 0 ? text->nodes : 0), text->name);
        expect(number == 0 || used < LITTLE, "a refused text is not gone into");
        printf("read_newick: %zu bytes of stack: %s, nodes %zu, bytes %zu: gave %u\n", used,
               text->name, text->nodes, len, number);
    }
}

/* The dots of one call. */
static int32_t dots[2 * MOST_SMALL];
static size_t dots_len;
static uint16_t dots_nodes, lowest, count;

static void find(void)
{
    number = hiwenoka_trees_of_dots(dots_nodes, dots, dots_len, separation, &lowest, &count);
}

/* The bytes of a call that must give a number, and a tree that fits or none. */
static size_t found(size_t outside, unsigned wanted, int fits)
{
    size_t used = depth_of(find) - outside;
    expect(number == wanted && (count > 0) == fits, "dots are found, or refused");
    return used;
}

static void take_dots(size_t nodes, size_t place, uint16_t distance)
{
    dots_nodes = (uint16_t)nodes;
    dots_len = 2 * nodes;
    separation = distance;
    lay_out_dots(nodes, place, distance, dots);
}

static size_t report_trees(size_t outside, size_t nodes)
{
    size_t most = 0;
    for (size_t place = 0; place < list_length(nodes); place++) {
        take_dots(nodes, place, 2);
        size_t used = found(outside, 0, 1);
        most = used > most ? used : most;
    }
    printf("trees_of_dots: %zu bytes of stack at most: the dots of each tree, nodes %zu: gave 0\n",
           most, nodes);
    return most;
}

static void report_other(const char *function, const char *name, size_t used, size_t most)
{
    expect(used <= most, "nothing is gone into farther than what is accepted");
    printf("%s: %zu bytes of stack: %s: gave %u\n", function, used, name, number);
}

static void report_dots(size_t outside)
{
    size_t most = 0;
    for (size_t nodes = 1; nodes <= MOST_SMALL; nodes++) {
        size_t used = report_trees(outside, nodes);
        most = used > most ? used : most;
    }
    static const char function[] = "trees_of_dots";
    take_dots(MOST_SMALL, 0, 2);
    dots[1] = 1;
    report_other(function, "dots of no tree", found(outside, 0, 0), most);
    separation = 0;
    report_other(function, "a separation of 0", found(outside, 6, 0), most);
    dots[1] = INT32_MIN;
    dots[2] = 0;
    dots[3] = INT32_MIN;
    report_other(function, "a dot twice", found(outside, 22, 0), most);
    dots[0] = INT32_MIN;
    report_other(function, "a level below 0", found(outside, 22, 0), most);
    dots_len = 0;
    report_other(function, "no dots", found(outside, 22, 0), most);
    dots_nodes = 65535;
    report_other(function, "too many nodes", found(outside, 20, 0), most);
}

/* The layout of one call. */
static int32_t places[MOST_NODES], work[16 * MOST_NODES], least, greatest;
static uint16_t half_widths[MOST_NODES], levels[MOST_NODES], record[2 * MOST_NODES];
static uint16_t extra, level_count, pairs;
static size_t table_nodes;

static void lay_out(void)
{
    number = hiwenoka_layout_treetex(table, 2 * table_nodes, separation, half_widths, table_nodes,
                                     extra, places, MOST_NODES, levels, MOST_NODES, record,
                                     2 * MOST_NODES, work, 16 * MOST_NODES, &nodes, &level_count,
                                     &least, &greatest, &pairs);
}

/* The bytes of a call that must give a number. */
static size_t laid_out(size_t outside, unsigned wanted)
{
    size_t used = depth_of(lay_out) - outside;
    expect(number == wanted, "a tree is laid out, or refused");
    return used;
}

/* Trees of so many nodes, of all shapes with so many children a node at most; those with more than
   two are refused. */
static size_t report_layouts(size_t outside, size_t size, size_t children)
{
    enum { TREES = 200 };
    size_t most = 0, refused = 0;
    table_nodes = size;
    for (size_t tree = 0; tree < TREES; tree++) {
        make_tree(table, size, children);
        make_half_widths(half_widths, size);
        separation = (uint16_t)(1 + below(1024));
        extra = (uint16_t)below(1025);
        unsigned wanted = most_children(table, size) > 2 ? 23 : 0;
        size_t used = laid_out(outside, wanted);
        refused += wanted != 0;
        most = used > most ? used : most;
    }
    printf("layout_treetex: %zu bytes of stack at most: nodes %zu: %zu gave 0, %zu gave 23\n", most,
           size, TREES - refused, refused);
    return most;
}

/* What a layout takes hangs neither on the count of nodes nor on that of levels. */
static void report_treetex(size_t outside)
{
    static const char function[] = "layout_treetex";
    seed_random(1);
    size_t few_nodes = report_layouts(outside, 16, 2), most = few_nodes + FEW;
    expect(most < 8 * LITTLE, "a layout takes little");
    expect(report_layouts(outside, 1, 2) <= most, "a node alone takes no more");
    expect(report_layouts(outside, MOST_NODES, MOST_NODES) <= most, "nor do three children");
    expect(report_layouts(outside, MOST_NODES, 2) <= most, "nor do many nodes");
    extra = 1025;
    report_other(function, "an extra space of 1,025", laid_out(outside, 24), most);
    half_widths[0] = 257;
    report_other(function, "a half-width of 257", laid_out(outside, 17), most);
    separation = 0;
    report_other(function, "a separation of 0", laid_out(outside, 6), most);
    damage_tree(table, MOST_NODES, 14);
    report_other(function, "a ring", laid_out(outside, 14), most);
    table_nodes = 0;
    report_other(function, "no table", laid_out(outside, 1), most);
}

void report_stack(void)
{
    size_t outside = depth_of(no_call);
    report_texts(outside);
    report_dots(outside);
    report_treetex(outside);
}
