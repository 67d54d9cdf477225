/* A Newick text is read from its end: there a node's label stands before its children, and the last
   of these comes first. */

#include "paper.h"

static int is_digit(uint8_t byte)
{
    return byte >= '0' && byte <= '9';
}

/* The number that these digits are, or one beyond all labels. */
static uint64_t label_of(const uint8_t *digits, size_t count)
{
    uint64_t label = 0;
    if (count == 0 || count > 10 || (count > 1 && digits[0] == '0')) {
        return UINT64_MAX;
    }
    for (size_t i = 0; i < count; i++) {
        label = 10 * label + (uint64_t)(digits[i] - '0');
    }
    return label;
}

/* A node to the left of its parent's children so far. */
static void add_node(struct family *family, size_t parent, uint64_t label)
{
    size_t node = family->nodes++;
    if (node < MOST_NODES) {
        uint16_t *table = family->table;
        table[2 * node] = table[2 * node + 1] = NONE;
        if (node > 0) {
            table[2 * node + 1] = table[2 * parent];
            table[2 * parent] = (uint16_t)node;
        }
        family->labels[2 * node] = (uint16_t)label;
        family->labels[2 * node + 1] = (uint16_t)(label >> 16);
    }
}

static int is_tree(const uint8_t *text, size_t bytes, struct family *family)
{
    static uint16_t open[MOST_TEXT + 1]; /* open[depth] is the parent, or nothing at depth 0 */
    size_t depth = 0, start = bytes;
    if (bytes > MOST_TEXT || bytes == 0 || text[--start] != ';') {
        return 0;
    }
    for (;;) {
        size_t end = start;
        while (start > 0 && is_digit(text[start - 1])) {
            start--;
        }
        uint64_t label = label_of(text + start, end - start);
        if (label > UINT32_MAX) {
            return 0;
        }
        add_node(family, open[depth], label);
        if (start > 0 && text[start - 1] == ')') {
            open[++depth] = (uint16_t)(family->nodes - 1);
        } else {
            /* All subtrees that start here end their parents' children. */
            for (; depth > 0 && start > 0 && text[start - 1] == '('; start--) {
                depth--;
            }
            if (depth == 0 || start == 0 || text[start - 1] != ',') {
                return depth == 0 && start == 0;
            }
        }
        start--;
    }
}

void read_text(const uint8_t *text, size_t bytes, struct family *family)
{
    family->nodes = 0;
    if (!is_tree(text, bytes, family)) {
        family->nodes = 0;
    }
}
