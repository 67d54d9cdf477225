#include "inputs.h"
#include "random.h"
#include <stdio.h>
#include <string.h>

enum { SHAPES = 8 };

/* The parent of a node among those before it. */
static size_t parent_of(size_t node, size_t shape)
{
    switch (shape) {
    case 0: /* a chain */
        return node - 1;
    case 1: /* a star */
        return 0;
    case 2: /* two children each */
        return (node - 1) / 2;
    case 3: /* broad families */
        return (node - 1) / 20;
    case 4: /* a path with three leaves at each of its nodes */
        return (node - 1) / 4 * 4;
    case 5: /* a path with a chain at each of its nodes */
        return node % 32 == 0 ? node - 32 : node - 1;
    case 6: /* one of the latest few */
        return node - 1 - below(node < 4 ? node : 4);
    default:
        return below(node);
    }
}

void make_tree(uint16_t *table, size_t nodes, size_t most)
{
    uint16_t numbers[MOST_NODES + 1], last[MOST_NODES + 1];
    size_t children[MOST_NODES + 1] = {0};
    size_t shape = below(SHAPES), first_in = below(3);
    for (size_t node = 0; node < nodes; node++) {
        size_t other = node == 0 ? 0 : 1 + below(node);
        numbers[node] = numbers[other];
        numbers[other] = (uint16_t)node;
        table[2 * node] = table[2 * node + 1] = NONE;
    }
    for (size_t node = 1; node < nodes; node++) {
        size_t above = parent_of(node, shape);
        above = children[above] < most ? above : node - 1;
        children[above]++;
        uint16_t parent = numbers[above], child = numbers[node];
        if (table[2 * parent] == NONE) {
            table[2 * parent] = last[parent] = child;
        } else if (first_in > below(2)) {
            table[2 * child + 1] = table[2 * parent];
            table[2 * parent] = child;
        } else {
            table[2 * last[parent] + 1] = child;
            last[parent] = child;
        }
    }
}

size_t most_children(const uint16_t *table, size_t nodes)
{
    size_t most = 0;
    for (size_t node = 0; node < nodes; node++) {
        size_t count = 0;
        for (uint16_t child = table[2 * node]; child != NONE; child = table[2 * child + 1]) {
            count++;
        }
        most = count > most ? count : most;
    }
    return most;
}

/* An entry other than node 0's next sibling that names a node, or that names none. */
static size_t some_entry(const uint16_t *table, size_t nodes, int naming)
{
    size_t entry;
    do {
        entry = below(2 * nodes);
    } while (entry == 1 || (table[entry] != NONE) != naming);
    return entry;
}

/* Cuts off what some entry leads to. The node that it named. */
static uint16_t cut_off(uint16_t *table, size_t nodes)
{
    size_t entry = some_entry(table, nodes, 1);
    uint16_t cut = table[entry];
    table[entry] = NONE;
    return cut;
}

/* Cuts off what some entry leads to and joins it to a ring: by first children, by next siblings, or
   mixed. */
static void join_to_ring(uint16_t *table, size_t nodes)
{
    uint16_t first = cut_off(table, nodes), *entry = &first;
    size_t way = below(3);
    while (*entry != NONE) {
        entry = &table[2 * *entry + (way < 2 ? way : below(2))];
    }
    *entry = first;
}

void damage_tree(uint16_t *table, size_t nodes, unsigned number)
{
    switch (number) {
    case 2:
        table[below(2 * nodes)] = (uint16_t)(nodes + below(NONE - nodes));
        break;
    case 3:
        table[1] = (uint16_t)below(nodes);
        break;
    case 4: /* every other node is named already */
        table[some_entry(table, nodes, 0)] = (uint16_t)below(nodes);
        break;
    case 5:
        for (size_t rings = below(3); rings > 0; rings--) {
            join_to_ring(table, nodes);
        }
        cut_off(table, nodes);
        break;
    case 14:
        for (size_t rings = 1 + below(3); rings > 0; rings--) {
            join_to_ring(table, nodes);
        }
        break;
    }
}

void change_entry(uint16_t *table, size_t nodes)
{
    table[below(2 * nodes)] = (uint16_t)(below(8) == 0 ? random_bits() : below(nodes));
}

uint16_t get_word(const uint8_t *file, size_t block, size_t word)
{
    const uint8_t *bytes = file + BLOCK_BYTES * block + 2 * word;
    return (uint16_t)(bytes[0] | bytes[1] << 8);
}

void put_word(uint8_t *file, size_t block, size_t word, size_t value)
{
    uint8_t *bytes = file + BLOCK_BYTES * block + 2 * word;
    bytes[0] = (uint8_t)value;
    bytes[1] = (uint8_t)(value >> 8);
}

void close_block(uint8_t *file, size_t block)
{
    size_t weighted = 0;
    for (size_t word = 0; word < WEIGHTED_WORD; word++) {
        weighted += (word + 1) * get_word(file, block, word);
    }
    put_word(file, block, WEIGHTED_WORD, weighted);
    close_plain_sum(file, block);
}

void close_plain_sum(uint8_t *file, size_t block)
{
    size_t sum = 0;
    for (size_t word = 0; word < CLOSING_WORD; word++) {
        sum += get_word(file, block, word);
    }
    put_word(file, block, CLOSING_WORD, 0 - sum);
}

size_t block_count(size_t nodes)
{
    return 1 + (nodes + BLOCK_ROWS - 1) / BLOCK_ROWS;
}

void make_tapes(uint16_t *tapes, size_t len)
{
    for (size_t i = 0; i < len; i++) {
        tapes[i] = (uint16_t)random_bits();
    }
}

void make_half_widths(uint16_t *half_widths, size_t nodes)
{
    static const size_t bounds[] = {0, 3, MOST_HALF_WIDTH, MOST_HALF_WIDTH};
    size_t kind = below(4);
    for (size_t node = 0; node < nodes; node++) {
        half_widths[node] = (uint16_t)(kind == 3 ? bounds[kind] : below(bounds[kind] + 1));
    }
}

void damage_half_widths(uint16_t *half_widths, size_t nodes)
{
    half_widths[below(nodes)]
        = (uint16_t)(MOST_HALF_WIDTH + 1 + (below(2) == 0 ? 0 : below(65535 - MOST_HALF_WIDTH)));
}

size_t make_sheet(uint8_t *file, const uint16_t *table, const uint16_t *tapes,
                  const uint16_t *half_widths, size_t nodes, uint16_t separation)
{
    size_t blocks = block_count(nodes);
    memset(file, 0, blocks * BLOCK_BYTES);
    put_word(file, 0, 1, 1);
    put_word(file, 0, 2, nodes);
    put_word(file, 0, 3, separation);
    for (size_t node = 0; node < nodes; node++) {
        size_t block = 1 + node / BLOCK_ROWS, row = node % BLOCK_ROWS, word = 2 + ROW_WORDS * row;
        put_word(file, block, 0, block);
        put_word(file, block, 1, row + 1);
        put_word(file, block, word, table[2 * node]);
        put_word(file, block, word + 1, table[2 * node + 1]);
        put_word(file, block, word + 2, tapes[2 * node]);
        put_word(file, block, word + 3, tapes[2 * node + 1]);
        put_word(file, block, word + 4, half_widths[node]);
    }
    for (size_t block = 0; block < blocks; block++) {
        close_block(file, block);
    }
    return blocks * BLOCK_BYTES;
}

/* Exchanges two neighbouring words before the check words that are not equal; a block has such. */
static void swap_words(uint8_t *file, size_t block)
{
    uint16_t one, other;
    size_t word;
    do {
        word = below(WEIGHTED_WORD - 1);
        one = get_word(file, block, word);
        other = get_word(file, block, word + 1);
    } while (one == other);
    put_word(file, block, word, other);
    put_word(file, block, word + 1, one);
}

static void change_word(uint8_t *file, size_t block, size_t word)
{
    put_word(file, block, word, get_word(file, block, word) + 1 + below(65535));
}

/* Makes one of a block's sums wrong, or both. */
static void damage_sums(uint8_t *file, size_t block)
{
    switch (below(5)) {
    case 0:
        file[BLOCK_BYTES * block + below(BLOCK_BYTES)] ^= (uint8_t)(1 << below(8));
        break;
    case 1: /* the plain sum stays right */
        swap_words(file, block);
        break;
    case 2: /* the same: a word of odd weight, so that any change makes the weighted sum wrong */
        change_word(file, block, 2 * below(WEIGHTED_WORD / 2));
        close_plain_sum(file, block);
        break;
    case 3: /* the same */
        change_word(file, block, WEIGHTED_WORD);
        close_plain_sum(file, block);
        break;
    case 4: /* the weighted sum stays right */
        change_word(file, block, CLOSING_WORD);
        break;
    }
}

size_t damage_sheet(uint8_t *file, size_t bytes, unsigned number)
{
    size_t blocks = bytes / BLOCK_BYTES, block = below(blocks);
    switch (number) {
    case 9: {
        size_t lengths[] = {0, 1, BLOCK_BYTES, bytes - 1, bytes + 1, MOST_FILE + BLOCK_BYTES};
        return lengths[below(6)];
    }
    case 10:
        damage_sums(file, block);
        return bytes;
    case 11:
        put_word(file, block, 0, block + 1 + below(65535));
        close_block(file, block);
        return bytes;
    default:
        switch (below(7)) {
        case 0: /* a count of nodes */
            put_word(file, 0, 2, below(2) == 0 ? 0 : MOST_NODES + 1 + below(64511));
            break;
        case 1: /* a separation */
            put_word(file, 0, 3, below(2) == 0 ? 0 : 1025 + below(64511));
            break;
        case 2: /* a word of block 0 that is fixed */
            put_word(file, 0, 4 + below(WEIGHTED_WORD - 4), 1 + below(65535));
            break;
        case 3: /* a count of rows */
            put_word(file, blocks - 1, 1, BLOCK_ROWS + 1 + below(65535 - BLOCK_ROWS));
            close_block(file, blocks - 1);
            break;
        case 4: /* a word between the rows and the check words */
            put_word(file, blocks - 1, 252 + below(2), 1 + below(65535));
            close_block(file, blocks - 1);
            break;
        case 5: /* the word that tells layouts apart */
            put_word(file, 0, 1, below(2) == 0 ? 0 : 2 + below(65534));
            break;
        case 6: /* a block too many, or too few for the nodes */
            if (bytes == MOST_FILE) {
                return bytes - BLOCK_BYTES;
            }
            memcpy(file + bytes, file + bytes - BLOCK_BYTES, BLOCK_BYTES);
            put_word(file, blocks, 0, blocks);
            close_block(file, blocks);
            return bytes + BLOCK_BYTES;
        }
        close_block(file, 0);
        return bytes;
    }
}

void make_labels(uint16_t *tapes, size_t nodes)
{
    for (size_t node = 0; node < nodes; node++) {
        uint64_t label = random_bits() >> (32 + below(32));
        tapes[2 * node] = (uint16_t)label;
        tapes[2 * node + 1] = (uint16_t)(label >> 16);
    }
}

static size_t put_label(uint8_t *text, const uint16_t *words)
{
    return (size_t)sprintf((char *)text, "%u", words[0] + 65536 * (unsigned)words[1]);
}

size_t make_text(uint8_t *text, const uint16_t *table, const uint16_t *tapes)
{
    uint16_t path[MOST_NODES + 1], node = 0;
    size_t depth = 0, bytes = 0;
    for (;;) {
        for (; table[2 * node] != NONE; node = table[2 * node]) {
            path[depth++] = node;
            text[bytes++] = '(';
        }
        bytes += put_label(text + bytes, tapes + 2 * node);
        while (depth > 0 && table[2 * node + 1] == NONE) {
            node = path[--depth];
            text[bytes++] = ')';
            bytes += put_label(text + bytes, tapes + 2 * node);
        }
        if (depth == 0) {
            text[bytes++] = ';';
            return bytes;
        }
        node = table[2 * node + 1];
        text[bytes++] = ',';
    }
}

static size_t put_in(uint8_t *text, size_t bytes, size_t place, uint8_t byte)
{
    memmove(text + place + 1, text + place, bytes - place);
    text[place] = byte;
    return bytes + 1;
}

size_t damage_text(uint8_t *text, size_t bytes, unsigned way)
{
    static const char strange[] = " \n\t:'\"[]_-+a/";
    uint8_t byte = (uint8_t)strange[below(sizeof strange)];
    size_t place = below(bytes);
    switch (way) {
    case 0: /* a byte that no text has */
        text[place] = byte;
        return bytes;
    case 1: /* the same, put in */
        return put_in(text, bytes, below(bytes + 1), byte);
    case 2: /* no end */
        return place;
    case 3: /* a bracket that is not closed */
        return put_in(text, bytes, 0, '(');
    case 4: /* a label with a needless zero: the root's, which is the last */
        for (place = bytes - 1; place > 0 && text[place - 1] >= '0' && text[place - 1] <= '9';) {
            place--;
        }
        return put_in(text, bytes, place, '0');
    default: /* too long */
        memset(text + bytes, text[place], MOST_TEXT + 1 - bytes);
        return MOST_TEXT + 1;
    }
}
