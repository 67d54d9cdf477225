#include "paper.h"

static int names_beyond(const uint16_t *table, size_t len)
{
    for (size_t i = 0; i < len; i++) {
        if (table[i] != NONE && table[i] >= len / 2) {
            return 1;
        }
    }
    return 0;
}

static int names_too_often(const uint16_t *table, size_t len)
{
    unsigned times[MOST_NODES] = {1}; /* the root may be named by no entry */
    for (size_t i = 0; i < len; i++) {
        if (table[i] != NONE && ++times[table[i]] > 1) {
            return 1;
        }
    }
    return 0;
}

static int leaves_unnamed(const uint16_t *table, size_t len)
{
    int named[MOST_NODES] = {1}; /* the root need not be named */
    for (size_t i = 0; i < len; i++) {
        if (table[i] != NONE) {
            named[table[i]] = 1;
        }
    }
    for (size_t node = 0; node < len / 2; node++) {
        if (!named[node]) {
            return 1;
        }
    }
    return 0;
}

static int leaves_unreached(const uint16_t *table, size_t len)
{
    int reached[MOST_NODES] = {1};
    uint16_t found[MOST_NODES] = {0};
    size_t count = 1;
    for (size_t next = 0; next < count; next++) {
        for (size_t entry = 0; entry < 2; entry++) {
            uint16_t node = table[2 * found[next] + entry];
            if (node != NONE && !reached[node]) {
                reached[node] = 1;
                found[count++] = node;
            }
        }
    }
    return count < len / 2;
}

unsigned table_number(const uint16_t *table, size_t len)
{
    return len % 2 == 1 || len == 0 || len > 2 * MOST_NODES ? 1
           : names_beyond(table, len)                       ? 2
           : table[1] != NONE                               ? 3
           : names_too_often(table, len)                    ? 4
           : leaves_unnamed(table, len)                     ? 5
           : leaves_unreached(table, len)                   ? 14
                                                            : 0;
}

int half_widths_refused(struct half_widths half_widths, size_t nodes)
{
    for (size_t node = 0; node < nodes; node++) {
        if (node >= half_widths.len || half_widths.of[node] > 256) {
            return 1;
        }
    }
    return 0;
}

/* Whether the file's layout leaves this word open, or it has the value that is fixed. */
static int fits(const uint8_t *file, size_t blocks, size_t nodes, size_t block, size_t word)
{
    size_t rows = block + 1 < blocks ? BLOCK_ROWS : nodes - BLOCK_ROWS * (blocks - 2);
    size_t value = get_word(file, block, word);
    if (block == 0) {
        return word == 0 || word == 2 || word == 3 || word >= 254 || value == (word == 1);
    }
    if (word == 1) {
        return value == rows;
    }
    return word == 0 || word >= 254 || word < 2 + 5 * rows || value == 0;
}

/* Whether word 254 is the sum of the words before it, each times one more than its index, and all
   words add up to 0, modulo 65536. */
static int sound(const uint8_t *file, size_t block)
{
    uint32_t plain = 0, weighted = 0;
    for (size_t word = 0; word < BLOCK_WORDS; word++) {
        plain += get_word(file, block, word);
    }
    for (uint32_t word = 0; word < 254; word++) {
        weighted += (word + 1) * get_word(file, block, word);
    }
    return weighted % 65536 == get_word(file, block, 254) && plain % 65536 == 0;
}

unsigned sheet_number(const uint8_t *file, size_t bytes, size_t table_len, size_t tapes_len,
                      size_t widths_len)
{
    size_t blocks = bytes / BLOCK_BYTES;
    if (bytes % BLOCK_BYTES != 0 || bytes < 1024 || bytes > 11264) {
        return 9;
    }
    for (size_t block = 0; block < blocks; block++) {
        if (!sound(file, block)) {
            return 10;
        }
    }
    for (size_t block = 0; block < blocks; block++) {
        if (get_word(file, block, 0) != block) {
            return 11;
        }
    }
    size_t nodes = get_word(file, 0, 2), separation = get_word(file, 0, 3);
    if (nodes < 1 || nodes > 1024 || separation < 1 || separation > 1024) {
        return 12;
    }
    if (blocks != block_count(nodes)) {
        return 12;
    }
    for (size_t block = 0; block < blocks; block++) {
        for (size_t word = 0; word < BLOCK_WORDS; word++) {
            if (!fits(file, blocks, nodes, block, word)) {
                return 12;
            }
        }
    }
    return table_len < 2 * nodes || tapes_len < 2 * nodes || widths_len < nodes ? 7 : 0;
}

unsigned write_number(const uint16_t *table, size_t len, uint16_t separation, size_t tapes_len,
                      struct half_widths half_widths, size_t out_len)
{
    unsigned number = table_number(table, len);
    return number != 0                                    ? number
           : separation < 1 || separation > 1024          ? 6
           : tapes_len < len                              ? 13
           : half_widths_refused(half_widths, len / 2)    ? 17
           : out_len < BLOCK_BYTES * block_count(len / 2) ? 7
                                                          : 0;
}
