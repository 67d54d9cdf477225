/*
 * Stores a tree, its tape numbers and its half-widths as a sheet file, reads the file back and
 * prints its listing. From the repository's root:
 *
 *     gcc -std=c11 -Wall -Wextra -Werror -Iinclude examples/write.c crates/exports/out/libexports.a -o write
 */

#include "hiwenoka.h"
#include <stdio.h>
#include <string.h>

enum { NONE = 65535, N = 6, D = 4 };

int main(void)
{
    /* Tape 900 was copied to 901 and 902, and 902 to 903, 904 and 70000, which is 65536 + 4464. */
    const uint16_t table[2 * N] = {1, NONE, NONE, 2, 3, NONE, NONE, 4, NONE, 5, NONE, NONE};
    const uint16_t tapes[2 * N] = {900, 0, 901, 0, 902, 0, 903, 0, 904, 0, 4464, 1};
    /* The shelf marks of 902 and 904 are long. */
    const uint16_t half_widths[N] = {0, 0, 6, 0, 3, 0};
    static uint8_t file[11264], text[HIWENOKA_TEXT_ROOM];
    uint16_t table_read[2 * N], tapes_read[2 * N], half_widths_read[N], bytes, nodes, separation;
    uint16_t number = hiwenoka_write_sheet(table, 2 * N, D, tapes, 2 * N, half_widths, N,
                                           file, sizeof file, &bytes);
    if (number != 0) {
        printf("refused %d\n", number);
        return 1;
    }
    number = hiwenoka_read_sheet(file, bytes, table_read, 2 * N, tapes_read, 2 * N,
                                 half_widths_read, N, &nodes, &separation);
    if (number != 0 || nodes != N || separation != D || memcmp(table_read, table, sizeof table) != 0
        || memcmp(tapes_read, tapes, sizeof tapes) != 0
        || memcmp(half_widths_read, half_widths, sizeof half_widths) != 0) {
        printf("not read as written\n");
        return 1;
    }
    size_t end = hiwenoka_list_sheet(file, bytes, text, sizeof text);
    return fwrite(text, 1, end, stdout) != end;
}
