/* gcc -std=c11 -Wall -Wextra -Werror -Iinclude examples/newick.c crates/exports/out/libexports.a -o newick */
/* Reads a tree from a Newick text, stores it as a sheet file and prints the file's listing. */
#include "hiwenoka.h"
#include <stdio.h>

enum { D = 4 };

int main(void)
{
    static uint8_t newick[16385], file[11264], text[HIWENOKA_TEXT_ROOM];
    static uint16_t table[2048], tapes[2048];
    static const uint16_t half_widths[1024];
    uint16_t nodes, bytes;
    size_t length = fread(newick, 1, sizeof newick, stdin);
    uint16_t number = hiwenoka_read_newick(newick, length, table, 2048, tapes, 2048, &nodes);
    if (number != 0) {
        printf("refused %d\n", number);
        return 0;
    }
    /* What was read is well-formed, so that it can be written; a text has no half-widths. */
    size_t entries = 2 * (size_t)nodes;
    hiwenoka_write_sheet(table, entries, D, tapes, entries, half_widths, nodes,
                         file, sizeof file, &bytes);
    size_t end = hiwenoka_list_sheet(file, bytes, text, sizeof text);
    return fwrite(text, 1, end, stdout) != end;
}
