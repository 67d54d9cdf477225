/* Tables, sheet files and Newick texts, well-formed and damaged. */

#ifndef INPUTS_H
#define INPUTS_H

#include <stddef.h>
#include <stdint.h>

enum { NONE = 65535, MOST_NODES = 1024 };
enum { BLOCK_WORDS = 256, BLOCK_BYTES = 512, BLOCK_ROWS = 50, MOST_FILE = 22 * BLOCK_BYTES };
enum { ROW_WORDS = 5, MOST_HALF_WIDTH = 256 };
enum { WEIGHTED_WORD = 254, CLOSING_WORD = 255 };
enum { MOST_TEXT = 16384 };

/* A well-formed table of so many nodes, of some shape, numbered at random but for the root. No node
   has more than so many children, at least one. */
void make_tree(uint16_t *table, size_t nodes, size_t most);

/* The most children of a node of a well-formed table. */
size_t most_children(const uint16_t *table, size_t nodes);

/* Damages a well-formed table so that this condition, 2 to 5 or 14, is the first that holds. 5 and
   14 need two nodes; with 5 there may be rings too. */
void damage_tree(uint16_t *table, size_t nodes, unsigned number);

/* Replaces an entry by any number or, mostly, by one that names a node. */
void change_entry(uint16_t *table, size_t nodes);

/* A word of a file's block. */
uint16_t get_word(const uint8_t *file, size_t block, size_t word);
void put_word(uint8_t *file, size_t block, size_t word, size_t value);

/* Makes both of a block's sums right by its check words. */
void close_block(uint8_t *file, size_t block);

/* Makes the plain sum alone zero, by the last word. */
void close_plain_sum(uint8_t *file, size_t block);

/* The blocks of a sheet file of so many nodes. */
size_t block_count(size_t nodes);

/* So many words of any tape numbers. */
void make_tapes(uint16_t *tapes, size_t len);

/* So many half-widths: none, small ones, any, or the greatest. */
void make_half_widths(uint16_t *half_widths, size_t nodes);

/* Makes one of so many half-widths too great. */
void damage_half_widths(uint16_t *half_widths, size_t nodes);

/* Writes the sheet file of a table with two words of tapes and a half-width for each node. Its
   length. */
size_t make_sheet(uint8_t *file, const uint16_t *table, const uint16_t *tapes,
                  const uint16_t *half_widths, size_t nodes, uint16_t separation);

/* Damages a sheet file so that this condition, 9 to 12, is the first that holds. Its new length,
   at most MOST_FILE + BLOCK_BYTES. */
size_t damage_sheet(uint8_t *file, size_t bytes, unsigned number);

/* Two words for each of so many nodes, of a label of any count of digits. */
void make_labels(uint16_t *tapes, size_t nodes);

/* Writes the Newick text of a table with two words of tapes for each node. Its length, below
   MOST_TEXT. */
size_t make_text(uint8_t *text, const uint16_t *table, const uint16_t *tapes);

/* Damages such a text in one of DAMAGES ways so that it is refused with 15. Its new length, at most
   MOST_TEXT + 1. */
enum { DAMAGES = 6 };
size_t damage_text(uint8_t *text, size_t bytes, unsigned way);

#endif
