/*
 * Copy sheets: tree tables, their layout, sheet files, Newick text, all small trees, the trees of
 * dots, and what a screen shows.
 *
 * A slice is a pointer and its count of entries. The pointer is aligned and not null even where
 * the count is 0, and no slice or result overlaps another.
 *
 * A tree table has two entries for each node: first child, then next sibling. 65535 means none.
 * Nodes are numbered from 0, and node 0 is the root. n is the count of nodes.
 *
 * Half-widths have one entry for each node, from 0 to 256. The distance that neighbours need is the
 * separation plus both their half-widths.
 *
 * Each function but hiwenoka_list_sheet returns 0 if it accepts, and otherwise the number of the
 * first of its conditions that holds. After a refusal its other results are 0 and every slice is
 * as it was. After an acceptance entries past those named here are as they were.
 *
 *    1  the table's length is odd, 0, or above 2048
 *    2  an entry of the table is neither 65535 nor below n
 *    3  node 0 has a next sibling
 *    4  some node is named by more than one entry, or node 0 by any
 *    5  some node other than 0 is named by no entry: look for the tape that no other names
 *    6  the separation is not in 1 to 1024
 *    7  a slice that is to be written is too short
 *    8  the working slice is too short
 *    9  the file's length is no multiple of 512, below 1024 or above 11264
 *   10  modulo 65536, a block's word 254 is not the sum of words 0 to 253, each times one more than
 *       its index, or the block's 256 words do not add up to 0
 *   11  a block's first word is not its place, counted from 0
 *   12  n or D is not in 1 to 1024, the file's length is not that of n, or a word that the file's
 *       layout fixes differs
 *   13  the slice of tape numbers is too short
 *   14  none of 1 to 5 holds, and some node is not reached from node 0: look for tapes that are
 *       copies of each other in a circle
 *   15  the text is no Newick text of a tree
 *   16  the tree of the text has more than 1024 nodes
 *   17  the slice of half-widths is too short, or a half-width is above 256
 *   18  the zoom is none of 1/8, 1/4, 1/2, 1, 2, 4 and 8
 *   19  a centre is no whole number, or a centre or the place is above 2097152 in size
 *   20  the count of nodes is not in 1 to 8
 *   21  the list of the trees of so many nodes has no such place
 *   22  the slice of dots has other than two entries for each node, a level is not in 0 to 7, or
 *       the dots do not strictly rise by level and then place
 *   23  a node has three or more children
 *   24  the extra space is above 1024
 *
 * A function tries its conditions in the order in which it names them.
 */

#ifndef HIWENOKA_H
#define HIWENOKA_H

#include <stddef.h>
#include <stdint.h>

/* The interface. 2: half-widths. A header without this macro is that of interface 1. */
#define HIWENOKA_INTERFACE 2

#ifdef __cplusplus
extern "C" {
#endif

/* Judges a table: 0 to 5, 14. Writes n to nodes. */
uint16_t hiwenoka_check_table(const uint16_t *table, size_t table_len, uint16_t *nodes);

/*
 * Lays a tree out: 0 to 5, 14; 6; 17 if half_widths has fewer than n entries or one of its first n
 * is above 256; 7 if places or levels has fewer than n entries or record fewer than 2n; 8 if work
 * has fewer than 16n. half_widths has each node's half-width in its first n entries; those past
 * them are not looked at. Writes each node's place to the first n entries of places and its level
 * to the first n of levels, by node number, and the pairs of neighbours, left node first, to the
 * first 2 * pairs entries of record: level by level from the top, left to right on each level. The
 * first 16n entries of work, whatever they held, are 0 afterwards. Writes n to nodes, the count of
 * levels to level_count, the least and the greatest place to least and greatest, and the count of
 * pairs to pairs.
 */
uint16_t hiwenoka_layout(const uint16_t *table, size_t table_len, uint16_t separation,
                         const uint16_t *half_widths, size_t half_widths_len,
                         int32_t *places, size_t places_len,
                         uint16_t *levels, size_t levels_len,
                         uint16_t *record, size_t record_len,
                         int32_t *work, size_t work_len,
                         uint16_t *nodes, uint16_t *level_count,
                         int32_t *least, int32_t *greatest, uint16_t *pairs);

/*
 * Lays a tree out for a sheet that is set with TreeTeX: 0 to 5, 14; 23 if a node has three or more
 * children; 6; 17; 24 if extra is above 1024; then 7 and 8. As hiwenoka_layout in every result and
 * every slice, but for the places: a node with two children is significant if their subtrees were
 * too close on a level below the children's own; then the second child, and all that is below it,
 * stands extra units further right, and the parent in the middle of the two as they then stand.
 * With extra 0, and no node with three children, it gives what hiwenoka_layout gives.
 */
uint16_t hiwenoka_layout_treetex(const uint16_t *table, size_t table_len, uint16_t separation,
                                 const uint16_t *half_widths, size_t half_widths_len,
                                 uint16_t extra,
                                 int32_t *places, size_t places_len,
                                 uint16_t *levels, size_t levels_len,
                                 uint16_t *record, size_t record_len,
                                 int32_t *work, size_t work_len,
                                 uint16_t *nodes, uint16_t *level_count,
                                 int32_t *least, int32_t *greatest, uint16_t *pairs);

/*
 * Reverses the children of every node, numbers kept: 0 to 5, 14, or 7 if out has fewer than 2n
 * entries. Writes the table of the mirrored tree to the first 2n entries of out.
 */
uint16_t hiwenoka_mirror(const uint16_t *table, size_t table_len,
                         uint16_t *out, size_t out_len);

/*
 * Numbers the tree parent first, then the children's subtrees left to right: 0 to 5, 14, or 7 if
 * out has fewer than 2n entries or map fewer than n. Writes the new table to the first 2n entries
 * of out and, for each new number, the old one to the first n entries of map.
 */
uint16_t hiwenoka_renumber(const uint16_t *table, size_t table_len,
                           uint16_t *out, size_t out_len,
                           uint16_t *map, size_t map_len);

/*
 * Reads a sheet file: 0, or the first of 9, 10, 11, 12, and then 7 if table or tapes has fewer
 * than 2n entries or half_widths fewer than n. Writes n to nodes, D to separation, the table to the
 * first 2n entries of table, each node's tape number, low word then high word, to the first 2n
 * entries of tapes, and its half-width to the first n entries of half_widths. Neither the tree nor
 * the half-widths are judged. A file from before word 254 was a check is refused 10, and so is one
 * of interface 1.
 */
uint16_t hiwenoka_read_sheet(const uint8_t *file, size_t file_len,
                             uint16_t *table, size_t table_len,
                             uint16_t *tapes, size_t tapes_len,
                             uint16_t *half_widths, size_t half_widths_len,
                             uint16_t *nodes, uint16_t *separation);

/*
 * Reads a Newick text: 0, or 15, 16, and then 7 if table or tapes has fewer than 2n entries. A
 * subtree is a label, or "(", one or more subtrees parted by ",", ")" and a label; the text is one
 * subtree and ";" and nothing else, at most 16384 bytes. A label is a decimal number from 0 to
 * 4294967295 without needless leading zeros. Numbers the tree parent first, then the children's
 * subtrees left to right. Writes n to nodes, the table to the first 2n entries of table, and each
 * node's label, low word then high word, to the first 2n entries of tapes.
 */
uint16_t hiwenoka_read_newick(const uint8_t *text, size_t text_len,
                              uint16_t *table, size_t table_len,
                              uint16_t *tapes, size_t tapes_len, uint16_t *nodes);

/*
 * Writes a sheet file: 0 to 5, 14; 6; 13 if tapes has fewer than 2n entries; 17 if half_widths has
 * fewer than n entries or one of its first n is above 256; 7 if out has fewer bytes than the file:
 * 512, and 512 more for each 50 nodes or part of 50, at most 11264. tapes has each node's tape
 * number, low word then high word, in its first 2n entries, and half_widths its half-width in its
 * first n; entries past these are not looked at. Writes the file to the start of out and its length
 * to bytes.
 */
uint16_t hiwenoka_write_sheet(const uint16_t *table, size_t table_len, uint16_t separation,
                              const uint16_t *tapes, size_t tapes_len,
                              const uint16_t *half_widths, size_t half_widths_len,
                              uint8_t *out, size_t out_len, uint16_t *bytes);

/* The bytes of out with which hiwenoka_list_sheet can print any sheet. */
#define HIWENOKA_TEXT_ROOM 41024

/*
 * Reads a sheet file, lays its tree out and writes the text of the listing to out: the line
 * "sheet", n, the count of levels, D, the least and the greatest place; then for each node a line
 * with its number, level, place and tape number. A refusal is only the line "refused" and its
 * number: the first of 9 to 12, and then of 1 to 5, 14, 17. Returns the number of bytes written.
 * Where out has fewer than HIWENOKA_TEXT_ROOM bytes, writes nothing and returns 0.
 */
size_t hiwenoka_list_sheet(const uint8_t *file, size_t file_len, uint8_t *out, size_t out_len);

/*
 * Where a view of the studio screen shows a node: 0, or 18, 19. The view has its middle at across
 * and down, in units of the sheet: the root stands at 0 across and 0 down, each level 64 units under
 * the one above. zoom says how many times as large a unit is drawn. level is the node's level and
 * place its place, as hiwenoka_layout or hiwenoka_layout_treetex gives them; no place that these
 * give is refused. The distances from the middle are (place - across) * zoom and
 * (64 * level - down) * zoom, without any rounding error: eight times either is a whole number.
 * Where they are at most 960 across and 540 down, either way and edges included, writes 1 to on and
 * the distances to x and y. Otherwise, and after a refusal, writes 0, 0.0 and 0.0. Every double is
 * taken: a NaN and the infinities are no whole numbers and no zooms, and -0.0 is the whole number 0.
 * Floats are computed with as by default: rounded to nearest, and subnormal ones kept.
 */
uint16_t hiwenoka_on_screen(double across, double down, double zoom,
                            uint16_t level, int32_t place,
                            uint8_t *on, double *x, double *y);

/*
 * Writes one of all the ordered trees of 1 to 8 nodes: 0, or 20, 21, and then 7 if table has fewer
 * than 2 * nodes entries. The list of the trees of so many nodes has 1, 1, 2, 5, 14, 42, 132 or 429
 * of them, every tree once, at places counted from 0. A tree is written as the levels of its nodes,
 * each parent first, then the subtrees of its children left to right; of two trees the one with the
 * smaller level where they first differ comes first. So the star is first and the chain is last.
 * Writes the table of the tree at a place, its nodes numbered in the same order, to the first
 * 2 * nodes entries of table.
 */
uint16_t hiwenoka_small_tree(uint16_t nodes, uint16_t place, uint16_t *table, size_t table_len);

/*
 * Finds the trees of 1 to 8 nodes whose layout has just these dots: 0, or 20, 22, and then 6. dots
 * has a level and a place for each node, 2 * nodes entries, no more and no fewer: level by level
 * from the top, left to right on each level, and no dot twice. A tree of the list of
 * hiwenoka_small_tree fits if the levels and places that hiwenoka_layout gives its nodes, with this
 * separation and with half-widths 0, are the dots. Writes the lowest place of a tree that fits to
 * lowest and how many trees fit to count. A count of 0 means that none fits, and then lowest is 0
 * too.
 */
uint16_t hiwenoka_trees_of_dots(uint16_t nodes, const int32_t *dots, size_t dots_len,
                                uint16_t separation, uint16_t *lowest, uint16_t *count);

#ifdef __cplusplus
}
#endif

#endif
