/*
 * Cellweaver: a floorplanner for FPGAs with fixed columns, proved. Link with libcellweaver_c.a; docs/LIBRARY.md shows how.
 *
 * A design is its bytes: form number 1, W, H, B, the kinds of the W columns, the number m of modules, three needs for each module, the
 * 2m-1 tokens of the tree; each number in groups of seven bits. Every function reads the design first and tests it for itself: any bytes
 * may be handed over.
 *
 * A function returns the reply's number, and puts what stands beside it into *value: the position of the number at fault (1 to 7), a count
 * of bytes (0 from write and the edits), a module (12, 13) or a token's position (14), and 0 with any other reply.
 *
 * What is lent: a pointer and the number of bytes there, or of weights. What a function only reads is const. No pointer is NULL, also where
 * the length is 0, and places that a function writes overlap nothing else that it is handed. The library allocates nothing, keeps nothing
 * between calls and calls nothing but memcpy and memset, so calls on different buffers may run at the same time.
 *
 * Unless the reply is 0, every lent byte stands as it was; one exception: after cellweaver_plan's 10 work holds the full lists. A place for
 * one number, as *value, *width or *total, is set by every call.
 */
#ifndef CELLWEAVER_H
#define CELLWEAVER_H

#include <stddef.h>
#include <stdint.h>

#ifdef __cplusplus
extern "C" {
#endif

/* The numbers of the replies. */
#define CELLWEAVER_DONE 0
#define CELLWEAVER_UNFINISHED 1     /* the bytes end inside or before a number */
#define CELLWEAVER_MALFORMED 2      /* a number over 65,535, or in a longer form than needed */
#define CELLWEAVER_WRONG_FORM 3     /* the form number is not 1 */
#define CELLWEAVER_BREAKS_LIMITS 4  /* W, H, B, a kind, m or a need */
#define CELLWEAVER_BAD_TOKEN 5      /* no such module, a module again, or a cut with fewer than two things standing */
#define CELLWEAVER_NOT_ONE_THING 6  /* never given: 2m-1 tokens that pass leave one thing */
#define CELLWEAVER_EXTRA_BYTES 7    /* bytes after the last token */
#define CELLWEAVER_TOO_SHORT 8      /* a lent buffer is too short */
#define CELLWEAVER_UNRELIABLE 9     /* the lists in work are not to be relied on */
#define CELLWEAVER_NO_PLACEMENT 10
#define CELLWEAVER_NO_SUCH_EDIT 11  /* no such module or cut, or the new need breaks the limits */
#define CELLWEAVER_OFF_THE_CHIP 12  /* a module off the chip, or of no width or height */
#define CELLWEAVER_SHORT_OF_NEED 13 /* a module whose rectangle does not hold its need */
#define CELLWEAVER_CUT_NOT_KEPT 14
#define CELLWEAVER_BAD_TERM 15      /* a ninth term, no such kind, or a weight outside 0 to 1,000,000 or not a number */
#define CELLWEAVER_BAD_NET 16       /* a 33rd net, or one that is empty, has more than 16 members or names no module */

/* The most bytes that a lawful design takes, its rows, and its lists. What one design wants, cellweaver_sizes says. */
#define CELLWEAVER_MOST_BYTES 244
#define CELLWEAVER_MOST_ROWS 64
#define CELLWEAVER_MOST_WORK 8126464

/* The kinds of a score's terms. */
#define CELLWEAVER_AREA 0
#define CELLWEAVER_RATIO 1
#define CELLWEAVER_WIRE 2

/* Reads a design. 0, or 1 to 7 with the position. */
size_t cellweaver_read(const uint8_t *bytes, size_t bytes_length, size_t *value);

/* Reads a design and says its sizes: the columns W in *width, the rows H in *height, the modules m, the bytes that its lists take in *work and
   those that its rows take in *rows; zeros unless the reply is 0. 0, or 1 to 7 with the position. */
size_t cellweaver_sizes(const uint8_t *bytes, size_t bytes_length, size_t *width, size_t *height, size_t *modules, size_t *work,
                        size_t *rows, size_t *value);

/* Writes the design to `out`, with the count in *value; bytes past the count stay. Bytes that are read are written the same. 0, 8. */
size_t cellweaver_write(const uint8_t *bytes, size_t bytes_length, uint8_t *out, size_t out_length, size_t *value);

/* Fills the lists into `work`; bytes past them stay. 0, 8. */
size_t cellweaver_list(const uint8_t *bytes, size_t bytes_length, uint8_t *work, size_t work_length, size_t *value);

/* Lists into `work`, then places: `rows` has four bytes x, y, w, h for each module, in module order, and the smallest box from the chip's
   lower left corner is *width and *height, 0 and 0 unless the reply is 0. Bytes past the lists and past the rows stay. 0, 8, 10. */
size_t cellweaver_plan(const uint8_t *bytes, size_t bytes_length, uint8_t *work, size_t work_length, uint8_t *rows, size_t rows_length,
                       size_t *width, size_t *height, size_t *value);

/* Places from the lists that stand in `work`, which it only reads. A floorplan that is placed is lawful whatever stands there; 10 and the
   smallest box are promised over this design's own lists. 0, 8, 9, 10. */
size_t cellweaver_place(const uint8_t *bytes, size_t bytes_length, const uint8_t *work, size_t work_length, uint8_t *rows,
                        size_t rows_length, size_t *width, size_t *height, size_t *value);

/* Changes the need of module k, and brings the lists in `work` up to date. The new design is put into `out`, with the count of its bytes
   in *value; bytes past it stay. `out` has room for any design, CELLWEAVER_MOST_BYTES, or the reply is 8. 0, 11, 8, 9. */
size_t cellweaver_edit_need(const uint8_t *bytes, size_t bytes_length, size_t k, size_t clbs, size_t rams, size_t multipliers, uint8_t *work,
                            size_t work_length, uint8_t *out, size_t out_length, size_t *value);

/* Turns the cut at a position among the tokens, counted from 0, into the other kind; otherwise as cellweaver_edit_need. */
size_t cellweaver_edit_turn(const uint8_t *bytes, size_t bytes_length, size_t position, uint8_t *work, size_t work_length, uint8_t *out,
                            size_t out_length, size_t *value);

/* Judges a floorplan, without lists. 0, 8, 12 or 13 with the module, 14 with the position of the cut among the tokens. */
size_t cellweaver_check(const uint8_t *bytes, size_t bytes_length, const uint8_t *rows, size_t rows_length, size_t *value);

/* Scores a floorplan that the checker passes. Term i is of the kind kinds[i] and has the weight weights[i], which may
   be any bits; weights_length counts doubles, and is kinds_length. `nets` has for each net the number n of its members,
   1 to 16, and then the n modules, one net after another. The amount of an area term is w times h of the box from the
   chip's lower left corner; of a ratio term w/h and then h/w of each module, added up in module order; of a wire term,
   added up over the nets, the half perimeter of the box round the members' doubled centres 2x+w and 2y+h. Each amount
   times its weight is added to *total, in the order of the terms, and *last is the last amount without its weight; each
   division, product and sum rounds once. Both are 0 with no terms, and unless the reply is 0. 0; 8, 12, 13 and 14 as
   from cellweaver_check; then 15, also where kinds and weights are not as many; then 16, also where the bytes end
   inside a net. */
size_t cellweaver_score(const uint8_t *bytes, size_t bytes_length, const uint8_t *rows, size_t rows_length,
                        const uint8_t *kinds, size_t kinds_length, const double *weights, size_t weights_length,
                        const uint8_t *nets, size_t nets_length, double *total, double *last, size_t *value);

#ifdef __cplusplus
}
#endif

#endif
