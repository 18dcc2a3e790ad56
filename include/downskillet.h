/* Downskillet: what a sparse Cholesky factorisation of a symmetric pattern will need, from the pattern alone: the
 * elimination tree, its postorder, and the row and column counts of the factor.
 *
 * A pattern has the vertices 1 to its order, and pairs of vertices. A pair stands for the place in its row and column
 * and the place that mirrors it; the diagonal is taken to be there.
 *
 * Every call answers a number: DOWNSKILLET_OK, or why it is refused. Where several refusals would fit, the smallest
 * number is answered. A call that is refused writes nothing, but for one case that downskillet_structure names. All of
 * this, and every value written, is proved of the library's code, for every input that keeps to the rules of C below.
 *
 * - All memory is the caller's, before and after a call: the library allocates nothing, keeps no pointer and has no
 *   state. So calls on different memory may run at once in different threads.
 * - A length counts elements, and what it counts must be there: no call reads or writes past it.
 * - A pointer is aligned for its type and not null, even where its length is 0.
 * - Memory that a call writes must not overlap other memory lent to that call.
 */
#ifndef DOWNSKILLET_H
#define DOWNSKILLET_H

#include <stddef.h>
#include <stdint.h>

#ifdef __cplusplus
extern "C" {
#endif

/* The largest order of a pattern, and the most pairs, one that stands twice counted twice. */
#define DOWNSKILLET_LARGEST_ORDER 16384
#define DOWNSKILLET_MOST_PAIRS 262144

/* What calls answer. The numbers are those of docs/REFUSALS.md. */
#define DOWNSKILLET_OK 0
#define DOWNSKILLET_ORDER_OUT_OF_RANGE 8   /* the order is 0 or above DOWNSKILLET_LARGEST_ORDER */
#define DOWNSKILLET_TABLE_TOO_SHORT 9      /* there are fewer vertices or links than the order */
#define DOWNSKILLET_VERTEX_OUT_OF_RANGE 10 /* a pair names 0 or a number above the order */
#define DOWNSKILLET_EQUAL_VERTICES 11      /* a pair names one vertex twice */
#define DOWNSKILLET_TOO_MANY_PAIRS 13      /* there are more pairs than entries, or than DOWNSKILLET_MOST_PAIRS */
#define DOWNSKILLET_ARRAY_TOO_SHORT 16     /* an array for answers or for the structure has too few places */

/* Sizes of the records, for callers that lend plain memory; it is aligned to 8 bytes for vertices, 2 for entries. */
#define DOWNSKILLET_VERTEX_BYTES 40
#define DOWNSKILLET_ENTRY_BYTES 8

/* A record for each vertex: working storage, and after an analysis its answers, which the calls below copy. What it
 * holds before an analysis does not matter. */
typedef struct {
    uint64_t held[DOWNSKILLET_VERTEX_BYTES / 8];
} downskillet_vertex;

/* A record for each pair. After an analysis `first` is the lower vertex. */
typedef struct {
    uint16_t first, second;
    uint16_t held[DOWNSKILLET_ENTRY_BYTES / 2 - 2];
} downskillet_entry;

/* The sizes that the library was built with: a program that is linked with another one than this header's sees it. */
size_t downskillet_vertex_bytes(void);
size_t downskillet_entry_bytes(void);

/* Analyses the pattern of this order with these pairs, and writes the total: how many places the factor has, diagonal
 * included.
 *
 * pairs      2 * pair_count numbers: pairs[2 * k] and pairs[2 * k + 1] are a pair. The pairs may stand in any order,
 *            each either way round, and one may stand several times, which says no more than once.
 * vertices   at least `order` records; afterwards the first `order` hold the answers, vertices[v - 1] those of v.
 * entries    at least pair_count records; afterwards the first pair_count hold the pairs in their order.
 * links      at least `order` numbers of working storage; what is in them before and after does not matter.
 *
 * Refused by 8, 9, 10, 11 and 13. Nothing but the first records, the first links and the total is written. */
uint32_t downskillet_analyse(uint32_t order, const uint32_t *pairs, size_t pair_count, downskillet_vertex *vertices,
                             size_t vertex_count, downskillet_entry *entries, size_t entry_count, uint32_t *links,
                             size_t link_count, uint64_t *total);

/* The same for pairs that stand in the entries already, as `first` and `second`, either way round: for a caller that
 * writes them there itself, with no list besides. There are entry_count pairs. Refused by 8, 9, 10, 11 and 13. */
uint32_t downskillet_analyse_entries(uint32_t order, downskillet_vertex *vertices, size_t vertex_count,
                                     downskillet_entry *entries, size_t entry_count, uint32_t *links,
                                     size_t link_count, uint64_t *total);

/* Each of these copies one answer of each of the analysed vertices, vertices[0] to vertices[order - 1], into the first
 * `order` places of an array, and writes no other place. Refused by 16 if the array has fewer. Of records that no
 * analysis has filled they copy what is there. */

/* The parent in the elimination tree, 0 at a root. */
uint32_t downskillet_parents(const downskillet_vertex *vertices, size_t order, uint32_t *parents, size_t length);

/* The position in the postorder of the tree, from 1. */
uint32_t downskillet_places(const downskillet_vertex *vertices, size_t order, uint32_t *places, size_t length);

/* The least place in the subtree: the subtree of v has the places from it to the place of v. */
uint32_t downskillet_first_places(const downskillet_vertex *vertices, size_t order, uint32_t *places, size_t length);

/* How many levels the subtree reaches below the vertex. */
uint32_t downskillet_heights(const downskillet_vertex *vertices, size_t order, uint32_t *heights, size_t length);

/* How many places the row, and the column, of the factor has, diagonal included. */
uint32_t downskillet_row_counts(const downskillet_vertex *vertices, size_t order, uint32_t *counts, size_t length);
uint32_t downskillet_column_counts(const downskillet_vertex *vertices, size_t order, uint32_t *counts, size_t length);

/* The structure of the factor, for the pairs that the entries hold, as an analysis leaves them or as a caller writes
 * them: where each column starts in the rows, and its rows, without the diagonal. It analyses them anew, since the
 * tables lent could hold anything, and that takes little beside the structure.
 *
 * entries    entry_count pairs: every record counts as one. After downskillet_analyse into a longer table pass
 *            pair_count here, and not the length of the table.
 * starts     at least order + 1 numbers; afterwards starts[v - 1] is where column v starts, the first at 0, and
 *            starts[order] is where the rows end.
 * rows       at least total - order numbers, for the total that an analysis tells; afterwards
 *            rows[starts[v - 1]] to rows[starts[v] - 1] are the rows of column v, vertices above v, ascending.
 *
 * Refused by 8, 9, 10, 11 and 13, and by 16 if starts or rows has fewer places; then the vertices, entries and links
 * are as an accepted analysis leaves them, and the starts and rows as they were. */
uint32_t downskillet_structure(uint32_t order, downskillet_vertex *vertices, size_t vertex_count,
                               downskillet_entry *entries, size_t entry_count, uint32_t *links, size_t link_count,
                               uint32_t *starts, size_t start_count, uint32_t *rows, size_t row_count);

#ifdef __cplusplus
}
#endif
#endif
