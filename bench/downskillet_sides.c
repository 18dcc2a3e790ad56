// Downskillet, twice: over an entry table that holds the pairs in the order in which they were put, and from the list
// of pairs, which fills the table first. Tables are lent before, as a program has them.
#include "sides.h"
#include "../include/downskillet.h"
#include <stdlib.h>

typedef struct {
    uint32_t order;
    const uint32_t *pairs;
    size_t count;
    downskillet_vertex *vertices;
    downskillet_entry *entries;
    uint32_t *links;
    uint64_t total;
} tables;

static tables loaded, unsorted;

static void accept(uint32_t refusal) {
    if (refusal != DOWNSKILLET_OK) abort();
}

static void lend(tables *t, const pattern *p) {
    t->order = p->order;
    t->pairs = &p->pair[0][0];
    t->count = p->pairs;
    t->vertices = calloc(p->order, sizeof *t->vertices);
    t->entries = calloc(p->pairs, sizeof *t->entries);
    t->links = calloc(p->order, sizeof *t->links);
    if (!t->vertices || !t->entries || !t->links) abort();
}

static void from_pairs(tables *t) {
    accept(downskillet_analyse(t->order, t->pairs, t->count, t->vertices, t->order, t->entries, t->count, t->links,
                               t->order, &t->total));
}

static void from_entries(tables *t) {
    accept(downskillet_analyse_entries(t->order, t->vertices, t->order, t->entries, t->count, t->links, t->order,
                                       &t->total));
}

static void tell(const tables *t, answers *a) {
    a->has_places = a->has_rows = 1;
    accept(downskillet_parents(t->vertices, t->order, a->parent, t->order));
    accept(downskillet_places(t->vertices, t->order, a->place, t->order));
    accept(downskillet_row_counts(t->vertices, t->order, a->rows, t->order));
    accept(downskillet_column_counts(t->vertices, t->order, a->columns, t->order));
    uint64_t sum = 0;
    for (uint32_t v = 0; v < t->order; v++) sum += a->columns[v];
    if (sum != t->total) abort();
}

static void take_back(tables *t) {
    free(t->vertices);
    free(t->entries);
    free(t->links);
}

static void prepare_loaded(const pattern *p) {
    lend(&loaded, p);
    from_pairs(&loaded);
}

static void prepare_unsorted(const pattern *p) { lend(&unsorted, p); }

static void analyse_loaded(void) { from_entries(&loaded); }

static void analyse_unsorted(void) { from_pairs(&unsorted); }

static void answer_loaded(answers *a) { tell(&loaded, a); }

static void answer_unsorted(answers *a) { tell(&unsorted, a); }

static void finish_loaded(void) { take_back(&loaded); }

static void finish_unsorted(void) { take_back(&unsorted); }

const side loaded_side = {"loaded", prepare_loaded, analyse_loaded, answer_loaded, finish_loaded};
const side unsorted_side = {"unsorted", prepare_unsorted, analyse_unsorted, answer_unsorted, finish_unsorted};
