// CXSparse: triplets to columns, elimination tree, postorder, column counts. It has no row counts.
#include "sides.h"
#include <stdlib.h>
#include <cs.h>

static cs_di *triplet;
static int *parent, *post, *columns;
static uint32_t order;

static void prepare(const pattern *p) {
    order = p->order;
    triplet = cs_di_spalloc((int)p->order, (int)p->order, (int)(p->pairs + p->order), 1, 1);
    for (uint32_t v = 0; v < p->order; v++) cs_di_entry(triplet, (int)v, (int)v, 1);
    for (size_t k = 0; k < p->pairs; k++) {
        uint32_t i = p->pair[k][0], j = p->pair[k][1];
        cs_di_entry(triplet, (int)(i < j ? i : j) - 1, (int)(i < j ? j : i) - 1, 1);
    }
    parent = post = columns = NULL;
}

static void drop(void) {
    cs_di_free(parent);
    cs_di_free(post);
    cs_di_free(columns);
}

static void analyse(void) {
    drop();
    cs_di *upper = cs_di_compress(triplet);
    parent = cs_di_etree(upper, 0);
    post = cs_di_post(parent, (int)order);
    columns = cs_di_counts(upper, parent, post, 0);
    cs_di_spfree(upper);
}

static void answer(answers *a) {
    a->has_places = 1;
    a->has_rows = 0;
    for (uint32_t v = 0; v < order; v++) {
        a->parent[v] = parent[v] < 0 ? 0 : (uint32_t)parent[v] + 1;
        a->place[post[v]] = v + 1;
        a->columns[v] = (uint32_t)columns[v];
    }
}

static void finish(void) {
    drop();
    cs_di_spfree(triplet);
}

const side cxsparse_side = {"CXSparse", prepare, analyse, answer, finish};
