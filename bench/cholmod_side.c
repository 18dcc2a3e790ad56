// CHOLMOD: triplets to columns, their transpose, elimination tree, postorder, row and column counts.
#include "sides.h"
#include <cholmod.h>
#include <stdlib.h>

static cholmod_common common;
static cholmod_triplet *triplet;
static int *parent, *post, *rows, *columns, *first, *level;
static uint32_t order;

static void prepare(const pattern *p) {
    cholmod_start(&common);
    order = p->order;
    // the upper half, and no diagonal: the analysis takes it as there
    triplet = cholmod_allocate_triplet(p->order, p->order, p->pairs, 1, CHOLMOD_PATTERN, &common);
    for (size_t k = 0; k < p->pairs; k++) {
        uint32_t i = p->pair[k][0], j = p->pair[k][1];
        ((int *)triplet->i)[k] = (int)(i < j ? i : j) - 1;
        ((int *)triplet->j)[k] = (int)(i < j ? j : i) - 1;
    }
    triplet->nnz = p->pairs;
    int **arrays[] = {&parent, &post, &rows, &columns, &first, &level};
    for (int k = 0; k < 6; k++) *arrays[k] = malloc(sizeof(int) * (p->order + 1));
}

static void analyse(void) {
    cholmod_sparse *upper = cholmod_triplet_to_sparse(triplet, triplet->nnz, &common);
    cholmod_sparse *lower = cholmod_ptranspose(upper, 0, NULL, NULL, 0, &common);
    cholmod_etree(upper, parent, &common);
    if (cholmod_postorder(parent, order, NULL, post, &common) != (int)order) abort();
    if (!cholmod_rowcolcounts(lower, NULL, 0, parent, post, rows, columns, first, level, &common)) abort();
    cholmod_free_sparse(&lower, &common);
    cholmod_free_sparse(&upper, &common);
}

static void answer(answers *a) {
    a->has_places = a->has_rows = 1;
    for (uint32_t v = 0; v < order; v++) {
        a->parent[v] = parent[v] < 0 ? 0 : (uint32_t)parent[v] + 1;
        a->place[post[v]] = v + 1;
        a->rows[v] = (uint32_t)rows[v];
        a->columns[v] = (uint32_t)columns[v];
    }
}

static void finish(void) {
    int *arrays[] = {parent, post, rows, columns, first, level};
    for (int k = 0; k < 6; k++) free(arrays[k]);
    cholmod_free_triplet(&triplet, &common);
    cholmod_finish(&common);
}

const side cholmod_side = {"CHOLMOD", prepare, analyse, answer, finish};
