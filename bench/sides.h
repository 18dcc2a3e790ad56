// The libraries that are timed, each by the same call: everything from the unsorted pairs to its answers.
#ifndef SIDES_H
#define SIDES_H
#include "patterns.h"

// What a library answers, by vertex from 1: parents (0 at a root), places in the postorder, counts with the diagonal.
// A library leaves has_* 0 for what it does not answer.
typedef struct {
    int has_places, has_rows;
    uint32_t *parent, *place, *rows, *columns;
} answers;

typedef struct {
    const char *name;
    void (*prepare)(const pattern *p); // not timed: what a program has before its analysis
    void (*analyse)(void);             // timed
    void (*answer)(answers *a);        // not timed
    void (*finish)(void);              // not timed
} side;

extern const side loaded_side, unsorted_side, cholmod_side, cxsparse_side, eigen_side;
#endif
