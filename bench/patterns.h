// Patterns to time: each is an order and a list of pairs, in shuffled order and either way round.
#ifndef PATTERNS_H
#define PATTERNS_H
#include <stddef.h>
#include <stdint.h>

#define LARGEST_ORDER 16384
#define MOST_PAIRS 262144

typedef struct {
    const char *family;
    uint32_t order;
    size_t pairs;
    uint32_t (*pair)[2]; // vertices from 1
} pattern;

// Fills the list of all patterns; answers how many there are. What it allocates is never freed.
size_t all_patterns(pattern *list, size_t room);
#endif
