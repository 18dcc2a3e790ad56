/* The bay of six joints and five members, from C: prints what its factor will need. */
#include "downskillet.h"
#include <stdio.h>
#include <stdlib.h>

#define ORDER 6
#define PAIRS 5

static int end(uint32_t refusal) {
    printf("refused by %u\n", refusal);
    return 1;
}

static void show(const char *name, const uint32_t *numbers, size_t count) {
    printf("%-13s", name);
    for (size_t k = 0; k < count; k++) printf(" %u", numbers[k]);
    printf("\n");
}

static int show_structure(downskillet_vertex *vertices, downskillet_entry *entries, uint32_t *links, size_t row_count) {
    uint32_t starts[ORDER + 1];
    uint32_t *rows = malloc((row_count + 1) * sizeof *rows);
    if (!rows) return 1;
    uint32_t refusal = downskillet_structure(ORDER, vertices, ORDER, entries, PAIRS, links, ORDER, starts, ORDER + 1,
                                             rows, row_count);
    if (refusal == DOWNSKILLET_OK) {
        show("starts", starts, ORDER + 1);
        show("rows", rows, row_count);
    }
    free(rows);
    return refusal == DOWNSKILLET_OK ? 0 : end(refusal);
}

typedef uint32_t copy(const downskillet_vertex *, size_t, uint32_t *, size_t);

int main(void) {
    static const uint32_t pairs[2 * PAIRS] = {1, 4, 3, 2, 2, 5, 6, 3, 4, 6};
    static downskillet_vertex vertices[ORDER];
    static downskillet_entry entries[PAIRS];
    static uint32_t links[ORDER];
    static const struct {
        const char *name;
        copy *answer;
    } answers[] = {
        {"parents", downskillet_parents},           {"places", downskillet_places},
        {"first places", downskillet_first_places}, {"heights", downskillet_heights},
        {"row counts", downskillet_row_counts},     {"column counts", downskillet_column_counts},
    };
    if (downskillet_vertex_bytes() != sizeof(downskillet_vertex)
        || downskillet_entry_bytes() != sizeof(downskillet_entry)) {
        printf("the library is not that of its header\n");
        return 1;
    }
    uint64_t total = 0;
    uint32_t refusal =
        downskillet_analyse(ORDER, pairs, PAIRS, vertices, ORDER, entries, PAIRS, links, ORDER, &total);
    if (refusal != DOWNSKILLET_OK) return end(refusal);
    for (size_t a = 0; a < sizeof answers / sizeof answers[0]; a++) {
        uint32_t numbers[ORDER];
        refusal = answers[a].answer(vertices, ORDER, numbers, ORDER);
        if (refusal != DOWNSKILLET_OK) return end(refusal);
        show(answers[a].name, numbers, ORDER);
    }
    printf("%-13s %llu\n", "total", (unsigned long long)total);
    return show_structure(vertices, entries, links, (size_t)total - ORDER);
}
