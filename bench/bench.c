// Times the whole analysis beside other libraries on equal patterns, in one run, interleaved. All results are compared
// before anything is timed.
#include "sides.h"
#include <math.h>
#include <stdio.h>
#include <stdlib.h>
#include <string.h>
#include <time.h>

#define SIDES 5
#define OURS 2 // the first of them
#define ROUNDS 41
#define FEWEST_ROUNDS 3
#define LONG_ENOUGH 0.5 // seconds a side may take in all rounds of a pattern; a slow one has fewer rounds

static const side *sides[SIDES] = {&loaded_side, &unsorted_side, &cholmod_side, &cxsparse_side, &eigen_side};

static double now(void) {
    struct timespec t;
    clock_gettime(CLOCK_MONOTONIC, &t);
    return (double)t.tv_sec + 1e-9 * (double)t.tv_nsec;
}

static answers room(uint32_t order) {
    answers a = {0};
    uint32_t **arrays[] = {&a.parent, &a.place, &a.rows, &a.columns};
    for (int k = 0; k < 4; k++) *arrays[k] = calloc(order, sizeof(uint32_t));
    return a;
}

static void leave(answers a) {
    free(a.parent);
    free(a.place);
    free(a.rows);
    free(a.columns);
}

static int differ(const uint32_t *a, const uint32_t *b, uint32_t order) {
    return memcmp(a, b, sizeof(uint32_t) * order) != 0;
}

// Ends the program if a side answers something else than the first.
static void compare(const pattern *p) {
    answers first = room(p->order);
    for (int s = 0; s < SIDES; s++) {
        answers other = room(p->order);
        sides[s]->analyse();
        sides[s]->answer(s == 0 ? &first : &other);
        if (s > 0
            && (differ(first.parent, other.parent, p->order) || differ(first.columns, other.columns, p->order)
                || (other.has_places && differ(first.place, other.place, p->order))
                || (other.has_rows && differ(first.rows, other.rows, p->order)))) {
            printf("%s, order %u: %s answers something else\n", p->family, p->order, sides[s]->name);
            exit(1);
        }
        leave(other);
    }
    leave(first);
}

static int by_size(const void *a, const void *b) {
    double x = *(const double *)a, y = *(const double *)b;
    return x < y ? -1 : x > y;
}

// What the rounds of each side took: the least, and the median. The sides take turns, and who begins changes.
typedef struct {
    double least[SIDES], median[SIDES];
} times;

static times take_times(void) {
    static double took[SIDES][ROUNDS];
    int rounds[SIDES] = {0};
    double spent[SIDES] = {0};
    for (int r = 0; r < ROUNDS; r++)
        for (int turn = 0; turn < SIDES; turn++) {
            int s = (r + turn) % SIDES;
            if (r >= FEWEST_ROUNDS && spent[s] > LONG_ENOUGH) continue;
            double begun = now();
            sides[s]->analyse();
            double t = now() - begun;
            took[s][rounds[s]++] = t;
            spent[s] += t;
        }
    times all;
    for (int s = 0; s < SIDES; s++) {
        qsort(took[s], (size_t)rounds[s], sizeof(double), by_size);
        all.least[s] = took[s][0];
        all.median[s] = took[s][rounds[s] / 2];
    }
    return all;
}

// How the times of one of ours stand to another library's over all patterns.
typedef struct {
    double logs_of_least, logs_of_medians, worst;
    const pattern *where;
} ratios;

static void add(ratios *all, const pattern *p, const times *t, int ours, int other) {
    double ratio = t->least[ours] / t->least[other];
    all->logs_of_least += log(ratio);
    all->logs_of_medians += log(t->median[ours] / t->median[other]);
    if (ratio > all->worst) {
        all->worst = ratio;
        all->where = p;
    }
}

// What it takes to copy four of our answers from the records into arrays: no analysis above does so.
static void show_copying(const pattern *p) {
    double least = 1;
    answers a = room(p->order);
    sides[0]->prepare(p);
    sides[0]->analyse();
    for (int r = 0; r < ROUNDS; r++) {
        double begun = now();
        sides[0]->answer(&a);
        double t = now() - begun;
        if (t < least) least = t;
    }
    sides[0]->finish();
    leave(a);
    printf("\ncopying four answers of %u vertices into arrays: %.0f microseconds\n", p->order, least * 1e6);
}

static void show(const pattern *p, const times *t) {
    printf("%-8s %6u %7zu", p->family, p->order, p->pairs);
    for (int s = 0; s < SIDES; s++) printf(" %9.0f", t->least[s] * 1e6);
    for (int ours = 0; ours < OURS; ours++)
        for (int other = OURS; other < SIDES; other++) printf(" %5.2f", t->least[ours] / t->least[other]);
    printf("\n");
    fflush(stdout);
}

static void show_heads(void) {
    printf("microseconds, the least of up to %d rounds, and how often the other's time each of ours takes\n\n", ROUNDS);
    printf("%-8s %6s %7s", "family", "order", "pairs");
    for (int s = 0; s < SIDES; s++) printf(" %9s", sides[s]->name);
    for (int ours = 0; ours < OURS; ours++)
        for (int other = OURS; other < SIDES; other++) printf("  %c/%.2s", sides[ours]->name[0], sides[other]->name);
    printf("\n");
}

int main(void) {
    static pattern list[32];
    size_t patterns = all_patterns(list, 32);
    ratios all[OURS][SIDES] = {0};
    show_heads();
    for (size_t k = 0; k < patterns; k++) {
        const pattern *p = &list[k];
        for (int s = 0; s < SIDES; s++) sides[s]->prepare(p);
        compare(p);
        times t = take_times();
        for (int s = 0; s < SIDES; s++) sides[s]->finish();
        show(p, &t);
        for (int ours = 0; ours < OURS; ours++)
            for (int other = OURS; other < SIDES; other++) add(&all[ours][other], p, &t, ours, other);
    }
    printf("\n%-20s %14s %14s   %s\n", "geometric means", "of the least", "of the medians", "worst");
    for (int ours = 0; ours < OURS; ours++)
        for (int other = OURS; other < SIDES; other++) {
            const ratios *r = &all[ours][other];
            printf("%-8s / %-9s %14.2f %14.2f   %.2f at %s of %u\n", sides[ours]->name, sides[other]->name,
                   exp(r->logs_of_least / (double)patterns), exp(r->logs_of_medians / (double)patterns), r->worst,
                   r->where->family, r->where->order);
        }
    show_copying(&list[patterns - 1]);
    return 0;
}
