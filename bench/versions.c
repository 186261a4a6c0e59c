/*
 * Times kz_abi_apply of two versions of the library side by side, in one process, in turns. The rows of
 * the other version may have another number of words; words that only one of the two has are 0, but that
 * domain 0 holds what it made. So no row is fresh, of the written bits, which an older version is not lent,
 * the time is that of following creates and writes, and of domains that of looking at a row's maker and
 * holders. Room for states is lent, and nothing is marked.
 */
#include <stdint.h>
#include <stdio.h>
#include <stdlib.h>
#include <string.h>
#include <time.h>

#include <kelzoud.h>

enum { MOST_ROWS = 1024, COPIES = 32, BATCHES = 201, TALLY_WORDS = 7, MOST_WORDS = 16 };
enum { CREATE = 1, BORROW, READ, WRITE, DROP };
enum { NAME, PARENT, START, LENGTH, RIGHT, DEPTH, HOLDERS = 9 };

static const uint32_t tree_length = 1u << 20;
static const uint32_t beside = 1u << 21;

/* Written bits, the same in every call: no answer depends on what they are. */
static uint8_t bits[KZ_WRITTEN_BYTES];

static kz_states states;

#define STATES (uint32_t *)states.rows, 8200, states.written, sizeof states.written

/* One event by the default sheet. */
typedef uint64_t apply_fn(uint32_t *table, size_t rows, uint32_t *tally, const uint32_t *event);

#if defined OTHER_TAKES_STATES
uint64_t other_apply(uint32_t *table, size_t rows, uint8_t *written, size_t written_size,
                     uint32_t *stored, size_t stored_rows, uint8_t *stored_bits,
                     size_t stored_size, uint32_t *tally, const uint8_t *sheet, size_t sheet_len,
                     const uint32_t *limits, size_t limit_count, const uint32_t *event,
                     const uint32_t *names, size_t names_len);

static uint64_t by_other(uint32_t *table, size_t rows, uint32_t *tally, const uint32_t *event) {
    return other_apply(table, rows, bits, sizeof bits, STATES, tally, NULL, 0, NULL, 0, event, NULL,
                       0);
}
#elif defined OTHER_TAKES_LIMITS
uint64_t other_apply(uint32_t *table, size_t rows, uint8_t *written, size_t written_size,
                     uint32_t *tally, const uint8_t *sheet, size_t sheet_len,
                     const uint32_t *limits, size_t limit_count, const uint32_t *event,
                     const uint32_t *names, size_t names_len);

static uint64_t by_other(uint32_t *table, size_t rows, uint32_t *tally, const uint32_t *event) {
    return other_apply(table, rows, bits, sizeof bits, tally, NULL, 0, NULL, 0, event, NULL, 0);
}
#elif defined OTHER_TAKES_BITS
uint64_t other_apply(uint32_t *table, size_t rows, uint8_t *written, size_t written_size,
                     uint32_t *tally, const uint8_t *sheet, size_t sheet_len,
                     const uint32_t *event, const uint32_t *names, size_t names_len);

static uint64_t by_other(uint32_t *table, size_t rows, uint32_t *tally, const uint32_t *event) {
    return other_apply(table, rows, bits, sizeof bits, tally, NULL, 0, event, NULL, 0);
}
#elif defined OTHER_TAKES_SHEETS
uint64_t other_apply(uint32_t *table, size_t rows, uint32_t *tally, const uint8_t *sheet,
                     size_t sheet_len, const uint32_t *event, const uint32_t *names,
                     size_t names_len);

static uint64_t by_other(uint32_t *table, size_t rows, uint32_t *tally, const uint32_t *event) {
    return other_apply(table, rows, tally, NULL, 0, event, NULL, 0);
}
#else
uint64_t other_apply(uint32_t *table, size_t rows, uint32_t *tally, const uint32_t *event,
                     const uint32_t *names, size_t names_len);

static uint64_t by_other(uint32_t *table, size_t rows, uint32_t *tally, const uint32_t *event) {
    return other_apply(table, rows, tally, event, NULL, 0);
}
#endif

static uint64_t by_this(uint32_t *table, size_t rows, uint32_t *tally, const uint32_t *event) {
    return kz_abi_apply((kz_cap *)table, rows, bits, sizeof bits, states.rows, 8200, states.written,
                        sizeof states.written, (kz_tally *)tally, NULL, 0, NULL, 0,
                        (const kz_event *)event, NULL, 0);
}

typedef struct version {
    apply_fn *apply;
    size_t row_words;
} version;

/* A row by its words, as many as any version has. */
typedef uint32_t row[MOST_WORDS];

static uint32_t random_below(uint32_t bound) {
    static uint32_t state = 1;
    state = state * 1664525u + 1013904223u;
    return (uint32_t)(((uint64_t)state * bound) >> 32);
}

/* Two trees of borrows over two spans side by side, their rows in turn. */
static void two_trees(row *table, size_t live) {
    memset(table, 0, live * sizeof *table);
    for (size_t at = 0; at < live; at++) {
        uint32_t *made = table[at];
        const uint32_t tree = at % 2;
        made[NAME] = (uint32_t)(2 * at + 1);
        made[RIGHT] = 2;
        made[DEPTH] = 1;
        made[HOLDERS] = 1;
        made[START] = tree * tree_length;
        made[LENGTH] = tree_length;
        if (at >= 2) {
            const uint32_t *parent = table[tree + 2 * random_below((uint32_t)at / 2)];
            const uint32_t length = parent[DEPTH] < 60 ? parent[LENGTH] / 2 : parent[LENGTH];
            made[PARENT] = parent[NAME];
            made[DEPTH] = parent[DEPTH] + 1;
            made[START] = parent[START] + random_below(parent[LENGTH] - length + 1);
            made[LENGTH] = length;
        }
    }
}

static double nanoseconds(void) {
    struct timespec now;
    clock_gettime(CLOCK_PROCESS_CPUTIME_ID, &now);
    return (double)now.tv_sec * 1e9 + (double)now.tv_nsec;
}

static int by_size(const void *a, const void *b) {
    const double x = *(const double *)a, y = *(const double *)b;
    return (x > y) - (x < y);
}

static void copy_rows(const version *v, uint32_t *to, const row *table, size_t rows) {
    for (size_t i = 0; i < rows; i++)
        memcpy(to + i * v->row_words, table[i], v->row_words * sizeof *to);
}

/* The time of a batch of calls, each on a fresh copy of the table, and their refusal. */
static double batch(const version *v, const row *table, size_t rows, uint32_t issued,
                    const uint32_t *event, uint32_t *refusal) {
    static uint32_t tables[COPIES][MOST_ROWS * MOST_WORDS];
    static uint32_t tallies[COPIES][TALLY_WORDS];
    for (int i = 0; i < COPIES; i++) {
        copy_rows(v, tables[i], table, rows);
        memset(tallies[i], 0, sizeof tallies[i]);
        tallies[i][0] = issued;
    }
    uint64_t answers = 0;
    const double start = nanoseconds();
    for (int i = 0; i < COPIES; i++) answers |= v->apply(tables[i], rows, tallies[i], event);
    *refusal = (uint32_t)(answers >> 32);
    return (nanoseconds() - start) / COPIES;
}

static void compare(const char *what, const version *versions, const row *table, size_t rows,
                    uint32_t issued, const uint32_t *event) {
    static double times[2][BATCHES];
    uint32_t refusals[2];
    for (int n = 0; n < BATCHES; n++)
        for (int v = 0; v < 2; v++)
            times[v][n] = batch(&versions[v], table, rows, issued, event, &refusals[v]);
    if (refusals[0] != refusals[1]) {
        fprintf(stderr, "%s: refusals %u and %u\n", what, (unsigned)refusals[0], (unsigned)refusals[1]);
        exit(1);
    }
    for (int v = 0; v < 2; v++) qsort(times[v], BATCHES, sizeof times[v][0], by_size);
    const double other = times[0][BATCHES / 2], this = times[1][BATCHES / 2];
    printf("%-8s %5zu %9.0f %9.0f %6.2f\n", what, rows, other, this, this / other);
}

int main(int argc, char **argv) {
    if (argc != 2) return 2;
    const version versions[2] = {
        {by_other, (size_t)atoi(argv[1])},
        {by_this, sizeof(kz_cap) / 4},
    };
    static row table[MOST_ROWS];
    const uint32_t name = 1;
    /* What is made is held by domain 0, which an older version does not look at. */
    const uint32_t events[6][MOST_WORDS] = {
        {CREATE, 0, beside, 64, 2, 0, 0, 0, 0, 0, 1},
        {BORROW, name, 0, 8, 2, 0, 0, 0, 0, 0, 1},
        {READ, name, 0, tree_length},
        {WRITE, name, 0, tree_length},
        {DROP, name},
        {READ, name, beside, 8},
    };
    const char *names[6] = {"create", "borrow", "read", "write", "drop", "refused"};
    printf("%-8s %5s %9s %9s %6s\n", "apply", "rows", "other ns", "this ns", "ratio");
    for (int e = 0; e < 6; e++)
        for (size_t rows = 16; rows <= MOST_ROWS; rows *= 4) {
            const size_t live = e < 2 ? rows - 1 : rows;
            two_trees(table, live);
            memset(table[live], 0, (rows - live) * sizeof *table);
            compare(names[e], versions, table, rows, (uint32_t)(2 * live), events[e]);
        }
    return 0;
}
