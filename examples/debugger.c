/*
 * A debugger that steps back.
 *
 * The log below is what the program under test did with its pointers. The debugger takes its entries one
 * by one. At each refusal it steps back until the pointer could still be used so, and tells the user which
 * entry took that away; then it goes on from where it was.
 *
 * It keeps a state before every fourth entry, in a slot, and beside it what it needs itself: the place in
 * the log, and the names that the pointers had there. Slot 0 has the beginning throughout, so that every
 * place can be reached; the others are used in turn. To get to a place it goes back to the nearest state
 * before it and takes the entries from there on again. What they make gets new names then, since no name
 * is given twice: so the user is told of pointers, never of names.
 */
#include <stdio.h>
#include <string.h>

#include "kelzoud.h"

enum { POINTERS = 4, EVERY = 4 };

enum operation { ALLOCATE, BORROW, LOAD, STORE, RELEASE };

/* One entry of the log. `to` gets the pointer that an allocation or a borrow makes. */
struct entry {
    enum operation operation;
    int to;
    int from;
    uint32_t address;
    uint32_t size;
};

static const struct entry entries[] = {
    {ALLOCATE, 0, 0, 4096, 64}, /* entry 1 */
    {BORROW, 1, 0, 4096, 16},   /* two exclusive borrows of its parts */
    {BORROW, 2, 0, 4112, 16},
    {STORE, 0, 1, 4096, 8},
    {STORE, 0, 2, 4112, 8},
    {LOAD, 0, 1, 4096, 8},
    {STORE, 0, 0, 4100, 4}, /* entry 7, over the first of them */
    {LOAD, 0, 2, 4112, 8},
    {BORROW, 3, 2, 4112, 4},
    {LOAD, 0, 1, 4096, 8},
    {LOAD, 0, 0, 4112, 1}, /* entry 11, a read of the second */
    {LOAD, 0, 3, 4112, 4},
    {STORE, 0, 2, 4112, 8},
    {RELEASE, 0, 0, 0, 0}, /* entry 14 */
    {LOAD, 0, 3, 4112, 1},
};

enum { COUNT = sizeof entries / sizeof entries[0] };

static const char *const words[] = {"allocate", "borrow", "load", "store", "release"};

static kz_part part; /* zeros: no capability yet, and nothing is stored */

/* Where the debugger is: how many entries it has taken, and which names the pointers have. */
struct place {
    size_t taken;
    uint32_t names[POINTERS];
};

static struct place here;

/* Where it was at each mark. */
static struct place marked[KZ_SLOTS];
static int is_marked[KZ_SLOTS];

static void keep(const kz_lent *lent) {
    const uint32_t turn = (uint32_t)(here.taken / EVERY);
    const uint32_t slot = turn == 0 ? 0 : 1 + (turn - 1) % (KZ_SLOTS - 1);
    if (kz_mark(lent, slot).refusal == 0) {
        marked[slot] = here;
        is_marked[slot] = 1;
    }
}

static kz_answer take(const kz_lent *lent, const struct entry *e) {
    const uint32_t name = here.names[e->from];
    switch (e->operation) {
    case ALLOCATE:
        return kz_create(lent, e->address, e->size, KZ_RW);
    case BORROW:
        return kz_borrow(lent, name, e->address, e->size, KZ_RW);
    case LOAD:
        return kz_read(lent, name, e->address, e->size);
    case STORE:
        return kz_write(lent, name, e->address, e->size);
    case RELEASE:
        break;
    }
    return kz_drop(lent, name);
}

/* Takes the next entry, and gives its refusal. */
static uint32_t step(const kz_lent *lent) {
    const struct entry *e = &entries[here.taken];
    kz_answer answer;
    if (here.taken % EVERY == 0) keep(lent);
    answer = take(lent, e);
    if (answer.value != 0) here.names[e->to] = answer.value;
    here.taken++;
    return answer.refusal;
}

/* Gets to where so many entries are taken, from the nearest state that is not behind it. Whether it could:
   a state that something else has written over is not taken back. */
static int get_to(const kz_lent *lent, size_t taken) {
    int slot, nearest = 0;
    for (slot = 1; slot < KZ_SLOTS; slot++) {
        if (is_marked[slot] && marked[slot].taken <= taken &&
            marked[slot].taken >= marked[nearest].taken)
            nearest = slot;
    }
    if (kz_back(lent, (uint32_t)nearest).refusal != 0) return 0;
    here = marked[nearest];
    while (here.taken < taken) step(lent);
    return 1;
}

/* Whether a pointer may be used here, to write through it if that is asked. */
static int is_usable(int pointer, int writes) {
    const uint32_t name = here.names[pointer];
    size_t i;
    for (i = 0; i < KZ_MAX_ROWS && part.table[i].name != 0; i++) {
        if (part.table[i].name == name) return !writes || part.table[i].right == KZ_RW;
    }
    return 0;
}

/* Steps back from a refused entry until its pointer may be used: the entry behind that took it away. */
static void explain(const kz_lent *lent, size_t refused, uint32_t refusal) {
    const struct entry *e = &entries[refused];
    size_t at = refused;
    printf("entry %u: %s through pointer %d, refusal %u", (unsigned)refused + 1,
           words[e->operation], e->from, (unsigned)refusal);
    while (at > 0 && get_to(lent, at) && !is_usable(e->from, e->operation == STORE)) at--;
    printf(", since entry %u, a %s through pointer %d\n", (unsigned)at + 1,
           words[entries[at].operation], entries[at].from);
    get_to(lent, refused + 1);
}

int main(void) {
    const kz_lent lent = kz_lend(&part);
    uint32_t made = 0;
    while (here.taken < COUNT) {
        const size_t at = here.taken;
        const uint32_t refusal = step(&lent);
        made += entries[at].operation <= BORROW;
        if (refusal != 0) explain(&lent, at, refusal);
    }
    printf("%u capabilities were made, and %u names given out\n", (unsigned)made,
           (unsigned)part.tally.issued);
    printf("the tally has %u loads and %u refusals, with those that were taken again\n",
           (unsigned)part.tally.reads, (unsigned)part.tally.refused);
    return 0;
}
