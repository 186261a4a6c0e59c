/*
 * A simulator that has a log of its own and checks it with the library.
 *
 * The log below is in the simulator's form: instructions on registers that hold pointers. The
 * simulator keeps the capability's name beside each pointer, hands every entry over unfiltered, and
 * reports each refusal at the instruction that caused it. Before a release and at the end it prints
 * the tally and the listing.
 */
#include <stdio.h>

#include "kelzoud.h"

enum { ROWS = 16, REGISTERS = 4 };

enum operation { ALLOCATE, BORROW, BORROW_SHARED, LOAD, STORE, RELEASE };

/* One entry of the log. `to` gets the pointer that an allocation or a borrow makes. */
struct entry {
    unsigned pc;
    enum operation operation;
    int to;
    int from;
    uint32_t address;
    uint32_t size;
};

/* Two exclusive borrows of one object, then a shared one, each used after another took its right. */
static const struct entry entries[] = {
    {0x100, ALLOCATE, 0, 0, 4096, 64},
    {0x104, BORROW, 1, 0, 4096, 16},
    {0x108, BORROW, 2, 0, 4112, 16},
    {0x10c, STORE, 0, 1, 4096, 8},
    {0x110, STORE, 0, 2, 4112, 8},
    {0x114, STORE, 0, 0, 4096, 8},
    {0x118, LOAD, 0, 1, 4096, 8},
    {0x11c, BORROW_SHARED, 3, 2, 4112, 4},
    {0x120, LOAD, 0, 0, 4112, 1},
    {0x124, STORE, 0, 2, 4112, 8},
    {0x128, LOAD, 0, 3, 4114, 4},
    {0x12c, RELEASE, 0, 0, 0, 0},
    {0x130, LOAD, 0, 3, 4112, 1},
};

struct simulator {
    kz_lent lent;              /* the table, its written bits and its tally; no sheet and no limits */
    uint32_t names[REGISTERS]; /* the name of the capability in each register */
};

static kz_answer take(const struct simulator *s, const struct entry *e) {
    uint32_t name = s->names[e->from];
    switch (e->operation) {
    case ALLOCATE:
        return kz_create(&s->lent, e->address, e->size, KZ_RW);
    case BORROW:
        return kz_borrow(&s->lent, name, e->address, e->size, KZ_RW);
    case BORROW_SHARED:
        return kz_borrow(&s->lent, name, e->address, e->size, KZ_RO);
    case LOAD:
        return kz_read(&s->lent, name, e->address, e->size);
    case STORE:
        return kz_write(&s->lent, name, e->address, e->size);
    case RELEASE:
        break;
    }
    return kz_drop(&s->lent, name);
}

static const char *reason(uint32_t refusal) {
    switch (refusal) {
    case KZ_ENDED:
        return "the capability has ended";
    case KZ_OUTSIDE_SPAN:
        return "outside the capability's span";
    case KZ_READ_ONLY:
        return "the capability is read-only";
    default:
        return "see enum kz_refusal";
    }
}

static void report(const struct entry *e, uint32_t refusal, uint32_t name) {
    printf("%#x: capability %u: refusal %u, %s\n", e->pc, (unsigned)name, (unsigned)refusal,
           reason(refusal));
}

static void print_summary(const struct simulator *s) {
    static uint8_t listing[KZ_MAX_LISTING];
    const kz_tally *t = s->lent.tally;
    kz_answer written = kz_write_listing(&s->lent, listing, sizeof listing);
    printf("%u creates, %u borrows, %u reads, %u writes, %u drops, %u refused\n",
           (unsigned)t->creates, (unsigned)t->borrows, (unsigned)t->reads, (unsigned)t->writes,
           (unsigned)t->drops, (unsigned)t->refused);
    fwrite(listing, 1, written.value, stdout);
}

int main(void) {
    static kz_cap table[ROWS]; /* all zeros: an empty table with no name issued */
    static uint8_t bits[KZ_WRITTEN_BYTES]; /* all zeros: no address written */
    static kz_states states;               /* all zeros: nothing stored */
    static kz_tally tally;
    struct simulator s = {.lent = {.table = table, .rows = ROWS, .tally = &tally,
                                   .written = bits, .written_size = sizeof bits,
                                   .states = &states, .states_size = sizeof states}};
    size_t count = sizeof entries / sizeof entries[0];
    size_t i;
    for (i = 0; i < count; i++) {
        const struct entry *e = &entries[i];
        kz_answer answer;
        if (e->operation == RELEASE) {
            print_summary(&s);
        }
        answer = take(&s, e);
        if (answer.refusal != 0) {
            report(e, answer.refusal, s.names[e->from]);
        } else if (answer.value != 0) {
            s.names[e->to] = answer.value;
        }
    }
    print_summary(&s);
    return 0;
}
