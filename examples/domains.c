/*
 * A probe on a board whose cores are domains of one table.
 *
 * The log below is in the probe's form: what a core did with the pointers that the cores have. Core 1
 * makes a buffer for itself and core 2; all else a core makes for itself. Each core has a limit, so
 * that one that goes wrong leaves the other its rows. The probe hands every entry over unfiltered, as
 * the core that did it, and reports each refusal. Before the buffer is released and at the end it
 * prints what the cores are charged for their memory.
 */
#include <stdio.h>

#include "kelzoud.h"

enum { ROWS = 8, POINTERS = 8 };

enum operation { ALLOCATE, SHARE, BORROW, LOAD, STORE, RELEASE };

/* One entry of the log. `to` gets the pointer that an allocation or a borrow makes. */
struct entry {
    uint32_t core;
    enum operation operation;
    int to;
    int from;
    uint32_t address;
    uint32_t size;
};

static const struct entry entries[] = {
    {1, SHARE, 0, 0, 4096, 65},     /* the buffer, for both cores */
    {1, ALLOCATE, 1, 0, 8192, 32},  /* core 1's own */
    {2, ALLOCATE, 2, 0, 12288, 16}, /* core 2's own */
    {1, STORE, 0, 0, 4096, 65},
    {2, LOAD, 0, 0, 4096, 65},
    {2, LOAD, 0, 1, 8192, 4},       /* core 2 has a pointer that is not for it */
    {1, BORROW, 3, 0, 4096, 8},     /* core 1 borrows, and forgets to release */
    {1, BORROW, 4, 0, 4104, 8},
    {1, BORROW, 5, 0, 4112, 8},
    {2, BORROW, 6, 0, 4096, 64},    /* core 2 still has its rows */
    {2, STORE, 0, 6, 4096, 8},      /* which ends what core 1 borrowed there */
    {1, LOAD, 0, 3, 4096, 8},
    {1, BORROW, 5, 0, 4112, 8},     /* so core 1 has a row again */
    {2, RELEASE, 0, 0, 0, 0},       /* who holds the buffer may release it, and with it all borrows */
    {1, LOAD, 0, 5, 4112, 8},
};

/* How many capabilities that a core made may live at once. No other core may make any. */
static const uint32_t limits[KZ_DOMAINS] = {[1] = 4, [2] = 3};

static kz_answer take(const kz_lent *lent, const uint32_t *names, const struct entry *e) {
    const uint64_t alone = kz_holder(e->core), both = kz_holder(1) | kz_holder(2);
    const uint32_t name = names[e->from];
    switch (e->operation) {
    case ALLOCATE:
        return kz_create_by(lent, e->core, alone, e->address, e->size, KZ_RW);
    case SHARE:
        return kz_create_by(lent, e->core, both, e->address, e->size, KZ_RW);
    case BORROW:
        return kz_borrow_by(lent, e->core, alone, name, e->address, e->size, KZ_RW);
    case LOAD:
        return kz_read_by(lent, e->core, name, e->address, e->size);
    case STORE:
        return kz_write_by(lent, e->core, name, e->address, e->size);
    case RELEASE:
        break;
    }
    return kz_drop_by(lent, e->core, name);
}

static const char *reason(uint32_t refusal) {
    switch (refusal) {
    case KZ_ENDED:
        return "the capability has ended";
    case KZ_NOT_HOLDER:
        return "it is not for this core";
    case KZ_LIMIT_REACHED:
        return "the core has made all that it may";
    default:
        return "see enum kz_refusal";
    }
}

/* What each object costs its holders. What is borrowed is not charged again. */
static void print_charges(const kz_lent *lent) {
    uint32_t core, total[3] = {0};
    size_t i;
    for (i = 0; i < lent->rows && lent->table[i].name != 0; i++) {
        const kz_cap *row = &lent->table[i];
        const kz_shares charge = kz_charge(lent, row->name);
        if (row->parent != 0) continue;
        printf("capability %u of core %u: %u for each holder, %u left over\n", (unsigned)row->name,
               (unsigned)row->maker, (unsigned)charge.share, (unsigned)charge.rest);
        for (core = 1; core <= 2; core++) {
            total[core] += (kz_holders_of(row) & kz_holder(core)) != 0 ? charge.share : 0;
        }
    }
    printf("core 1 is charged %u, core 2 %u\n", (unsigned)total[1], (unsigned)total[2]);
}

int main(void) {
    static kz_cap table[ROWS];
    static uint8_t written[KZ_WRITTEN_BYTES];
    static kz_states states;
    static kz_tally tally;
    static uint8_t listing[KZ_MAX_LISTING];
    const kz_lent lent = {.table = table, .rows = ROWS, .tally = &tally,
                          .written = written, .written_size = sizeof written,
                          .states = &states, .states_size = sizeof states,
                          .limits = limits, .limit_count = KZ_DOMAINS};
    uint32_t names[POINTERS] = {0};
    size_t i;
    for (i = 0; i < sizeof entries / sizeof entries[0]; i++) {
        const struct entry *e = &entries[i];
        kz_answer answer;
        if (e->operation == RELEASE) {
            print_charges(&lent);
            fwrite(listing, 1, kz_write_listing(&lent, listing, sizeof listing).value, stdout);
        }
        answer = take(&lent, names, e);
        if (answer.refusal != 0) {
            printf("entry %u, core %u: refusal %u, %s\n", (unsigned)i + 1, (unsigned)e->core,
                   (unsigned)answer.refusal, reason(answer.refusal));
        } else if (answer.value != 0) {
            names[e->to] = answer.value;
        }
    }
    print_charges(&lent);
    return 0;
}
