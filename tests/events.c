/*
 * A program that hands over events and nothing else, for the archive that has no more than their
 * calls. Prints each check that fails; the exit status is 0 when none does.
 */
#include <stdio.h>

#include "kelzoud.h"

static int failures = 0;

static void check(const char *what, kz_answer answer, uint32_t refusal, uint32_t value) {
    if (answer.refusal != refusal || answer.value != value) {
        printf("events.c: %s: refusal %u, value %u\n", what, (unsigned)answer.refusal,
               (unsigned)answer.value);
        failures++;
    }
}

/* A sheet by which reads lower what they strike, and writes keep it, but a stranger's ends cells. */
static void check_sheet(void) {
    static kz_cap table[4];
    static uint8_t written[KZ_WRITTEN_BYTES];
    static kz_tally tally;
    static const kz_sheet sheet = {{1, 1, 1, 0, 0, 0, 1, 1, 1, 0, 0, 0, 1, 1, 1, 0, 0, 255}};
    static const kz_event events[] = {
        {KZ_WRITE, 1, 0, 8, 0, 0, 0, 0, 0, 0, 0, 0},
        {KZ_WRITE, 2, 0, 8, 0, 0, 0, 0, 0, 0, 0, 0},
        {KZ_READ, 3, 0, 8, 0, 0, 0, 0, 0, 0, 0, 0},
        {KZ_WRITE, 2, 0, 8, 0, 0, 0, 0, 0, 0, 0, 0},
    };
    static const uint32_t names[] = {2, 3};
    static kz_states states;
    const kz_lent lent = {table,         4,      written, sizeof written, &states,
                          sizeof states, &tally, &sheet,  NULL,           0};
    kz_answer answers[4];
    check("create by a sheet", kz_create(&lent, 0, 64, KZ_RW), 0, 1);
    check("borrow by a sheet", kz_borrow(&lent, 1, 0, 8, KZ_RW), 0, 2);
    check("raw borrow by a sheet", kz_borrow_as(&lent, 1, 0, 8, KZ_RW, KZ_RAW), 0, 3);
    if (kz_apply_all(&lent, events, 4, NULL, 0, answers) != 4) {
        puts("events.c: not all events were taken by a sheet");
        failures++;
    }
    check("write that keeps its kin", answers[0], 0, 0);
    check("write through what it kept", answers[1], 0, 0);
    check("read that lowers its kin", answers[2], 0, 0);
    check("write through what it lowered", answers[3], KZ_READ_ONLY, 0);
    check("drop all by a sheet", kz_drop_all(&lent, names, 2), 0, 0);
    check("cell borrow by a sheet", kz_borrow_as(&lent, 1, 0, 8, KZ_RW, KZ_CELL), 0, 4);
    check("create that ends the cell", kz_create(&lent, 0, 8, KZ_RW), 0, 5);
    check("read of what it ended", kz_read(&lent, 4, 0, 8), KZ_ENDED, 0);
    check("write through what it kept", kz_write(&lent, 1, 0, 8), 0, 0);
}

/* Nothing is read before it is written, in one call as in many. */
static void check_fresh(void) {
    static kz_part part;
    static const kz_event events[] = {
        {KZ_CREATE, 0, 0, 16, KZ_RW, 0, 0, 0, 1, 0, 1, 0},
        {KZ_READ, 1, 0, 8, 0, 0, 0, 0, 0, 0, 0, 0},
        {KZ_BORROW, 1, 0, 8, KZ_RW, 0, 0, KZ_RAW, 0, 0, 1, 0},
        {KZ_WRITE, 2, 0, 8, 0, 0, 0, 0, 0, 0, 0, 0},
        {KZ_READ, 1, 0, 8, 0, 0, 0, 0, 0, 0, 0, 0},
        {KZ_READ, 1, 0, 9, 0, 0, 0, 0, 0, 0, 0, 0},
        {KZ_CREATE, 0, 0, 8, KZ_RW, 1, 3, 0, 1, 0, 1, 0},
        {KZ_READ, 3, 0, 8, 0, 0, 0, 0, 0, 0, 0, 0},
        {KZ_CREATE, 0, 0, 8, KZ_RW, 0, 0, 0, 2, 0, 1, 0},
        {KZ_CREATE, 0, 65536, 8, KZ_RW, 0, 0, 0, 1, 0, 1, 0},
    };
    static const kz_answer expected[] = {
        {0, 1}, {KZ_NOT_WRITTEN, 0}, {0, 2}, {0, 0}, {0, 0}, {KZ_NOT_WRITTEN, 0},
        {0, 3}, {KZ_NOT_WRITTEN, 0}, {KZ_MISSPELT, 0}, {KZ_ILLEGAL_SPAN, 0},
    };
    enum { COUNT = sizeof events / sizeof events[0] };
    kz_lent lent = kz_lend(&part);
    kz_answer answers[COUNT];
    int i;
    if (kz_apply_all(&lent, events, COUNT, NULL, 0, answers) != COUNT) {
        puts("events.c: not all events were taken on fresh memory");
        failures++;
    }
    for (i = 0; i < COUNT; i++) {
        check("fresh in many", answers[i], expected[i].refusal, expected[i].value);
    }
    check("create fresh", kz_create_fresh(&lent, 64, 8, KZ_RW), 0, 4);
    check("read before a write", kz_read(&lent, 4, 64, 1), KZ_NOT_WRITTEN, 0);
    check("write to fresh memory", kz_write(&lent, 4, 64, 1), 0, 0);
    check("read after a write", kz_read(&lent, 4, 64, 1), 0, 0);
    lent.written_size--;
    check("too few written bits", kz_write(&lent, 4, 64, 1), KZ_DISORDERED, 0);
}

/* What is stored comes back, and no name is given twice; and what is stored is judged on going back. */
static void check_states(void) {
    static kz_part part;
    static const kz_event events[] = {
        {KZ_MARK, 5, 0, 0, 0, 0, 0, 0, 0, 2, 0, 0},
        {KZ_WRITE, 1, 0, 8, 0, 0, 0, 0, 0, 0, 0, 0},
        {KZ_READ, 2, 0, 8, 0, 0, 0, 0, 0, 0, 0, 0},
        {KZ_BACK, 5, 0, 0, 0, 0, 0, 0, 0, 3, 0, 0},
        {KZ_WRITE, 2, 0, 8, 0, 0, 0, 0, 0, 0, 0, 0},
        {KZ_BACK, 4, 0, 0, 0, 0, 0, 0, 0, 0, 0, 0},
        {KZ_MARK, 8, 0, 0, 0, 0, 0, 0, 0, 0, 0, 0},
        {KZ_BACK, 5, 0, 0, 0, 0, 0, 0, 0, 64, 0, 0},
    };
    static const kz_answer expected[] = {
        {0, 0}, {0, 0}, {KZ_ENDED, 0}, {0, 0}, {0, 0}, {KZ_NOTHING_STORED, 0}, {KZ_MISSPELT, 0},
        {KZ_MISSPELT, 0},
    };
    enum { COUNT = sizeof events / sizeof events[0] };
    kz_lent lent = kz_lend(&part);
    kz_answer answers[COUNT];
    int i;
    check("back to nothing", kz_back(&lent, 5), KZ_NOTHING_STORED, 0);
    check("create to come back to", kz_create(&lent, 0, 64, KZ_RW), 0, 1);
    check("borrow to come back to", kz_borrow(&lent, 1, 0, 8, KZ_RW), 0, 2);
    if (kz_apply_all(&lent, events, COUNT, NULL, 0, answers) != COUNT) {
        puts("events.c: not all events were taken with states");
        failures++;
    }
    for (i = 0; i < COUNT; i++) {
        check("states in many", answers[i], expected[i].refusal, expected[i].value);
    }
    check("mark", kz_mark(&lent, 0), 0, 0);
    check("borrow after a mark", kz_borrow(&lent, 1, 0, 8, KZ_RW), 0, 3);
    check("back", kz_back_by(&lent, 9, 0), 0, 0);
    check("read of what was borrowed since", kz_read(&lent, 3, 0, 8), KZ_ENDED, 0);
    check("borrow after a back", kz_borrow(&lent, 1, 0, 8, KZ_RW), 0, 4);
    check("mark by another domain", kz_mark_by(&lent, 63, 0), 0, 0);
    part.states.rows[1].right = 3;
    check("back to what is out of order", kz_back(&lent, 0), KZ_DISORDERED, 0);
    check("back to another slot", kz_back(&lent, 5), 0, 0);
    lent.states_size--;
    check("too few states", kz_write(&lent, 1, 0, 8), KZ_DISORDERED, 0);
    lent.states = NULL;
    check("no states", kz_mark(&lent, 0), KZ_DISORDERED, 0);
}

static void check_charge(const char *what, kz_shares charge, uint32_t refusal, uint32_t share,
                         uint32_t rest) {
    if (charge.refusal != refusal || charge.share != share || charge.rest != rest) {
        printf("events.c: %s: refusal %u, share %u, rest %u\n", what, (unsigned)charge.refusal,
               (unsigned)charge.share, (unsigned)charge.rest);
        failures++;
    }
}

/* Two domains with limits, of which one lets the other use what it made. */
static void check_domains(void) {
    static kz_part part;
    static uint32_t limits[KZ_DOMAINS];
    static const kz_event events[] = {
        {KZ_CREATE, 0, 0, 65, KZ_RW, 0, 0, 0, 0, 1, 6, 0},
        {KZ_READ, 1, 0, 8, 0, 0, 0, 0, 0, 2, 0, 0},
        {KZ_READ, 1, 0, 8, 0, 0, 0, 0, 0, 3, 0, 0},
        {KZ_BORROW, 1, 0, 8, KZ_RW, 0, 0, 0, 0, 2, 4, 0},
        {KZ_BORROW, 1, 0, 8, KZ_RW, 0, 0, 0, 0, 2, 2, 0},
        {KZ_CREATE, 0, 128, 8, KZ_RW, 0, 0, 0, 0, 2, 4, 0},
        {KZ_DROP, 2, 0, 0, 0, 0, 0, 0, 0, 1, 0, 0},
        {KZ_DROP, 2, 0, 0, 0, 0, 0, 0, 0, 64, 0, 0},
    };
    static const kz_answer expected[] = {
        {0, 1}, {0, 0}, {KZ_NOT_HOLDER, 0}, {0, 2}, {KZ_MISSPELT, 0}, {KZ_LIMIT_REACHED, 0},
        {KZ_NOT_HOLDER, 0}, {KZ_MISSPELT, 0},
    };
    enum { COUNT = sizeof events / sizeof events[0] };
    kz_lent lent = kz_lend(&part);
    kz_answer answers[COUNT];
    int i;
    limits[1] = KZ_MAX_ROWS - 1;
    limits[2] = 1;
    lent.limits = limits;
    lent.limit_count = KZ_DOMAINS;
    if (kz_apply_all(&lent, events, COUNT, NULL, 0, answers) != COUNT) {
        puts("events.c: not all events were taken of domains");
        failures++;
    }
    for (i = 0; i < COUNT; i++) {
        check("domains in many", answers[i], expected[i].refusal, expected[i].value);
    }
    check_charge("charge of two", kz_charge(&lent, 1), 0, 32, 1);
    check_charge("charge of one", kz_charge(&lent, 2), 0, 8, 0);
    check_charge("charge of none", kz_charge(&lent, 3), KZ_UNISSUED, 0, 0);
    check("drop by a holder", kz_drop_by(&lent, 2, 2), 0, 0);
    check_charge("charge of what ended", kz_charge(&lent, 2), KZ_ENDED, 0, 0);
    check("create within the limit", kz_create_by(&lent, 2, kz_holder(2), 128, 8, KZ_RW), 0, 3);
    limits[2] = 2;
    check("limits above the rows", kz_read_by(&lent, 2, 3, 128, 8), KZ_DISORDERED, 0);
}

int main(void) {
    static kz_part part;
    static const uint32_t names[] = {1, 3};
    static const kz_event events[] = {
        {KZ_CREATE, 0, 64, 64, KZ_RW, 1, 3, 0, 0, 0, 1, 0},
        {KZ_READ, 3, 128, 1, 0, 0, 0, 0, 0, 0, 0, 0},
        {KZ_DROP_ALL, 0, 0, 2, 0, 0, 0, 0, 0, 0, 0, 0},
        {KZ_CREATE, 0, 0, 8, KZ_RW, 0, 0, 0, 0, 0, 1, 0},
        {KZ_BORROW, 4, 0, 8, KZ_RW, 1, 5, KZ_RAW, 0, 0, 1, 0},
        {KZ_WRITE, 4, 0, 8, 0, 0, 0, 0, 0, 0, 0, 0},
        {KZ_WRITE, 5, 0, 8, 0, 0, 0, 0, 0, 0, 0, 0},
        {KZ_BORROW, 4, 0, 8, KZ_RW, 0, 0, 3, 0, 0, 1, 0},
    };
    enum { COUNT = sizeof events / sizeof events[0] };
    const kz_lent lent = kz_lend(&part);
    kz_answer answers[COUNT];
    check("create", kz_create(&lent, 0, 64, KZ_RW), 0, 1);
    check("borrow", kz_borrow(&lent, 1, 0, 16, KZ_RW), 0, 2);
    check("read", kz_read(&lent, 2, 0, 8), 0, 0);
    check("write", kz_write(&lent, 1, 0, 8), 0, 0);
    check("drop", kz_drop(&lent, 2), KZ_ENDED, 0);
    if (kz_apply_all(&lent, events, COUNT, names, 2, answers) != COUNT) {
        puts("events.c: not all events were taken");
        failures++;
    }
    check("create in many", answers[0], 0, 3);
    check("read in many", answers[1], KZ_OUTSIDE_SPAN, 0);
    check("drop in many", answers[2], 0, 0);
    check("create after it", answers[3], 0, 4);
    check("raw borrow in many", answers[4], 0, 5);
    check("write through its parent", answers[5], 0, 0);
    check("write through the raw one", answers[6], 0, 0);
    check("borrow of an unknown kind", answers[7], KZ_MISSPELT, 0);
    check("borrow as a cell", kz_borrow_as(&lent, 4, 0, 8, KZ_RW, KZ_CELL), 0, 6);
    check("write through the cell", kz_write(&lent, 6, 0, 8), 0, 0);
    check("read through the raw one", kz_read(&lent, 5, 0, 8), 0, 0);
    check("write through the cell again", kz_write(&lent, 6, 0, 8), KZ_READ_ONLY, 0);
    check("apply", kz_apply(&lent, events), KZ_MISNAMED, 0);
    check("drop all", kz_drop_all(&lent, names, 2), KZ_ENDED, 0);
    check_sheet();
    check_fresh();
    check_domains();
    check_states();
    return failures != 0;
}
