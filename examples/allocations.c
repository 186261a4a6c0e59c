/*
 * More objects than one table has rows: a small table for each allocation.
 *
 * No two allocations that live share an address, because a create ends all that it touches; and a read,
 * write, borrow or drop through a name changes nothing outside the tree of that name's own allocation.
 * So each allocation has a table and a tally of its own, and is answered what one table for all would
 * answer, if one had rows and names enough. Three things are the tool's to do:
 *
 *   - A pointer is kept as its object and a name in that object's table. The table is found by the
 *     pointer, never by the address that is used: an access outside its object is judged by the table
 *     of the object that the pointer was made for.
 *   - A create has to end what it touches in other tables. The tool finds that by its own map of
 *     addresses, and drops the roots.
 *   - The written bits go by addresses, and all tables have those of the one memory: so one array of
 *     bits is lent with every table.
 */
#include <stdio.h>
#include <stdlib.h>
#include <string.h>

#include "kelzoud.h"

enum { OBJECTS = 100000, SPARE = 8, SLOT = 64, FEW_ROWS = 4, ROUNDS = 10 };

/* An allocation of the program under test. */
struct object {
    uint32_t start;
    uint32_t length;
    kz_cap *table; /* of `rows` rows, all zeros at first */
    size_t rows;
    kz_tally tally;
};

/* A pointer of the program under test, as the tool keeps it. */
struct pointer {
    struct object *object;
    uint32_t name;
};

static struct object objects[OBJECTS + SPARE];
static size_t object_count;

/* The tool's map: the newest object over each 64 addresses. Objects begin at multiples of 64. */
static struct object *heap[OBJECTS];

/* One array for all tables; and one room for states, since no table is marked. */
static uint8_t written[KZ_WRITTEN_BYTES];
static kz_states states;

static kz_lent lend(struct object *o) {
    const kz_lent lent = {.table = o->table, .rows = o->rows, .tally = &o->tally,
                          .written = written, .written_size = sizeof written,
                          .states = &states, .states_size = sizeof states};
    return lent;
}

/* A table that is full gets twice as many rows, the new ones all zeros, and is the same table. */
static void make_room(struct object *o) {
    if (o->rows == 0 || o->table[o->rows - 1].name != 0) {
        const size_t rows = o->rows == 0 ? FEW_ROWS : 2 * o->rows;
        kz_cap *table = (kz_cap *)realloc(o->table, rows * sizeof *table);
        if (table == NULL) abort();
        memset(table + o->rows, 0, (rows - o->rows) * sizeof *table);
        o->table = table;
        o->rows = rows;
    }
}

/* Ends what lives of an object. Its root, if that lives, has the first row, and its maker holds it. */
static void end(struct object *o) {
    const kz_lent lent = lend(o);
    if (o->table[0].name != 0) kz_drop_by(&lent, o->table[0].maker, o->table[0].name);
}

/* Ends what a new object touches, and notes it in the map. */
static void take_over(struct object *o) {
    uint32_t slot;
    for (slot = o->start / SLOT; slot * SLOT < o->start + o->length; slot++) {
        if (heap[slot] != NULL) end(heap[slot]);
        heap[slot] = o;
    }
}

/* A new object in a table of its own, over memory that may have been another's. Where memory has
   written bits it must be written before it is read. A refused create ends nothing. */
static struct pointer allocate(uint32_t start, uint32_t length) {
    struct object *o = &objects[object_count++];
    const int fresh = start + length <= KZ_WRITTEN_ADDRESSES;
    struct pointer made = {o, 0};
    kz_lent lent;
    kz_answer answer;
    o->start = start;
    o->length = length;
    make_room(o);
    lent = lend(o);
    answer = (fresh ? kz_create_fresh : kz_create)(&lent, start, length, KZ_RW);
    if (answer.refusal == 0) take_over(o);
    made.name = answer.value;
    return made;
}

static struct pointer borrow(struct pointer from, uint32_t right) {
    struct pointer made = from;
    kz_lent lent;
    make_room(from.object);
    lent = lend(from.object);
    made.name = kz_borrow(&lent, from.name, from.object->start, 8, right).value;
    return made;
}

static kz_answer load(struct pointer p, uint32_t start, uint32_t length) {
    const kz_lent lent = lend(p.object);
    return kz_read(&lent, p.name, start, length);
}

static kz_answer store(struct pointer p, uint32_t start, uint32_t length) {
    const kz_lent lent = lend(p.object);
    return kz_write(&lent, p.name, start, length);
}

/* What the program does with each object: it borrows it again and again, each time ending the borrow
   by a store through the whole, and keeps two borrows in the end. Gives the last of them. */
static struct pointer work(struct pointer whole) {
    struct pointer one;
    uint32_t round;
    for (round = 0; round < ROUNDS; round++) {
        one = borrow(whole, KZ_RW);
        store(one, whole.object->start, 8);
        store(whole, whole.object->start, 8);
    }
    return borrow(borrow(whole, KZ_RW), KZ_RO);
}

static void print_totals(void) {
    size_t i, row, bytes = 0, live = 0, names = 0, refused = 0;
    for (i = 0; i < object_count; i++) {
        const struct object *o = &objects[i];
        bytes += o->rows * sizeof *o->table + sizeof o->tally;
        for (row = 0; row < o->rows && o->table[row].name != 0; row++) live++;
        names += o->tally.issued;
        refused += o->tally.refused;
    }
    printf("%u objects: %u live capabilities, %u names, %u refused\n", (unsigned)object_count,
           (unsigned)live, (unsigned)names, (unsigned)refused);
    printf("%u bytes of tables and tallies, %u of written bits\n", (unsigned)bytes,
           (unsigned)sizeof written);
}

static void report(const char *what, kz_answer answer) {
    printf("%s: refusal %u\n", what, (unsigned)answer.refusal);
}

int main(void) {
    static struct pointer wholes[OBJECTS], borrows[OBJECTS];
    struct pointer large, many;
    uint32_t i;
    for (i = 0; i < OBJECTS; i++) {
        wholes[i] = allocate(i * SLOT, 48);
        borrows[i] = work(wholes[i]);
    }
    print_totals();
    report("a load of what was stored", load(borrows[99], 99 * SLOT, 8));
    report("a load of what was not", load(wholes[99], 99 * SLOT, 48));
    report("a store outside of 7, into 8", store(wholes[7], 8 * SLOT, 8));
    report("a load through 8's borrow", load(borrows[8], 8 * SLOT, 8));
    report("a store through 50000", store(wholes[50000], 50000 * SLOT, 8));
    report("a load through its borrow", load(borrows[50000], 50000 * SLOT, 8));
    /* The memory of 20, 21 and 22 is handed out again, and nobody has released it. */
    large = allocate(20 * SLOT, 3 * SLOT);
    report("a load through 21", load(borrows[21], 21 * SLOT, 8));
    report("a load of what 21 left there", load(large, 21 * SLOT, 8));
    report("a load through 23", load(borrows[23], 23 * SLOT, 8));
    for (i = 0; i < 20; i++) many = borrow(wholes[60000], KZ_RO);
    report("a load through the last of 22 borrows", load(many, 60000 * SLOT, 8));
    print_totals();
    for (i = 0; i < object_count; i++) free(objects[i].table);
    return 0;
}
