/*
 * The header as C and as C++: the layout of the structs, each call, each exported function, and
 * pointers that are NULL where their length is 0. Prints each check that fails; the exit status is 0
 * when none does. Tables, written bits, states and tallies are static, so that they begin as zeros.
 */
#include <stdio.h>
#include <string.h>

#include "kelzoud.h"

static int failures = 0;

/* Room for states that no call but a mark writes, shared by the tables that are not marked; and what
   kz_check works in. */
static kz_states states, work;

#define LENT_STATES &states, sizeof states
#define ROWS_OF(states) (sizeof(states).rows / sizeof(states).rows[0])
#define STATES states.rows, ROWS_OF(states), states.written, sizeof states.written

static void check_at(int line, const char *what, int holds) {
    if (!holds) {
        printf("header.c:%d: %s\n", line, what);
        failures++;
    }
}

#define CHECK(condition) check_at(__LINE__, #condition, condition)

static int allowed(kz_answer answer, uint32_t value) {
    return answer.refusal == 0 && answer.value == value;
}

static int refused_at(kz_answer answer, enum kz_refusal refusal, uint32_t value) {
    return answer.refusal == (uint32_t)refusal && answer.value == value;
}

static int refused(kz_answer answer, enum kz_refusal refusal) {
    return refused_at(answer, refusal, 0);
}

/* An event of domain 0, which alone holds what it makes. */
static kz_event event_of(uint32_t kind, uint32_t name, uint32_t start, uint32_t length,
                         uint32_t right) {
    const uint32_t makes = kind == KZ_CREATE || kind == KZ_BORROW;
    const kz_event event = {kind, name, start, length, right, 0, 0, 0, 0, 0, makes, 0};
    return event;
}

static kz_event named_event(uint32_t kind, uint32_t written, uint32_t name, uint32_t start,
                            uint32_t length, uint32_t right) {
    kz_event event = event_of(kind, name, start, length, right);
    event.named = 1;
    event.written = written;
    return event;
}

static kz_event with_kind(kz_event event, uint32_t kind) {
    event.cap_kind = kind;
    return event;
}

static kz_event with_mark(kz_event event, uint32_t fresh) {
    event.fresh = fresh;
    return event;
}

/* What a listing has of a row that domain 0 made and alone holds. */
#define OF_0 " 0 0000000000000001"

static int same_event(const kz_event *one, const kz_event *other) {
    return memcmp(one, other, sizeof *one) == 0;
}

static void check_layout(void) {
    CHECK(sizeof(kz_cap) == 44);
    CHECK(sizeof(kz_tally) == 28);
    CHECK(sizeof(kz_event) == 48);
    CHECK(sizeof(kz_answer) == 8);
    CHECK(sizeof(kz_shares) == 12);
    CHECK(sizeof(kz_counts) == 24);
    CHECK(sizeof(kz_sizing) == 16);
    CHECK(sizeof(kz_part) == KZ_MAX_ROWS * 44 + KZ_WRITTEN_BYTES + 426336 + 28);
    CHECK(sizeof(kz_states) == 426336 && sizeof(kz_part) == 479612);
    CHECK(ROWS_OF(states) == 8200 && sizeof states.written == 65536);
    CHECK(offsetof(kz_states, written) == 8200 * sizeof(kz_cap));
    CHECK(sizeof(kz_sheet) == KZ_SHEET_PLACES);
    CHECK(KZ_WRITTEN_ADDRESSES == 8 * KZ_WRITTEN_BYTES);
    CHECK(offsetof(kz_cap, depth) == 20);
    CHECK(offsetof(kz_cap, kind) == 24);
    CHECK(offsetof(kz_cap, fresh) == 28);
    CHECK(offsetof(kz_cap, maker) == 32);
    CHECK(offsetof(kz_cap, holders_low) == 36);
    CHECK(offsetof(kz_cap, holders_high) == 40);
    CHECK(offsetof(kz_tally, refused) == 24);
    CHECK(offsetof(kz_event, kind) == 0);
    CHECK(offsetof(kz_event, name) == 4);
    CHECK(offsetof(kz_event, start) == 8);
    CHECK(offsetof(kz_event, length) == 12);
    CHECK(offsetof(kz_event, right) == 16);
    CHECK(offsetof(kz_event, named) == 20);
    CHECK(offsetof(kz_event, written) == 24);
    CHECK(offsetof(kz_event, cap_kind) == 28);
    CHECK(offsetof(kz_event, fresh) == 32);
    CHECK(offsetof(kz_event, actor) == 36);
    CHECK(offsetof(kz_event, holders_low) == 40);
    CHECK(offsetof(kz_event, holders_high) == 44);
    CHECK(offsetof(kz_answer, value) == 4);
    CHECK(offsetof(kz_shares, refusal) == 0);
    CHECK(offsetof(kz_shares, share) == 4);
    CHECK(offsetof(kz_shares, rest) == 8);
    CHECK(offsetof(kz_counts, events) == 0);
    CHECK(offsetof(kz_counts, kinds) == 4);
    CHECK(offsetof(kz_counts, names) == 8);
    CHECK(offsetof(kz_counts, starts) == 12);
    CHECK(offsetof(kz_counts, lengths) == 16);
    CHECK(offsetof(kz_counts, rights) == 20);
    CHECK(offsetof(kz_sizing, refusal) == 0);
    CHECK(offsetof(kz_sizing, rows) == 4);
    CHECK(offsetof(kz_sizing, client) == 8);
    CHECK(offsetof(kz_sizing, line) == 12);
}

/* Answers come apart also where the value is as large as can be, and where it is 0. */
static void check_answers(void) {
    static const struct {
        uint64_t answer;
        uint32_t refusal, value;
    } cases[] = {
        {0, 0, 0},
        {0x00000000fffffffeu, 0, 4294967294u},
        {0x00000000ffffffffu, 0, 4294967295u},
        {0x0000000100000000u, KZ_DISORDERED, 0},
        {0x00000005ffffffffu, KZ_ENDED, 4294967295u},
        {0x0000000b00000007u, KZ_BUFFER_TOO_SHORT, 7},
        {0x0000000d00000000u, KZ_MISGROUPED, 0},
        {0x0000000dffffffffu, KZ_MISGROUPED, 4294967295u},
        {0x0000000e00000000u, KZ_GIVEN_TWICE, 0},
        {0x0000000f00000000u, KZ_NOT_GIVEN, 0},
        {0x0000001000000000u, KZ_NOT_WRITTEN, 0},
        {0x00000010ffffffffu, KZ_NOT_WRITTEN, 4294967295u},
        {0x0000001100000000u, KZ_NOT_HOLDER, 0},
        {0x0000001200000000u, KZ_LIMIT_REACHED, 0},
        {0x00000012ffffffffu, KZ_LIMIT_REACHED, 4294967295u},
        {0x0000001300000000u, KZ_NOTHING_STORED, 0},
        {0x00000013ffffffffu, KZ_NOTHING_STORED, 4294967295u},
    };
    size_t i;
    for (i = 0; i < sizeof cases / sizeof cases[0]; i++) {
        const kz_answer parts = kz_abi_answer(cases[i].answer);
        CHECK(parts.refusal == cases[i].refusal);
        CHECK(parts.value == cases[i].value);
    }
}

static void check_lend(void) {
    static kz_part part;
    const kz_lent lent = kz_lend(&part);
    CHECK(lent.table == part.table && lent.rows == KZ_MAX_ROWS && lent.tally == &part.tally);
    CHECK(lent.written == part.written && lent.written_size == KZ_WRITTEN_BYTES);
    CHECK(lent.states == &part.states && lent.states_size == sizeof(kz_states));
    CHECK(lent.sheet == NULL && lent.limits == NULL && lent.limit_count == 0);
    CHECK(allowed(kz_create(&lent, 0, 64, KZ_RW), 1));
    CHECK(part.table[0].name == 1 && part.tally.creates == 1);
    CHECK(allowed(kz_write(&lent, 1, 16, 8), 0));
    CHECK(part.written[1] == 0 && part.written[2] == 255 && part.written[3] == 0);
}

static void check_events(void) {
    static kz_cap table[3];
    static uint8_t written[KZ_WRITTEN_BYTES];
    static kz_tally tally;
    const kz_lent lent = {table, 3, written, sizeof written, LENT_STATES, &tally, NULL, NULL, 0};
    kz_event event = event_of(KZ_BACK + 1, 1, 0, 1, KZ_RW);
    CHECK(allowed(kz_create(&lent, 0, 64, KZ_RW), 1));
    CHECK(allowed(kz_borrow(&lent, 1, 0, 16, KZ_RW), 2));
    CHECK(allowed(kz_borrow(&lent, 1, 0, 16, KZ_RO), 3));
    CHECK(refused(kz_borrow(&lent, 1, 0, 16, KZ_RO), KZ_TABLE_FULL));
    CHECK(allowed(kz_read(&lent, 1, 8, 1), 0));
    CHECK(table[1].right == KZ_RO);
    CHECK(refused(kz_write(&lent, 2, 0, 1), KZ_READ_ONLY));
    CHECK(allowed(kz_write(&lent, 1, 0, 1), 0));
    CHECK(table[0].name == 1 && table[1].name == 0);
    CHECK(allowed(kz_drop(&lent, 1), 0));
    CHECK(refused(kz_drop(&lent, 1), KZ_ENDED));
    CHECK(refused(kz_apply(&lent, &event), KZ_MISSPELT));
    event.kind = KZ_CREATE + 256;
    CHECK(refused(kz_apply(&lent, &event), KZ_MISSPELT));
    event.kind = KZ_DROP_ALL;
    CHECK(refused(kz_apply(&lent, &event), KZ_MISGROUPED));
    CHECK(refused(kz_create(&lent, 0, 8, KZ_RW + 256), KZ_MISSPELT));
    CHECK(refused(kz_create(&lent, 0, 8, 4294967295u), KZ_MISSPELT));
    CHECK(tally.issued == 3 && tally.creates == 1 && tally.borrows == 2);
    CHECK(tally.reads == 1 && tally.writes == 1 && tally.drops == 1 && tally.refused == 8);
}

static void check_reused_memory(void) {
    static kz_cap table[3];
    static uint8_t written[KZ_WRITTEN_BYTES];
    static kz_tally tally;
    const kz_lent lent = {table, 3, written, sizeof written, LENT_STATES, &tally, NULL, NULL, 0};
    CHECK(allowed(kz_create(&lent, 0, 64, KZ_RW), 1));
    CHECK(allowed(kz_borrow(&lent, 1, 0, 16, KZ_RW), 2));
    CHECK(allowed(kz_create(&lent, 8, 0, KZ_RW), 3));
    CHECK(refused(kz_create(&lent, 32, 8, KZ_RW), KZ_TABLE_FULL));
    CHECK(allowed(kz_drop(&lent, 3), 0));
    CHECK(allowed(kz_create(&lent, 64, 8, KZ_RW), 4));
    CHECK(table[0].name == 1 && table[1].name == 2 && table[2].name == 4);
    CHECK(allowed(kz_drop(&lent, 4), 0));
    CHECK(allowed(kz_create(&lent, 32, 8, KZ_RO), 5));
    CHECK(table[0].name == 5 && table[1].name == 0);
    CHECK(refused(kz_read(&lent, 2, 0, 8), KZ_ENDED));
    CHECK(tally.creates == 4 && tally.writes == 0 && tally.drops == 2 && tally.refused == 2);
}

/* A raw capability and its parent are used in turn, and so are two raw ones; it ends with its parent,
   and by a stranger's write where its parent stays. */
static void check_raw(void) {
    static kz_cap table[5];
    static uint8_t written[KZ_WRITTEN_BYTES];
    static kz_tally tally;
    const kz_lent lent = {table, 5, written, sizeof written, LENT_STATES, &tally, NULL, NULL, 0};
    CHECK(allowed(kz_create(&lent, 0, 64, KZ_RW), 1));
    CHECK(allowed(kz_borrow(&lent, 1, 0, 16, KZ_RW), 2));
    CHECK(allowed(kz_borrow_as(&lent, 2, 0, 8, KZ_RW, KZ_RAW), 3));
    CHECK(allowed(kz_borrow_as(&lent, 2, 4, 8, KZ_RW, KZ_RAW), 4));
    CHECK(table[0].kind == KZ_REFERENCE && table[1].kind == KZ_REFERENCE);
    CHECK(table[2].kind == KZ_RAW && table[3].kind == KZ_RAW && table[4].kind == 0);
    CHECK(allowed(kz_write(&lent, 2, 0, 16), 0));
    CHECK(allowed(kz_write(&lent, 3, 0, 8), 0));
    CHECK(allowed(kz_write(&lent, 4, 4, 8), 0));
    CHECK(allowed(kz_read(&lent, 2, 0, 16), 0));
    CHECK(allowed(kz_write(&lent, 3, 0, 8), 0));
    CHECK(table[2].right == KZ_RW && table[3].right == KZ_RW);
    /* A reference below a raw one is struck as ever. */
    CHECK(allowed(kz_borrow(&lent, 3, 0, 4, KZ_RW), 5));
    CHECK(allowed(kz_write(&lent, 2, 0, 16), 0));
    CHECK(refused(kz_read(&lent, 5, 0, 1), KZ_ENDED));
    /* Raw below raw: of 6 the parent is 3, and 2 is a stranger. */
    CHECK(allowed(kz_borrow_as(&lent, 3, 0, 4, KZ_RW, KZ_RAW), 6));
    CHECK(allowed(kz_write(&lent, 3, 0, 4), 0));
    CHECK(allowed(kz_read(&lent, 2, 0, 8), 0));
    CHECK(table[4].name == 6 && table[4].right == KZ_RW);
    CHECK(allowed(kz_write(&lent, 2, 0, 8), 0));
    CHECK(refused(kz_read(&lent, 6, 0, 1), KZ_ENDED));
    CHECK(table[2].name == 3 && table[3].name == 4 && table[4].name == 0);
    /* Its parent is struck, and it goes along. */
    CHECK(allowed(kz_read(&lent, 1, 0, 1), 0));
    CHECK(table[1].right == KZ_RO && table[2].right == KZ_RO && table[3].right == KZ_RO);
    CHECK(refused(kz_write(&lent, 3, 0, 1), KZ_READ_ONLY));
    CHECK(allowed(kz_write(&lent, 1, 12, 1), 0));
    CHECK(table[0].name == 1 && table[1].name == 0);
    CHECK(refused(kz_read(&lent, 4, 4, 1), KZ_ENDED));
    CHECK(tally.issued == 6 && tally.borrows == 5 && tally.reads == 3 && tally.writes == 8);
    CHECK(tally.refused == 4);
}

/* Two cells side by side are written through in turn, and a reference beside them stays; a read from
   inside one lowers the other. */
static void check_cells(void) {
    static kz_cap table[5];
    static uint8_t written[KZ_WRITTEN_BYTES];
    static kz_tally tally;
    const kz_lent lent = {table, 5, written, sizeof written, LENT_STATES, &tally, NULL, NULL, 0};
    uint32_t i;
    CHECK(allowed(kz_create(&lent, 0, 16, KZ_RW), 1));
    CHECK(allowed(kz_borrow_as(&lent, 1, 0, 8, KZ_RW, KZ_CELL), 2));
    CHECK(allowed(kz_borrow_as(&lent, 1, 0, 8, KZ_RW, KZ_CELL), 3));
    CHECK(allowed(kz_borrow(&lent, 1, 0, 16, KZ_RW), 4));
    CHECK(allowed(kz_borrow(&lent, 2, 0, 8, KZ_RW), 5));
    CHECK(table[1].kind == KZ_CELL && table[2].kind == KZ_CELL);
    CHECK(allowed(kz_write(&lent, 3, 0, 8), 0));
    CHECK(allowed(kz_write(&lent, 5, 0, 8), 0));
    for (i = 0; i < 5; i++) CHECK(table[i].name == i + 1 && table[i].right == KZ_RW);
    /* Inside a cell a write ends what it touches. */
    CHECK(allowed(kz_write(&lent, 2, 0, 8), 0));
    CHECK(table[3].name == 4 && table[4].name == 0);
    CHECK(allowed(kz_write(&lent, 3, 0, 8), 0));
    CHECK(allowed(kz_read(&lent, 2, 0, 8), 0));
    CHECK(table[1].right == KZ_RW && table[2].right == KZ_RO && table[3].right == KZ_RO);
    CHECK(refused(kz_write(&lent, 3, 0, 8), KZ_READ_ONLY));
    CHECK(refused(kz_write(&lent, 4, 0, 1), KZ_READ_ONLY));
    CHECK(allowed(kz_write(&lent, 1, 8, 8), 0));
    CHECK(table[1].name == 2 && table[2].name == 3 && table[3].name == 0);
    CHECK(allowed(kz_write(&lent, 1, 0, 1), 0));
    CHECK(table[0].name == 1 && table[1].name == 0);
    CHECK(allowed(kz_borrow_as(&lent, 1, 0, 8, KZ_RW, KZ_CELL), 6));
    CHECK(allowed(kz_borrow_as(&lent, 6, 0, 8, KZ_RO, KZ_RAW), 7));
    CHECK(allowed(kz_create(&lent, 0, 1, KZ_RW), 8));
    CHECK(table[0].name == 8 && table[1].name == 0 && table[1].kind == 0);
    CHECK(tally.creates == 2 && tally.borrows == 6 && tally.reads == 1 && tally.writes == 6);
    CHECK(tally.refused == 2);
}

/* Kinds that are none, in an event and in a row; and a kind where no event has one. */
static void check_wrong_kinds(void) {
    static const uint32_t wrong[] = {3, 255, 256, KZ_RAW + 256, 4294967295u};
    static kz_cap table[3];
    static uint8_t written[KZ_WRITTEN_BYTES];
    static kz_tally tally;
    const kz_lent lent = {table, 3, written, sizeof written, LENT_STATES, &tally, NULL, NULL, 0};
    uint8_t out[64];
    kz_event event = with_kind(event_of(KZ_CREATE, 0, 0, 64, KZ_RW), KZ_CELL);
    size_t i;
    CHECK(allowed(kz_apply(&lent, &event), 1));
    CHECK(table[0].kind == KZ_REFERENCE);
    event = with_kind(event_of(KZ_READ, 1, 0, 8, 0), 7);
    CHECK(allowed(kz_apply(&lent, &event), 0));
    for (i = 0; i < sizeof wrong / sizeof wrong[0]; i++) {
        CHECK(refused(kz_borrow_as(&lent, 1, 0, 8, KZ_RW, wrong[i]), KZ_MISSPELT));
        CHECK(refused(kz_borrow_as(&lent, 9, 4294967295u, 2, KZ_RW, wrong[i]), KZ_MISSPELT));
    }
    CHECK(tally.refused == 10);
    CHECK(allowed(kz_borrow_as(&lent, 1, 0, 8, KZ_RW, KZ_RAW), 2));
    for (i = 0; i < sizeof wrong / sizeof wrong[0]; i++) {
        table[1].kind = wrong[i];
        CHECK(refused(kz_read(&lent, 1, 0, 8), KZ_DISORDERED));
        CHECK(refused(kz_write_listing(&lent, out, sizeof out), KZ_DISORDERED));
    }
    table[1].kind = KZ_CELL;
    CHECK(allowed(kz_read(&lent, 1, 0, 8), 0));
    table[0].kind = KZ_RAW;
    CHECK(refused(kz_read(&lent, 1, 0, 8), KZ_DISORDERED));
    table[0].kind = KZ_CELL;
    CHECK(refused(kz_read(&lent, 1, 0, 8), KZ_DISORDERED));
    table[0].kind = KZ_REFERENCE;
    table[2].kind = KZ_RAW;
    CHECK(refused(kz_read(&lent, 1, 0, 8), KZ_DISORDERED));
    CHECK(tally.reads == 2 && tally.refused == 10);
}

/* Nothing is read through what was created fresh, nor through what is borrowed from that, before it is
   written. The bits follow each allowed create and write. */
static void check_fresh(void) {
    static kz_cap table[4];
    static uint8_t written[KZ_WRITTEN_BYTES];
    static kz_tally tally;
    const kz_lent lent = {table, 4, written, sizeof written, LENT_STATES, &tally, NULL, NULL, 0};
    CHECK(allowed(kz_create_fresh(&lent, 64, 16, KZ_RW), 1));
    CHECK(table[0].fresh == 1 && table[0].kind == KZ_REFERENCE && table[0].right == KZ_RW);
    CHECK(refused(kz_read(&lent, 1, 64, 1), KZ_NOT_WRITTEN));
    CHECK(refused(kz_read(&lent, 1, 79, 1), KZ_NOT_WRITTEN));
    CHECK(allowed(kz_read(&lent, 1, 64, 0), 0));
    CHECK(refused(kz_read(&lent, 1, 64, 17), KZ_OUTSIDE_SPAN));
    CHECK(refused(kz_read(&lent, 2, 64, 1), KZ_UNISSUED));
    /* A borrow has the mark of its parent, and what is written through it is written for all. */
    CHECK(allowed(kz_borrow_as(&lent, 1, 64, 8, KZ_RW, KZ_CELL), 2));
    CHECK(allowed(kz_borrow(&lent, 2, 64, 8, KZ_RO), 3));
    CHECK(table[1].fresh == 1 && table[1].kind == KZ_CELL && table[2].fresh == 1);
    CHECK(refused(kz_read(&lent, 3, 64, 1), KZ_NOT_WRITTEN));
    CHECK(refused(kz_write(&lent, 3, 64, 1), KZ_READ_ONLY));
    CHECK(written[8] == 0);
    CHECK(allowed(kz_write(&lent, 2, 64, 4), 0));
    CHECK(written[7] == 0 && written[8] == 0x0f && written[9] == 0);
    CHECK(allowed(kz_read(&lent, 2, 64, 4), 0));
    CHECK(refused(kz_read(&lent, 2, 64, 5), KZ_NOT_WRITTEN));
    CHECK(refused(kz_read(&lent, 1, 67, 2), KZ_NOT_WRITTEN));
    CHECK(refused(kz_read(&lent, 3, 64, 1), KZ_ENDED));
    CHECK(allowed(kz_read(&lent, 1, 66, 2), 0));
    /* Across two bytes, and into what is written already. */
    CHECK(allowed(kz_write(&lent, 1, 71, 3), 0));
    CHECK(written[8] == 0x8f && written[9] == 0x03 && table[1].name == 0);
    CHECK(refused(kz_read(&lent, 1, 64, 10), KZ_NOT_WRITTEN));
    CHECK(allowed(kz_write(&lent, 1, 67, 4), 0));
    CHECK(allowed(kz_read(&lent, 1, 64, 10), 0));
    CHECK(refused(kz_read(&lent, 1, 64, 11), KZ_NOT_WRITTEN));
    CHECK(written[8] == 0xff && written[9] == 0x03);
    /* Neither a drop nor a refusal changes the bits; a create that is not fresh clears its own. */
    CHECK(refused(kz_create(&lent, 64, 8, 3), KZ_MISSPELT));
    CHECK(allowed(kz_drop(&lent, 1), 0));
    CHECK(written[8] == 0xff && written[9] == 0x03);
    CHECK(allowed(kz_create(&lent, 70, 3, KZ_RW), 4));
    CHECK(written[8] == 0x3f && written[9] == 0x02 && table[0].fresh == 0);
    CHECK(allowed(kz_read(&lent, 4, 70, 3), 0));
    CHECK(allowed(kz_write(&lent, 4, 71, 1), 0));
    CHECK(written[8] == 0xbf && written[9] == 0x02);
    /* What was written before the create is not written after it. */
    CHECK(allowed(kz_create_fresh(&lent, 64, 8, KZ_RW), 5));
    CHECK(written[8] == 0 && written[9] == 0x02 && table[0].name == 5 && table[1].name == 0);
    CHECK(refused(kz_read(&lent, 5, 71, 1), KZ_NOT_WRITTEN));
    CHECK(allowed(kz_create(&lent, 64, 0, KZ_RW), 6));
    CHECK(tally.creates == 4 && tally.borrows == 2 && tally.reads == 5 && tally.writes == 4);
    CHECK(tally.refused == 13);
}

/* Fresh and read-only: it can be read only if another may write there, as by a sheet that keeps what a
   create strikes. */
static void check_fresh_by_sheet(void) {
    static kz_cap table[4];
    static uint8_t written[KZ_WRITTEN_BYTES];
    static kz_tally tally;
    static const kz_sheet sheet = {{KZ_KEEP}};
    const kz_lent lent = {table, 4, written, sizeof written, LENT_STATES, &tally, &sheet, NULL, 0};
    CHECK(allowed(kz_create_fresh(&lent, 0, 8, KZ_RO), 1));
    CHECK(refused(kz_write(&lent, 1, 0, 8), KZ_READ_ONLY));
    CHECK(refused(kz_read(&lent, 1, 0, 8), KZ_NOT_WRITTEN));
    CHECK(allowed(kz_create(&lent, 0, 4, KZ_RW), 2));
    CHECK(allowed(kz_write(&lent, 2, 0, 4), 0));
    CHECK(table[0].fresh == 1 && table[1].fresh == 0 && written[0] == 0x0f);
    CHECK(allowed(kz_read(&lent, 1, 0, 4), 0));
    CHECK(refused(kz_read(&lent, 1, 0, 5), KZ_NOT_WRITTEN));
    CHECK(allowed(kz_create(&lent, 2, 2, KZ_RW), 3));
    CHECK(written[0] == 0x03);
    CHECK(allowed(kz_read(&lent, 1, 0, 2), 0));
    CHECK(refused(kz_read(&lent, 1, 0, 3), KZ_NOT_WRITTEN));
    CHECK(allowed(kz_read(&lent, 2, 0, 4), 0));
}

/* Fresh memory ends at 65,536. Above it nothing has a bit. */
static void check_fresh_limits(void) {
    static kz_cap table[4];
    static uint8_t written[KZ_WRITTEN_BYTES];
    static kz_tally tally;
    const kz_lent lent = {table, 4, written, sizeof written, LENT_STATES, &tally, NULL, NULL, 0};
    const uint32_t most = 4294967295u, end = KZ_WRITTEN_ADDRESSES;
    size_t i;
    CHECK(refused(kz_create_fresh(&lent, end - 1, 2, KZ_RW), KZ_ILLEGAL_SPAN));
    CHECK(refused(kz_create_fresh(&lent, end, 1, KZ_RW), KZ_ILLEGAL_SPAN));
    CHECK(refused(kz_create_fresh(&lent, end + 1, 0, KZ_RW), KZ_ILLEGAL_SPAN));
    CHECK(refused(kz_create_fresh(&lent, 0, end + 1, KZ_RW), KZ_ILLEGAL_SPAN));
    CHECK(refused(kz_create_fresh(&lent, most, 1, KZ_RW), KZ_ILLEGAL_SPAN));
    CHECK(refused(kz_create_fresh(&lent, most, most, KZ_RW), KZ_ILLEGAL_SPAN));
    CHECK(allowed(kz_create_fresh(&lent, end, 0, KZ_RW), 1));
    CHECK(allowed(kz_read(&lent, 1, end, 0), 0));
    CHECK(allowed(kz_create_fresh(&lent, 0, end, KZ_RW), 2));
    CHECK(allowed(kz_write(&lent, 2, 0, end), 0));
    for (i = 0; i < sizeof written; i++) CHECK(written[i] == 255);
    CHECK(allowed(kz_read(&lent, 2, 0, end), 0));
    CHECK(allowed(kz_create_fresh(&lent, end - 1, 1, KZ_RW), 3));
    CHECK(written[KZ_WRITTEN_BYTES - 1] == 0x7f);
    CHECK(refused(kz_read(&lent, 3, end - 1, 1), KZ_NOT_WRITTEN));
    CHECK(allowed(kz_write(&lent, 3, end - 1, 1), 0));
    CHECK(allowed(kz_read(&lent, 3, end - 1, 1), 0));
    /* A span across the limit changes the bits below it. */
    CHECK(allowed(kz_create(&lent, end - 2, 16, KZ_RW), 4));
    CHECK(written[KZ_WRITTEN_BYTES - 1] == 0x3f && written[0] == 255);
    CHECK(allowed(kz_read(&lent, 4, end - 2, 16), 0));
    CHECK(allowed(kz_write(&lent, 4, end - 1, 15), 0));
    CHECK(written[KZ_WRITTEN_BYTES - 1] == 0xbf && written[0] == 255);
    CHECK(allowed(kz_create(&lent, end, 64, KZ_RW), 5));
    CHECK(allowed(kz_write(&lent, 5, end, 64), 0));
    CHECK(allowed(kz_create(&lent, most, 1, KZ_RW), 6));
    CHECK(allowed(kz_write(&lent, 6, most, 1), 0));
    CHECK(written[KZ_WRITTEN_BYTES - 1] == 0xbf && written[0] == 255);
}

/* Marks that are none, in an event and in a row; and a mark where no event has one. */
static void check_wrong_marks(void) {
    static const uint32_t wrong[] = {2, 255, 256, 257, 4294967295u};
    static kz_cap table[3];
    static uint8_t written[KZ_WRITTEN_BYTES];
    static kz_tally tally;
    const kz_lent lent = {table, 3, written, sizeof written, LENT_STATES, &tally, NULL, NULL, 0};
    uint8_t out[64];
    kz_event event;
    size_t i;
    for (i = 0; i < sizeof wrong / sizeof wrong[0]; i++) {
        event = with_mark(event_of(KZ_CREATE, 0, 0, 64, KZ_RW), wrong[i]);
        CHECK(refused(kz_apply(&lent, &event), KZ_MISSPELT));
        event.start = 4294967295u;
        CHECK(refused(kz_apply(&lent, &event), KZ_MISSPELT));
    }
    CHECK(tally.refused == 10);
    event = with_mark(event_of(KZ_CREATE, 0, 0, 64, KZ_RW), 1);
    CHECK(allowed(kz_apply(&lent, &event), 1));
    event = with_mark(event_of(KZ_BORROW, 1, 0, 8, KZ_RW), 0);
    CHECK(allowed(kz_apply(&lent, &event), 2));
    CHECK(table[0].fresh == 1 && table[1].fresh == 1);
    event = with_mark(event_of(KZ_WRITE, 1, 0, 64, 0), 7);
    CHECK(allowed(kz_apply(&lent, &event), 0));
    event = with_mark(event_of(KZ_READ, 1, 0, 64, 0), 7);
    CHECK(allowed(kz_apply(&lent, &event), 0));
    event = with_mark(event_of(KZ_DROP, 1, 0, 0, 0), 7);
    CHECK(allowed(kz_apply(&lent, &event), 0));
    CHECK(allowed(kz_create(&lent, 0, 64, KZ_RW), 3));
    event = with_mark(event_of(KZ_BORROW, 3, 0, 8, KZ_RW), 1);
    CHECK(allowed(kz_apply(&lent, &event), 4));
    event = with_mark(event_of(KZ_BORROW, 3, 0, 8, KZ_RW), 2);
    CHECK(allowed(kz_apply(&lent, &event), 5));
    CHECK(table[1].fresh == 0 && table[2].fresh == 0);
    CHECK(allowed(kz_drop(&lent, 5), 0));
    /* Two rows with marks that differ, or of which one is none. */
    table[1].fresh = 1;
    CHECK(refused(kz_read(&lent, 3, 0, 8), KZ_DISORDERED));
    CHECK(refused(kz_write_listing(&lent, out, sizeof out), KZ_DISORDERED));
    table[0].fresh = 1;
    CHECK(refused(kz_read(&lent, 3, 0, 8), KZ_NOT_WRITTEN));
    table[1].fresh = 0;
    CHECK(refused(kz_read(&lent, 3, 0, 8), KZ_DISORDERED));
    for (i = 0; i < sizeof wrong / sizeof wrong[0]; i++) {
        table[0].fresh = table[1].fresh = wrong[i];
        CHECK(refused(kz_read(&lent, 3, 0, 8), KZ_DISORDERED));
        CHECK(refused(kz_write_listing(&lent, out, sizeof out), KZ_DISORDERED));
    }
    table[0].fresh = table[1].fresh = 0;
    table[2].fresh = 1;
    CHECK(refused(kz_read(&lent, 3, 0, 8), KZ_DISORDERED));
    table[2].fresh = 0;
    CHECK(allowed(kz_read(&lent, 3, 0, 8), 0));
    /* A marked row that ends above 65,536. */
    table[0].fresh = table[1].fresh = 1;
    table[0].length = KZ_WRITTEN_ADDRESSES;
    CHECK(allowed(kz_write(&lent, 3, 65535, 1), 0));
    table[0].length = KZ_WRITTEN_ADDRESSES + 1;
    CHECK(refused(kz_write(&lent, 3, 65535, 1), KZ_DISORDERED));
    table[0].fresh = table[1].fresh = 0;
    CHECK(allowed(kz_write(&lent, 3, 65535, 2), 0));
    CHECK(tally.refused == 11);
}

/* Any other number of bytes refuses every event and run, before all else, and changes nothing. What is
   not lent them does not ask for them. */
static void check_wrong_sizes(void) {
    static const size_t wrong[] = {0, 1, KZ_WRITTEN_BYTES - 1, KZ_WRITTEN_BYTES + 1};
    static const uint8_t line[] = "(create 0 8 rw)\n";
    static const uint8_t listing[] = "(issued 1)\n(1 0 8 rw" OF_0 ")\n";
    static const uint32_t falling[] = {2, 1};
    static kz_cap table[2], before[2];
    static uint8_t written[KZ_WRITTEN_BYTES + 1], bits[KZ_WRITTEN_BYTES + 1];
    static kz_tally tally;
    kz_lent lent = {table, 2, written, KZ_WRITTEN_BYTES, LENT_STATES, &tally, NULL, NULL, 0};
    kz_event events[2];
    kz_answer answers[2];
    uint8_t out[64];
    size_t i;
    events[0] = event_of(KZ_CREATE, 0, 0, 8, KZ_RW);
    events[1] = event_of(9, 0, 0, 8, KZ_RW);
    memset(written, 0x5a, sizeof written);
    memset(bits, 0x5a, sizeof bits);
    CHECK(allowed(kz_read_listing(&lent, listing, sizeof listing - 1), 0));
    memcpy(before, table, sizeof table);
    for (i = 0; i < sizeof wrong / sizeof wrong[0]; i++) {
        lent.written = wrong[i] == 0 ? NULL : written;
        lent.written_size = wrong[i];
        CHECK(refused(kz_create(&lent, 8, 8, KZ_RW), KZ_DISORDERED));
        CHECK(refused(kz_create_fresh(&lent, 8, 8, KZ_RW), KZ_DISORDERED));
        CHECK(refused(kz_borrow(&lent, 1, 0, 8, KZ_RW), KZ_DISORDERED));
        CHECK(refused(kz_read(&lent, 1, 0, 8), KZ_DISORDERED));
        CHECK(refused(kz_write(&lent, 1, 0, 8), KZ_DISORDERED));
        CHECK(refused(kz_drop(&lent, 1), KZ_DISORDERED));
        CHECK(refused(kz_drop_all(&lent, falling, 2), KZ_DISORDERED));
        CHECK(kz_apply_all(&lent, events, 2, NULL, 0, answers) == 2);
        CHECK(refused(answers[0], KZ_DISORDERED) && refused(answers[1], KZ_DISORDERED));
        CHECK(refused(kz_run(&lent, line, sizeof line - 1), KZ_DISORDERED));
        CHECK(refused(kz_run(&lent, line, 1), KZ_DISORDERED));
        CHECK(refused(kz_run(&lent, NULL, 0), KZ_DISORDERED));
        CHECK(allowed(kz_write_listing(&lent, out, sizeof out), sizeof listing - 1));
        CHECK(allowed(kz_read_listing(&lent, listing, sizeof listing - 1), 0));
        CHECK(memcmp(table, before, sizeof table) == 0 && tally.issued == 1);
        CHECK(tally.creates == 0 && tally.refused == 0);
        CHECK(memcmp(written, bits, sizeof written) == 0);
    }
    lent.written = written;
    lent.written_size = KZ_WRITTEN_BYTES;
    CHECK(allowed(kz_write(&lent, 1, 0, 8), 0));
    CHECK(written[0] == 255 && written[1] == 0x5a);
}

/* What is stored comes back, and names and tally do not. */
static void check_states(void) {
    static kz_part part;
    const kz_lent lent = kz_lend(&part);
    const kz_answer back_to_nothing = kz_back(&lent, 0);
    uint32_t slot;
    CHECK(refused(back_to_nothing, KZ_NOTHING_STORED) && part.tally.refused == 1);
    CHECK(allowed(kz_create(&lent, 0, 64, KZ_RW), 1));
    CHECK(allowed(kz_borrow(&lent, 1, 0, 8, KZ_RW), 2));
    CHECK(allowed(kz_write(&lent, 2, 0, 8), 0));
    CHECK(allowed(kz_mark(&lent, 7), 0));
    CHECK(part.tally.issued == 2 && part.tally.writes == 1 && part.tally.refused == 1);
    CHECK(allowed(kz_write(&lent, 1, 0, 64), 0));
    CHECK(refused(kz_read(&lent, 2, 0, 8), KZ_ENDED));
    CHECK(allowed(kz_borrow(&lent, 1, 8, 8, KZ_RW), 3));
    CHECK(part.written[1] == 255);
    CHECK(allowed(kz_back(&lent, 7), 0));
    CHECK(part.written[0] == 255 && part.written[1] == 0);
    CHECK(part.table[1].name == 2 && part.table[2].name == 0);
    CHECK(refused(kz_write(&lent, 3, 8, 8), KZ_ENDED));
    CHECK(allowed(kz_write(&lent, 2, 0, 8), 0));
    CHECK(allowed(kz_borrow(&lent, 1, 8, 8, KZ_RW), 4));
    CHECK(part.tally.issued == 4 && part.tally.creates == 1 && part.tally.borrows == 3);
    CHECK(part.tally.writes == 3 && part.tally.refused == 3);
    /* Each slot is by itself, and a back keeps what it has. */
    for (slot = 0; slot < 7; slot++) CHECK(refused(kz_back(&lent, slot), KZ_NOTHING_STORED));
    CHECK(allowed(kz_drop(&lent, 1), 0));
    CHECK(allowed(kz_mark(&lent, 0), 0));
    CHECK(allowed(kz_back(&lent, 7), 0) && part.table[1].name == 2);
    CHECK(allowed(kz_back(&lent, 0), 0) && part.table[0].name == 0);
    CHECK(allowed(kz_back(&lent, 7), 0) && part.table[1].name == 2);
    CHECK(part.tally.drops == 1 && part.tally.refused == 10);
    /* What is no slot, and what is no domain. */
    CHECK(refused(kz_mark(&lent, 8), KZ_MISSPELT) && refused(kz_back(&lent, 8), KZ_MISSPELT));
    CHECK(refused(kz_mark(&lent, 4294967295u), KZ_MISSPELT));
    CHECK(refused(kz_mark_by(&lent, 64, 0), KZ_MISSPELT));
    CHECK(refused(kz_back_by(&lent, 64, 6), KZ_MISSPELT));
    CHECK(part.tally.refused == 15);
    /* The slots are all domains', and ask for no holder. */
    CHECK(allowed(kz_mark_by(&lent, 63, 1), 0));
    CHECK(allowed(kz_drop(&lent, 1), 0));
    CHECK(allowed(kz_back_by(&lent, 5, 1), 0) && part.table[0].name == 1);
}

/* Marks and backs among many events, and with words that they lack. */
static void check_many_states(void) {
    static const kz_answer expected[] = {
        {0, 1}, {0, 0}, {0, 2}, {0, 0}, {KZ_ENDED, 0}, {0, 3}, {KZ_NOTHING_STORED, 0}, {KZ_MISSPELT, 0},
    };
    static kz_part part;
    const kz_lent lent = kz_lend(&part);
    kz_event events[8];
    kz_answer answers[8];
    memset(events, 255, sizeof events);
    events[0] = event_of(KZ_CREATE, 0, 0, 8, KZ_RW);
    events[1].kind = KZ_MARK;
    events[1].name = 3;
    events[1].actor = 9;
    events[2] = event_of(KZ_BORROW, 1, 0, 8, KZ_RW);
    events[3] = events[1];
    events[3].kind = KZ_BACK;
    events[4] = event_of(KZ_READ, 2, 0, 8, 0);
    events[5] = event_of(KZ_CREATE, 0, 8, 8, KZ_RW);
    events[6] = events[3];
    events[6].name = 4;
    events[7] = events[3];
    events[7].name = 8;
    CHECK(kz_apply_all(&lent, events, 8, NULL, 0, answers) == 8);
    CHECK(memcmp(answers, expected, sizeof expected) == 0);
    CHECK(part.table[0].name == 1 && part.table[1].name == 3 && part.table[2].name == 0);
    CHECK(part.tally.issued == 3 && part.tally.refused == 3 && part.tally.reads == 0);
}

/* Any other size refuses every event and run, before all else, and changes nothing. What is not lent
   states does not ask for them. */
static void check_wrong_states(void) {
    static const size_t wrong[] = {0, 1, sizeof(kz_states) - 1, sizeof(kz_states) + 1};
    static const uint8_t line[] = "(mark 0)\n";
    static const uint8_t listing[] = "(issued 1)\n(1 0 8 rw" OF_0 ")\n";
    static kz_part part, before;
    kz_lent lent = kz_lend(&part);
    kz_event events[2];
    kz_answer answers[2];
    uint8_t out[64];
    size_t i;
    events[0] = event_of(KZ_CREATE, 0, 0, 8, KZ_RW);
    events[1] = event_of(9, 0, 0, 8, KZ_RW);
    CHECK(allowed(kz_read_listing(&lent, listing, sizeof listing - 1), 0));
    before = part;
    for (i = 0; i < 1 + sizeof wrong / sizeof wrong[0]; i++) {
        /* At last a right size of nothing. */
        const int is_last = i == sizeof wrong / sizeof wrong[0];
        lent.states = is_last || wrong[i] == 0 ? NULL : &part.states;
        lent.states_size = is_last ? sizeof(kz_states) : wrong[i];
        CHECK(refused(kz_create(&lent, 8, 8, KZ_RW), KZ_DISORDERED));
        CHECK(refused(kz_read(&lent, 1, 0, 8), KZ_DISORDERED));
        CHECK(refused(kz_drop_all(&lent, NULL, 0), KZ_DISORDERED));
        CHECK(refused(kz_mark(&lent, 0), KZ_DISORDERED));
        CHECK(refused(kz_back(&lent, 9), KZ_DISORDERED));
        CHECK(kz_apply_all(&lent, events, 2, NULL, 0, answers) == 2);
        CHECK(refused(answers[0], KZ_DISORDERED) && refused(answers[1], KZ_DISORDERED));
        CHECK(refused(kz_run(&lent, line, sizeof line - 1), KZ_DISORDERED));
        CHECK(refused(kz_run(&lent, NULL, 0), KZ_DISORDERED));
        CHECK(allowed(kz_write_listing(&lent, out, sizeof out), sizeof listing - 1));
        CHECK(allowed(kz_read_listing(&lent, listing, sizeof listing - 1), 0));
        CHECK(kz_charge(&lent, 1).share == 8);
        CHECK(memcmp(&part, &before, sizeof part) == 0);
    }
    lent.states = &part.states;
    CHECK(allowed(kz_mark(&lent, 0), 0));
}

/* What is stored and out of order, over a limit, or of another number of rows, is judged on going back,
   and nowhere else. */
static void check_stored(void) {
    static const uint8_t lines[] = "(read 1 0 8)\n(mark 2)\n(back 1)\n(drop 1)\n";
    static uint32_t limits[KZ_DOMAINS] = {1};
    static kz_part part, before;
    kz_lent lent = kz_lend(&part);
    kz_event events[3];
    kz_answer answers[3];
    int i;
    CHECK(allowed(kz_create(&lent, 0, 8, KZ_RW), 1));
    CHECK(allowed(kz_borrow(&lent, 1, 0, 8, KZ_RW), 2));
    CHECK(allowed(kz_mark(&lent, 1), 0));
    CHECK(allowed(kz_drop(&lent, 2), 0));
    before = part;
    for (i = 0; i < 5; i++) {
        part = before;
        lent = kz_lend(&part);
        /* The second slot's rows are those from 1,025 on, of which the first is its head. */
        if (i == 0) part.states.rows[1025 + 2].right = 3;
        if (i == 1) part.states.rows[1025].name++;
        if (i == 2) part.states.rows[1025].parent = 4294967295u;
        if (i == 3) lent.rows = 16;
        if (i == 4) {
            lent.limits = limits;
            lent.limit_count = KZ_DOMAINS;
        }
        CHECK(refused(kz_back(&lent, 1), KZ_DISORDERED));
        CHECK(refused(kz_back_by(&lent, 64, 1), KZ_DISORDERED));
        CHECK(part.tally.refused == 0 && part.table[0].name == 1 && part.table[1].name == 0);
        CHECK(refused(kz_back(&lent, 0), KZ_NOTHING_STORED));
        events[0] = event_of(KZ_BACK, 1, 0, 0, 0);
        events[1] = event_of(KZ_WRITE, 1, 0, 8, 0);
        events[2] = event_of(KZ_MARK, 0, 0, 0, 0);
        CHECK(kz_apply_all(&lent, events, 3, NULL, 0, answers) == 3);
        CHECK(refused(answers[0], KZ_DISORDERED) && allowed(answers[1], 0));
        CHECK(allowed(answers[2], 0) && allowed(kz_back(&lent, 0), 0));
        /* In a run it has its own line, and the lines before it stand. */
        CHECK(refused_at(kz_run(&lent, lines, sizeof lines - 1), KZ_DISORDERED, 3));
        CHECK(part.tally.reads == 1 && part.tally.refused == 1 && part.tally.drops == 1);
        CHECK(allowed(kz_back(&lent, 2), 0));
    }
    part = before;
    lent = kz_lend(&part);
    CHECK(allowed(kz_run(&lent, lines, sizeof lines - 1), 4));
    CHECK(part.table[0].name == 0 && part.tally.drops == 2);
}

/* Sets of holders, and the words that an event and a row have of them. */
static void check_holders(void) {
    static const uint32_t some[] = {63, 3, 0, 3}, wrong[] = {0, 64}, none[] = {4294967295u};
    kz_event event = event_of(KZ_CREATE, 7, 8, 9, KZ_RO), same = event;
    kz_cap row;
    uint32_t domain;
    for (domain = 0; domain < KZ_DOMAINS; domain++) {
        CHECK(kz_holder(domain) == (uint64_t)1 << domain);
        CHECK(kz_holders(&domain, 1) == kz_holder(domain));
    }
    CHECK(kz_holder(64) == 0 && kz_holder(256) == 0 && kz_holder(4294967295u) == 0);
    CHECK(kz_holders(some, 4) == (kz_holder(0) | kz_holder(3) | kz_holder(63)));
    CHECK(kz_holders(some, 2) == (kz_holder(3) | kz_holder(63)));
    CHECK(kz_holders(wrong, 2) == 0 && kz_holders(none, 1) == 0 && kz_holders(NULL, 0) == 0);
    event = kz_by(event, 5, kz_holder(33) | kz_holder(5));
    CHECK(event.actor == 5 && event.holders_low == 32 && event.holders_high == 2);
    event = kz_by(event, 0, 1);
    CHECK(same_event(&event, &same));
    memset(&row, 0, sizeof row);
    row.holders_low = 0x80000001u;
    row.holders_high = 0x80000002u;
    CHECK(kz_holders_of(&row) == (kz_holder(0) | kz_holder(31) | kz_holder(33) | kz_holder(63)));
}

/* Only holders use what a domain made, and it says who they are. */
static void check_domains(void) {
    static const uint32_t names[] = {1, 2}, first[] = {1}, falling[] = {2, 1};
    static kz_cap table[4];
    static uint8_t written[KZ_WRITTEN_BYTES];
    static kz_tally tally;
    const kz_lent lent = {table, 4, written, sizeof written, LENT_STATES, &tally, NULL, NULL, 0};
    const uint64_t both = kz_holder(3) | kz_holder(40);
    CHECK(allowed(kz_create_by(&lent, 3, both, 0, 64, KZ_RW), 1));
    CHECK(table[0].maker == 3 && kz_holders_of(&table[0]) == both && table[0].fresh == 0);
    CHECK(refused(kz_read(&lent, 1, 0, 8), KZ_NOT_HOLDER));
    CHECK(refused(kz_write_by(&lent, 8, 1, 0, 8), KZ_NOT_HOLDER));
    CHECK(refused(kz_borrow_by(&lent, 35, kz_holder(35), 1, 0, 8, KZ_RO), KZ_NOT_HOLDER));
    CHECK(refused(kz_drop_by(&lent, 41, 1), KZ_NOT_HOLDER));
    CHECK(refused(kz_drop_all_by(&lent, 4, first, 1), KZ_NOT_HOLDER));
    /* Behind 3, 4 and 5, and before 6. */
    CHECK(refused(kz_read(&lent, 1, 4294967295u, 2), KZ_ILLEGAL_SPAN));
    CHECK(refused(kz_read(&lent, 2, 64, 1), KZ_UNISSUED));
    CHECK(refused(kz_read(&lent, 1, 64, 1), KZ_NOT_HOLDER));
    CHECK(refused(kz_read_by(&lent, 40, 1, 64, 1), KZ_OUTSIDE_SPAN));
    CHECK(allowed(kz_read_by(&lent, 40, 1, 0, 8), 0));
    CHECK(allowed(kz_write_by(&lent, 3, 1, 0, 8), 0));
    /* A borrow's holders need not hold its parent. */
    CHECK(allowed(kz_borrow_as_by(&lent, 40, kz_holder(40) | 1, 1, 0, 8, KZ_RW, KZ_CELL), 2));
    CHECK(table[1].maker == 40 && table[1].kind == KZ_CELL && table[1].holders_low == 1);
    CHECK(table[1].holders_high == 256 && table[0].holders_low == 8);
    CHECK(allowed(kz_write(&lent, 2, 0, 8), 0));
    CHECK(refused(kz_write_by(&lent, 3, 2, 0, 8), KZ_NOT_HOLDER));
    CHECK(refused(kz_drop_all_by(&lent, 3, names, 2), KZ_NOT_HOLDER));
    CHECK(refused(kz_drop_all_by(&lent, 64, falling, 2), KZ_MISGROUPED));
    CHECK(refused(kz_drop_all_by(&lent, 64, names, 2), KZ_MISSPELT));
    CHECK(allowed(kz_drop_all_by(&lent, 40, names, 2), 0));
    CHECK(refused(kz_drop_by(&lent, 3, 1), KZ_ENDED));
    CHECK(table[0].name == 0 && table[0].maker == 0 && table[0].holders_low == 0);
    CHECK(allowed(kz_create_fresh_by(&lent, 63, kz_holder(63), 0, 8, KZ_RW), 3));
    CHECK(table[0].fresh == 1 && table[0].maker == 63 && table[0].holders_high == 0x80000000u);
    /* A create ends what it touches, whoever holds it. */
    CHECK(allowed(kz_create(&lent, 0, 1, KZ_RW), 4));
    CHECK(table[0].name == 4 && table[0].maker == 0 && table[0].holders_low == 1);
    CHECK(tally.refused == 14 && tally.creates == 3 && tally.drops == 1);
}

/* Domains that are none, and holders without the domain that acts; and holders where none are asked. */
static void check_wrong_domains(void) {
    static const uint32_t wrong[] = {64, 67, 256, 4294967295u};
    const uint64_t all = ~(uint64_t)0;
    static kz_cap table[3], before[3];
    static uint8_t written[KZ_WRITTEN_BYTES];
    static kz_tally tally;
    const kz_lent lent = {table, 3, written, sizeof written, LENT_STATES, &tally, NULL, NULL, 0};
    uint8_t out[128];
    kz_event event;
    size_t i;
    CHECK(allowed(kz_create_by(&lent, 3, all, 0, 8, KZ_RW), 1));
    CHECK(allowed(kz_borrow_by(&lent, 3, kz_holder(3), 1, 0, 8, KZ_RW), 2));
    for (i = 0; i < sizeof wrong / sizeof wrong[0]; i++) {
        CHECK(refused(kz_create_by(&lent, wrong[i], all, 8, 8, KZ_RW), KZ_MISSPELT));
        CHECK(refused(kz_borrow_by(&lent, wrong[i], all, 9, 8, 8, KZ_RW), KZ_MISSPELT));
        CHECK(refused(kz_read_by(&lent, wrong[i], 1, 4294967295u, 2), KZ_MISSPELT));
        CHECK(refused(kz_write_by(&lent, wrong[i], 1, 0, 8), KZ_MISSPELT));
        CHECK(refused(kz_drop_by(&lent, wrong[i], 9), KZ_MISSPELT));
        event = kz_by(event_of(KZ_DROP, 1, 0, 0, 0), wrong[i], all);
        CHECK(refused(kz_write_event(&event, NULL, 0, out, sizeof out), KZ_MISSPELT));
    }
    CHECK(refused(kz_create_by(&lent, 3, 0, 8, 8, KZ_RW), KZ_MISSPELT));
    CHECK(refused(kz_create_by(&lent, 3, ~kz_holder(3), 8, 8, KZ_RW), KZ_MISSPELT));
    CHECK(refused(kz_borrow_by(&lent, 35, kz_holder(3), 1, 0, 8, KZ_RW), KZ_MISSPELT));
    event = event_of(KZ_CREATE, 0, 8, 8, KZ_RW);
    event.holders_low = 0;
    CHECK(refused(kz_apply(&lent, &event), KZ_MISSPELT));
    CHECK(refused(kz_write_event(&event, NULL, 0, out, sizeof out), KZ_MISSPELT));
    event = kz_by(event_of(KZ_READ, 1, 0, 8, 0), 3, kz_holder(9));
    CHECK(allowed(kz_apply(&lent, &event), 0));
    CHECK(tally.refused == 24);
    memcpy(before, table, sizeof table);
    for (i = 0; i < sizeof wrong / sizeof wrong[0]; i++) {
        table[0].maker = wrong[i];
        CHECK(refused(kz_read_by(&lent, 3, 1, 0, 8), KZ_DISORDERED));
        CHECK(refused(kz_write_listing(&lent, out, sizeof out), KZ_DISORDERED));
        memcpy(table, before, sizeof table);
    }
    table[1].maker = 4;
    CHECK(refused(kz_read_by(&lent, 3, 1, 0, 8), KZ_DISORDERED));
    table[1].maker = 35;
    CHECK(refused(kz_read_by(&lent, 3, 1, 0, 8), KZ_DISORDERED));
    table[1].holders_high = 8;
    CHECK(allowed(kz_read_by(&lent, 3, 1, 0, 8), 0));
    table[2].maker = 1;
    CHECK(refused(kz_read_by(&lent, 3, 1, 0, 8), KZ_DISORDERED));
    table[2].maker = 0;
    table[2].holders_high = 1;
    CHECK(refused(kz_read_by(&lent, 3, 1, 0, 8), KZ_DISORDERED));
    table[2].holders_high = 0;
    table[2].holders_low = 1;
    CHECK(refused(kz_read_by(&lent, 3, 1, 0, 8), KZ_DISORDERED));
}

/* Each domain has as many rows as its limit says, whatever the others do. */
static void check_limits(void) {
    static const uint8_t text[] = "(as 3 (create 16 8 rw))\n(create 24 8 rw)\n(create 32 8 rw)\n";
    static uint32_t limits[KZ_DOMAINS];
    static kz_cap table[3];
    static uint8_t written[KZ_WRITTEN_BYTES];
    static kz_tally tally;
    const kz_lent lent = {table,  3,    written, sizeof written, LENT_STATES,
                          &tally, NULL, limits,  KZ_DOMAINS};
    const uint64_t all = ~(uint64_t)0;
    kz_event events[3];
    kz_answer answers[3];
    limits[0] = 2;
    limits[3] = 1;
    CHECK(allowed(kz_create_by(&lent, 3, all, 0, 8, KZ_RW), 1));
    CHECK(refused(kz_create_by(&lent, 3, all, 8, 8, KZ_RW), KZ_LIMIT_REACHED));
    CHECK(refused(kz_borrow_by(&lent, 3, all, 1, 0, 8, KZ_RW), KZ_LIMIT_REACHED));
    CHECK(refused(kz_borrow_by(&lent, 63, all, 1, 0, 8, KZ_RW), KZ_LIMIT_REACHED));
    CHECK(allowed(kz_borrow(&lent, 1, 0, 8, KZ_RW), 2));
    CHECK(allowed(kz_borrow(&lent, 1, 0, 8, KZ_RW), 3));
    /* All rows are taken, and no table is full. */
    CHECK(refused(kz_create(&lent, 8, 8, KZ_RW), KZ_LIMIT_REACHED));
    CHECK(refused(kz_create_by(&lent, 5, kz_holder(5), 8, 8, KZ_RW), KZ_LIMIT_REACHED));
    /* What ends makes room for who made it. */
    CHECK(allowed(kz_write_by(&lent, 3, 1, 0, 1), 0));
    CHECK(refused(kz_create_by(&lent, 3, all, 8, 8, KZ_RW), KZ_LIMIT_REACHED));
    events[0] = event_of(KZ_BORROW, 1, 0, 8, KZ_RW);
    events[1] = kz_by(event_of(KZ_DROP, 1, 0, 0, 0), 3, 0);
    events[2] = kz_by(event_of(KZ_CREATE, 0, 0, 8, KZ_RW), 3, kz_holder(3));
    CHECK(kz_apply_all(&lent, events, 3, NULL, 0, answers) == 3);
    CHECK(allowed(answers[0], 4) && allowed(answers[1], 0) && allowed(answers[2], 5));
    CHECK(table[0].name == 5 && table[1].name == 0 && tally.refused == 6);
    CHECK(refused_at(kz_run(&lent, text, sizeof text - 1), KZ_LIMIT_REACHED, 1));
    CHECK(allowed(kz_drop_by(&lent, 3, 5), 0));
    CHECK(allowed(kz_run(&lent, text, sizeof text - 1), 3));
    CHECK(tally.refused == 7 && table[2].name == 8);
}

/* Any other number of limits, a sum above the rows, and a table above its limits refuse every event and
   run, before all else, and change nothing. What is not lent them does not ask for them. */
static void check_wrong_limits(void) {
    static const size_t counts[] = {1, 63, 65};
    static const uint32_t falling[] = {2, 1};
    static uint32_t limits[KZ_DOMAINS + 1];
    static kz_cap table[4], before[4];
    static uint8_t written[KZ_WRITTEN_BYTES];
    static kz_tally tally, counted;
    kz_lent lent = {table,  4,    written, sizeof written, LENT_STATES,
                    &tally, NULL, limits,  KZ_DOMAINS};
    kz_event events[2];
    kz_answer answers[2];
    uint8_t out[128];
    uint32_t turn;
    lent.limit_count = 0;
    CHECK(allowed(kz_create(&lent, 0, 8, KZ_RW), 1));
    CHECK(allowed(kz_create_by(&lent, 63, kz_holder(63), 8, 8, KZ_RW), 2));
    memcpy(before, table, sizeof table);
    counted = tally;
    events[0] = event_of(KZ_CREATE, 0, 16, 8, KZ_RW);
    events[1] = event_of(9, 0, 0, 8, KZ_RW);
    for (turn = 0; turn < 7; turn++) {
        memset(limits, 0, sizeof limits);
        limits[0] = turn == 3 ? 0 : 1;
        limits[63] = turn == 4 ? 0 : 1;
        limits[5] = turn == 5 ? 3 : 0;
        limits[7] = turn == 6 ? 4294967295u : 0;
        lent.limit_count = turn < 3 ? counts[turn] : (size_t)KZ_DOMAINS;
        CHECK(refused(kz_read(&lent, 1, 0, 8), KZ_DISORDERED));
        CHECK(refused(kz_create(&lent, 16, 8, KZ_RW), KZ_DISORDERED));
        CHECK(refused(kz_drop_all(&lent, falling, 2), KZ_DISORDERED));
        CHECK(kz_apply_all(&lent, events, 2, NULL, 0, answers) == 2);
        CHECK(refused(answers[0], KZ_DISORDERED) && refused(answers[1], KZ_DISORDERED));
        CHECK(refused(kz_run(&lent, NULL, 0), KZ_DISORDERED));
        CHECK(refused(kz_run(&lent, (const uint8_t *)"?", 1), KZ_DISORDERED));
        CHECK(kz_charge(&lent, 1).refusal == 0);
        CHECK(kz_write_listing(&lent, out, sizeof out).refusal == 0);
        CHECK(memcmp(table, before, sizeof table) == 0);
        CHECK(memcmp(&tally, &counted, sizeof tally) == 0);
    }
    limits[7] = 0;
    limits[5] = 2;
    CHECK(allowed(kz_read(&lent, 1, 0, 8), 0));
    lent.limits = NULL;
    lent.limit_count = 0;
    CHECK(allowed(kz_create(&lent, 16, 8, KZ_RW), 3));
}

static int charged(kz_shares shares, uint32_t share, uint32_t rest) {
    return shares.refusal == 0 && shares.share == share && shares.rest == rest;
}

static int not_charged(kz_shares shares, enum kz_refusal refusal) {
    return shares.refusal == (uint32_t)refusal && shares.share == 0 && shares.rest == 0;
}

/* A length in equal shares for the holders. Whatever is asked, nothing is changed. */
static void check_charge(void) {
    static kz_cap table[5], before[5];
    static uint8_t written[KZ_WRITTEN_BYTES];
    static kz_tally tally, counted;
    kz_lent lent = {table, 5, written, sizeof written, LENT_STATES, &tally, NULL, NULL, 0};
    CHECK(allowed(kz_create(&lent, 0, 1000, KZ_RW), 1));
    CHECK(allowed(kz_create_by(&lent, 1, kz_holder(1) | kz_holder(63), 1000, 1001, KZ_RO), 2));
    CHECK(allowed(kz_create_by(&lent, 9, ~(uint64_t)0, 3000, 4294960000u, KZ_RW), 3));
    CHECK(allowed(kz_create_by(&lent, 2, kz_holder(2) | 1 | 2, 0, 0, KZ_RW), 4));
    CHECK(allowed(kz_borrow_by(&lent, 1, kz_holder(1) | 1 | 4, 2, 1000, 1000, KZ_RO), 5));
    CHECK(allowed(kz_drop_by(&lent, 2, 4), 0));
    memcpy(before, table, sizeof table);
    counted = tally;
    CHECK(charged(kz_charge(&lent, 1), 1000, 0));
    CHECK(charged(kz_charge(&lent, 2), 500, 1));
    CHECK(charged(kz_charge(&lent, 3), 67108750, 0));
    CHECK(charged(kz_charge(&lent, 5), 333, 1));
    CHECK(not_charged(kz_charge(&lent, 4), KZ_ENDED));
    CHECK(not_charged(kz_charge(&lent, 0), KZ_UNISSUED));
    CHECK(not_charged(kz_charge(&lent, 6), KZ_UNISSUED));
    CHECK(not_charged(kz_charge(&lent, 4294967295u), KZ_UNISSUED));
    lent.written_size = 0;
    CHECK(charged(kz_charge(&lent, 2), 500, 1));
    CHECK(memcmp(table, before, sizeof table) == 0);
    CHECK(memcmp(&tally, &counted, sizeof tally) == 0);
    tally.issued = 4;
    CHECK(not_charged(kz_charge(&lent, 1), KZ_DISORDERED));
    lent.rows = 0;
    lent.table = NULL;
    CHECK(not_charged(kz_charge(&lent, 1), KZ_ENDED));
}

/* An event with a new name written out, by itself. */
static kz_answer apply_named(const kz_lent *lent, uint32_t kind, uint32_t written, uint32_t name,
                             uint32_t start, uint32_t length, uint32_t right) {
    const kz_event event = named_event(kind, written, name, start, length, right);
    return kz_apply(lent, &event);
}

static void check_named_events(void) {
    static kz_cap table[2];
    static uint8_t written[KZ_WRITTEN_BYTES];
    static kz_tally tally;
    const kz_lent lent = {table, 2, written, sizeof written, LENT_STATES, &tally, NULL, NULL, 0};
    kz_event event;
    CHECK(refused(apply_named(&lent, KZ_CREATE, 0, 0, 0, 64, KZ_RW), KZ_MISNAMED));
    CHECK(refused(apply_named(&lent, KZ_CREATE, 2, 0, 0, 64, KZ_RW), KZ_MISNAMED));
    CHECK(allowed(apply_named(&lent, KZ_CREATE, 1, 0, 0, 64, KZ_RW), 1));
    CHECK(refused(apply_named(&lent, KZ_BORROW, 1, 1, 0, 8, KZ_RO), KZ_MISNAMED));
    CHECK(refused(apply_named(&lent, KZ_BORROW, 1, 2, 0, 8, KZ_RO), KZ_UNISSUED));
    CHECK(allowed(apply_named(&lent, KZ_BORROW, 2, 1, 0, 8, KZ_RO), 2));
    CHECK(refused(apply_named(&lent, KZ_CREATE, 4, 0, 0, 8, KZ_RW), KZ_MISNAMED));
    CHECK(refused(apply_named(&lent, KZ_CREATE, 3, 0, 0, 8, KZ_RW), KZ_TABLE_FULL));
    CHECK(allowed(apply_named(&lent, KZ_WRITE, 9, 1, 0, 8, 0), 0));
    CHECK(refused(apply_named(&lent, 0, 3, 1, 0, 8, KZ_RW), KZ_MISSPELT));
    event = named_event(KZ_CREATE, 9, 0, 64, 8, KZ_RW);
    event.named = 4294967295u;
    CHECK(refused(kz_apply(&lent, &event), KZ_MISNAMED));
    event.named = 0;
    CHECK(allowed(kz_apply(&lent, &event), 3));
    tally.issued = KZ_MAX_NAME;
    CHECK(refused(apply_named(&lent, KZ_CREATE, 7, 0, 0, 8, KZ_RW), KZ_NAMES_SPENT));
    CHECK(tally.creates == 2 && tally.borrows == 1 && tally.writes == 1 && tally.refused == 9);
}

static void check_grouped_events(void) {
    static const uint32_t both[] = {2, 4};
    static const uint32_t ended[] = {1, 2, 5};
    static const uint32_t unissued[] = {1, 9};
    static const uint32_t falling[] = {3, 1};
    static const uint32_t last[] = {1, 3};
    uint32_t many[KZ_MAX_GROUP + 1];
    static kz_cap table[5];
    static uint8_t written[KZ_WRITTEN_BYTES];
    static kz_tally tally;
    const kz_lent lent = {table, 5, written, sizeof written, LENT_STATES, &tally, NULL, NULL, 0};
    uint32_t i;
    for (i = 0; i <= KZ_MAX_GROUP; i++) many[i] = i + 1;
    for (i = 1; i <= 3; i++) CHECK(allowed(kz_create(&lent, 8 * i, 8, KZ_RW), i));
    CHECK(allowed(kz_borrow(&lent, 2, 16, 4, KZ_RW), 4));
    CHECK(allowed(kz_drop_all(&lent, both, 2), 0));
    CHECK(table[0].name == 1 && table[1].name == 3 && table[2].name == 0);
    CHECK(refused(kz_drop_all(&lent, ended, 3), KZ_ENDED));
    CHECK(refused(kz_drop_all(&lent, unissued, 2), KZ_UNISSUED));
    CHECK(refused(kz_drop_all(&lent, falling, 2), KZ_MISGROUPED));
    CHECK(refused(kz_drop_all(&lent, many, KZ_MAX_GROUP + 1), KZ_MISGROUPED));
    CHECK(refused(kz_drop_all(&lent, many, KZ_MAX_GROUP), KZ_ENDED));
    CHECK(table[0].name == 1 && table[1].name == 3);
    CHECK(tally.drops == 1 && tally.refused == 5);
    table[4].name = 1;
    CHECK(refused(kz_drop_all(&lent, falling, 2), KZ_DISORDERED));
    table[4].name = 0;
    CHECK(allowed(kz_drop_all(&lent, last, 2), 0));
    CHECK(table[0].name == 0);
    CHECK(tally.issued == 4 && tally.drops == 2 && tally.refused == 5);
}

static void check_many_events(void) {
    static const uint32_t names[] = {1, 3, 2, 9};
    static const kz_answer expected[] = {
        {0, 1}, {0, 2}, {0, 3}, {KZ_MISNAMED, 0}, {KZ_MISGROUPED, 0}, {0, 0}, {KZ_UNISSUED, 0},
        {KZ_MISGROUPED, 0}, {KZ_ENDED, 0},
    };
    kz_event events[9];
    kz_answer answers[10];
    static kz_cap table[4];
    static uint8_t written[KZ_WRITTEN_BYTES];
    static kz_tally tally;
    const kz_lent lent = {table, 4, written, sizeof written, LENT_STATES, &tally, NULL, NULL, 0};
    size_t i;
    memset(answers, 255, sizeof answers);
    events[0] = event_of(KZ_CREATE, 0, 0, 8, KZ_RW);
    events[1] = event_of(KZ_BORROW, 1, 0, 4, KZ_RW);
    events[2] = named_event(KZ_CREATE, 3, 0, 8, 8, KZ_RW);
    events[3] = named_event(KZ_CREATE, 3, 0, 16, 8, KZ_RW);
    events[4] = event_of(KZ_DROP_ALL, 0, 1, 2, 0);
    events[5] = event_of(KZ_DROP_ALL, 0, 0, 2, 0);
    events[6] = event_of(KZ_DROP_ALL, 0, 3, 1, 0);
    events[7] = event_of(KZ_DROP_ALL, 0, 3, 2, 0);
    events[8] = event_of(KZ_DROP, 2, 0, 0, 0);
    CHECK(kz_apply_all(&lent, events, 9, names, 4, answers) == 9);
    CHECK(memcmp(answers, expected, sizeof expected) == 0);
    CHECK(answers[9].refusal == 4294967295u && answers[9].value == 4294967295u);
    CHECK(table[0].name == 0);
    CHECK(tally.issued == 3 && tally.creates == 2 && tally.borrows == 1);
    CHECK(tally.drops == 1 && tally.refused == 5);
    CHECK(kz_apply_all(&lent, NULL, 0, NULL, 0, NULL) == 0);
    table[3].name = 1;
    CHECK(kz_apply_all(&lent, events, 9, names, 4, answers) == 9);
    for (i = 0; i < 9; i++) CHECK(refused(answers[i], KZ_DISORDERED));
    CHECK(tally.issued == 3 && tally.refused == 5);
}

/* The exported functions where they take more than the calls do: a list of names for one event, and
   answers that are fewer or more than the events. */
static void check_exported(void) {
    static const uint32_t names[] = {7, 1, 2};
    const uint64_t misgrouped = (uint64_t)KZ_MISGROUPED << 32;
    const uint64_t disordered = (uint64_t)KZ_DISORDERED << 32;
    const size_t bytes = KZ_WRITTEN_BYTES;
    kz_event events[2];
    kz_answer answers[3];
    static kz_cap table[2];
    static uint8_t written[KZ_WRITTEN_BYTES];
    static kz_tally tally;
    memset(answers, 255, sizeof answers);
    events[0] = event_of(KZ_CREATE, 0, 0, 8, KZ_RW);
    events[1] = event_of(KZ_CREATE, 0, 8, 8, KZ_RW);
    CHECK(kz_abi_apply_all(table, 2, written, bytes, STATES, &tally, NULL, 0, NULL, 0, events, 2,
                           NULL, 0, answers, 1) == 1);
    CHECK(allowed(answers[0], 1) && answers[1].value == 4294967295u && tally.creates == 1);
    CHECK(kz_abi_apply_all(table, 2, written, bytes, STATES, &tally, NULL, 0, NULL, 0, events + 1, 1,
                           NULL, 0, answers, 3) == 1);
    CHECK(allowed(answers[0], 2) && answers[1].value == 4294967295u);
    CHECK(kz_abi_apply_all(table, 2, written, bytes, STATES, &tally, NULL, 0, NULL, 0, events, 2,
                           NULL, 0, NULL, 0) == 0);
    events[0] = event_of(KZ_DROP_ALL, 0, 1, 2, 0);
    CHECK(kz_abi_apply(table, 2, written, bytes, STATES, &tally, NULL, 0, NULL, 0, events, names,
                       2) == misgrouped);
    CHECK(kz_abi_apply(table, 2, written, bytes, STATES, &tally, NULL, 0, NULL, 0, events, names,
                       3) == 0);
    events[0].start = 4294967295u;
    CHECK(kz_abi_apply(table, 2, written, bytes, STATES, &tally, NULL, 0, NULL, 0, events, names,
                       3) == misgrouped);
    CHECK(table[0].name == 0 && tally.drops == 1 && tally.refused == 2);
    /* Of the bits only the number is judged. */
    events[0] = event_of(KZ_WRITE, 1, 0, 8, 0);
    CHECK(kz_abi_apply(table, 2, NULL, 0, STATES, &tally, NULL, 0, NULL, 0, events, NULL, 0) ==
          disordered);
    CHECK(kz_abi_run(table, 2, NULL, 0, STATES, &tally, NULL, 0, NULL, 0, NULL, 0) == disordered);
    memset(answers, 255, sizeof answers);
    CHECK(kz_abi_apply_all(table, 2, written, bytes - 1, STATES, &tally, NULL, 0, NULL, 0, events, 1,
                           NULL, 0, answers, 3) == 1);
    CHECK(refused(answers[0], KZ_DISORDERED) && answers[1].value == 4294967295u);
    CHECK(tally.refused == 2);
}

static void check_text(void) {
    static const uint8_t trace[] = "(create 0 8 rw)\n(read 1 0 9)\n";
    static const char listing[] = "(issued 1)\n(1 0 8 rw" OF_0 ")\n";
    const size_t length = sizeof trace - 1;
    const kz_event create = event_of(KZ_CREATE, 0, 0, 8, KZ_RW);
    uint32_t names[KZ_MAX_GROUP];
    kz_event event;
    uint8_t out[64];
    static kz_cap table[2];
    static uint8_t written[KZ_WRITTEN_BYTES];
    static kz_tally tally;
    const kz_lent lent = {table, 2, written, sizeof written, LENT_STATES, &tally, NULL, NULL, 0};
    memset(&event, 255, sizeof event);
    names[0] = 9;
    CHECK(refused(kz_read_event(0, trace, 15, &event, names), KZ_MISSPELT));
    CHECK(event.kind == 4294967295u && event.written == 4294967295u);
    CHECK(allowed(kz_read_event(0, trace, 16, &event, names), 0));
    CHECK(same_event(&event, &create) && names[0] == 9);
    CHECK(allowed(kz_write_event(&create, NULL, 0, out, sizeof out), 16));
    CHECK(memcmp(out, trace, 16) == 0);
    CHECK(refused_at(kz_run(&lent, trace, length), KZ_OUTSIDE_SPAN, 2));
    CHECK(allowed(kz_write_listing(&lent, out, sizeof out), sizeof listing - 1));
    CHECK(memcmp(out, listing, sizeof listing - 1) == 0);
    memset(table, 255, sizeof table);
    CHECK(allowed(kz_read_listing(&lent, out, sizeof listing - 1), 0));
    CHECK(table[0].length == 8 && table[1].name == 0);
    CHECK(allowed(kz_check(&work, trace, length, out, sizeof out), sizeof listing - 1 + 14));
    CHECK(memcmp(out, "(refused 6 2)\n", 14) == 0);
}

static void check_named_text(void) {
    static const uint8_t trace[] = KZ_NAMED_HEADER "(create 1 0 8 rw)\n(borrow 3 1 0 4 ro)\n";
    static const uint8_t line[] = "(borrow 3 1 0 4 ro)\n";
    static const char printed[] = "(refused 12 3)\n(issued 1)\n(1 0 8 rw" OF_0 ")\n";
    const size_t length = sizeof trace - 1;
    const size_t line_length = sizeof line - 1;
    const kz_event borrow = named_event(KZ_BORROW, 3, 1, 0, 4, KZ_RO);
    const kz_event dropped = event_of(KZ_DROP, 1, 0, 0, 0);
    kz_event event = named_event(KZ_DROP, 3, 1, 0, 0, 0);
    uint32_t names[KZ_MAX_GROUP];
    uint8_t out[64];
    static kz_cap table[2];
    static uint8_t written[KZ_WRITTEN_BYTES];
    static kz_tally tally;
    const kz_lent lent = {table, 2, written, sizeof written, LENT_STATES, &tally, NULL, NULL, 0};
    CHECK(allowed(kz_write_event(&event, NULL, 0, out, sizeof out), 9));
    CHECK(allowed(kz_read_event(1, out, 9, &event, names), 0));
    CHECK(same_event(&event, &dropped));
    CHECK(refused(kz_read_event(0, line, line_length, &event, names), KZ_MISSPELT));
    CHECK(same_event(&event, &dropped));
    CHECK(allowed(kz_read_event(7, line, line_length, &event, names), 0));
    CHECK(same_event(&event, &borrow));
    CHECK(allowed(kz_write_event(&borrow, NULL, 0, out, sizeof out), (uint32_t)line_length));
    CHECK(memcmp(out, line, line_length) == 0);
    CHECK(refused_at(kz_run(&lent, trace, length), KZ_MISNAMED, 3));
    CHECK(tally.issued == 1 && tally.creates == 1 && tally.refused == 1);
    CHECK(allowed(kz_run(&lent, trace, sizeof KZ_NAMED_HEADER - 1), 1));
    CHECK(allowed(kz_check(&work, trace, length, out, sizeof out), sizeof printed - 1));
    CHECK(memcmp(out, printed, sizeof printed - 1) == 0);
}

static void check_grouped_text(void) {
    static const uint8_t trace[] = "(create 0 8 rw)\n(create 8 8 rw)\n(drop 1 2)\n(drop 1 9)\n";
    static const uint8_t named[] = KZ_NAMED_HEADER "(create 3 0 8 rw)\n(create 4 8 8 rw)\n(drop 3 4)\n";
    static const uint8_t line[] = "(drop 2 5 9)\n";
    const size_t length = sizeof line - 1;
    const kz_event three = event_of(KZ_DROP_ALL, 0, 0, 3, 0);
    kz_event group = event_of(KZ_DROP_ALL, 0, 1, 3, 0);
    uint32_t lent_names[] = {7, 2, 5, 9, 5};
    uint32_t names[KZ_MAX_GROUP];
    kz_event event;
    uint8_t out[64];
    static kz_cap table[2];
    static uint8_t written[KZ_WRITTEN_BYTES];
    static kz_tally tally;
    const kz_lent lent = {table, 2, written, sizeof written, LENT_STATES, &tally, NULL, NULL, 0};
    uint32_t form;
    for (form = 0; form < 2; form++) {
        memset(names, 255, sizeof names);
        memset(&event, 255, sizeof event);
        CHECK(allowed(kz_read_event(form, line, length, &event, names), 0));
        CHECK(same_event(&event, &three));
        CHECK(names[0] == 2 && names[1] == 5 && names[2] == 9 && names[3] == 4294967295u);
    }
    CHECK(allowed(kz_write_event(&group, lent_names, 5, out, sizeof out), (uint32_t)length));
    CHECK(memcmp(out, line, length) == 0);
    CHECK(refused(kz_write_event(&group, lent_names, 5, out, length - 1), KZ_BUFFER_TOO_SHORT));
    CHECK(refused(kz_write_event(&group, lent_names, 3, out, sizeof out), KZ_MISGROUPED));
    group.start = 2;
    CHECK(refused(kz_write_event(&group, lent_names, 5, out, sizeof out), KZ_MISGROUPED));
    group.start = 3;
    group.length = 1;
    CHECK(allowed(kz_write_event(&group, lent_names, 5, out, sizeof out), 9));
    CHECK(allowed(kz_read_event(0, out, 9, &event, names), 0));
    CHECK(event.kind == KZ_DROP && event.name == 9 && names[0] == 2);
    CHECK(refused(kz_read_event(0, (const uint8_t *)"(drop 2 2)\n", 11, &event, names),
                  KZ_MISSPELT));
    CHECK(event.kind == KZ_DROP && names[0] == 2);
    CHECK(refused_at(kz_run(&lent, trace, sizeof trace - 1), KZ_ENDED, 4));
    CHECK(tally.issued == 2 && tally.drops == 1 && tally.refused == 1 && table[0].name == 0);
    CHECK(allowed(kz_run(&lent, named, sizeof named - 1), 4));
    CHECK(tally.issued == 4 && tally.drops == 2 && table[0].name == 0);
    CHECK(allowed(kz_check(&work, trace, sizeof trace - 1, out, sizeof out), 14 + 11));
    CHECK(memcmp(out, "(refused 5 4)\n(issued 2)\n", 14 + 11) == 0);
}

/* The lines of marks and backs, alike in both kinds of text. */
static void check_states_text(void) {
    static const char trace[] =
        "(create 0 8 rw)\n(mark 0)\n(drop 1)\n(as 3 (back 0))\n(read 1 0 8)\n(back 1)\n";
    static const char named[] =
        KZ_NAMED_HEADER "(create 1 0 8 rw)\n(mark 0)\n(create 2 0 8 rw)\n(back 0)\n(read 2 0 8)\n";
    static const char printed[] = "(refused 19 6)\n(issued 1)\n(1 0 8 rw" OF_0 ")\n";
    static const char *wrong[] = {"(mark 8)\n", "(mark 03)\n", "(as 0 (mark 1))\n", "(mark 1 2)\n",
                                  "(as 64 (mark 1))\n", "(mark)\n", "(back 1)", "(back -1)\n"};
    kz_event event = kz_by(event_of(KZ_MARK, 3, 0, 0, 0), 2, 0), read;
    uint32_t names[KZ_MAX_GROUP], form;
    uint8_t out[64];
    size_t i;
    memset(&work, 255, sizeof work);
    for (form = 0; form < 2; form++) {
        const uint8_t *line = (const uint8_t *)"(as 2 (mark 3))\n";
        memset(&read, 255, sizeof read);
        CHECK(allowed(kz_read_event(form, line, 16, &read, names), 0));
        CHECK(same_event(&read, &event));
        for (i = 0; i < sizeof wrong / sizeof wrong[0]; i++) {
            line = (const uint8_t *)wrong[i];
            CHECK(refused(kz_read_event(form, line, strlen(wrong[i]), &read, names), KZ_MISSPELT));
        }
        CHECK(same_event(&read, &event));
    }
    /* What the kind lacks is not looked at. */
    memset(&event, 255, sizeof event);
    event.kind = KZ_BACK;
    event.name = 7;
    event.actor = 0;
    CHECK(allowed(kz_write_event(&event, NULL, 0, out, sizeof out), 9));
    CHECK(memcmp(out, "(back 7)\n", 9) == 0);
    CHECK(refused(kz_write_event(&event, NULL, 0, out, 8), KZ_BUFFER_TOO_SHORT));
    event.actor = 63;
    CHECK(allowed(kz_write_event(&event, NULL, 0, out, sizeof out), 17));
    CHECK(memcmp(out, "(as 63 (back 7))\n", 17) == 0);
    event.name = 8;
    CHECK(refused(kz_write_event(&event, NULL, 0, out, 8), KZ_MISSPELT));
    for (i = 0; i < 2; i++) {
        /* What stands in the memory before does not matter. */
        CHECK(allowed(kz_check(&work, (const uint8_t *)trace, sizeof trace - 1, out, sizeof out),
                      sizeof printed - 1));
        CHECK(memcmp(out, printed, sizeof printed - 1) == 0);
    }
    CHECK(allowed(kz_check(&work, (const uint8_t *)named, sizeof named - 1, out, sizeof out),
                  14 + 11 + 30));
    CHECK(memcmp(out, "(refused 5 6)\n(issued 2)\n(1 0 8 rw", 14 + 11 + 9) == 0);
}

/* The exported functions with rows and bytes for states of any number. */
static void check_states_exported(void) {
    static const uint8_t text[] = "(mark 0)\n";
    const uint64_t disordered = (uint64_t)KZ_DISORDERED << 32;
    static const struct {
        size_t rows, bytes;
    } sizes[] = {{8200, 65536}, {8199, 65536}, {8200, 65535}, {0, 65536},
                 {8200, 0},     {0, 0},        {1025, 8192}};
    kz_event event = event_of(KZ_MARK, 0, 0, 0, 0);
    static kz_cap table[2];
    static uint8_t written[KZ_WRITTEN_BYTES];
    static kz_tally tally;
    kz_answer answer;
    uint8_t out[64];
    size_t i;
    for (i = 0; i < sizeof sizes / sizeof sizes[0]; i++) {
        const uint64_t expected = i == 0 ? 0 : disordered;
        const char *printed = i == 0 ? "(allowed 1)\n(issued 0)\n" : "(refused 1 0)\n(issued 0)\n";
        kz_cap *rows = sizes[i].rows == 0 ? NULL : work.rows;
        uint8_t *bits = sizes[i].bytes == 0 ? NULL : work.written;
        CHECK(kz_abi_apply(table, 2, written, KZ_WRITTEN_BYTES, rows, sizes[i].rows, bits,
                           sizes[i].bytes, &tally, NULL, 0, NULL, 0, &event, NULL, 0) == expected);
        CHECK(kz_abi_apply_all(table, 2, written, KZ_WRITTEN_BYTES, rows, sizes[i].rows, bits,
                               sizes[i].bytes, &tally, NULL, 0, NULL, 0, &event, 1, NULL, 0, &answer,
                               1) == 1);
        CHECK(answer.refusal == (i == 0 ? 0 : KZ_DISORDERED) && answer.value == 0);
        CHECK(kz_abi_run(table, 2, written, KZ_WRITTEN_BYTES, rows, sizes[i].rows, bits,
                         sizes[i].bytes, &tally, NULL, 0, NULL, 0, text, sizeof text - 1) ==
              (i == 0 ? 1 : disordered));
        CHECK(kz_abi_check(text, sizeof text - 1, rows, sizes[i].rows, bits, sizes[i].bytes, out,
                           sizeof out) == strlen(printed));
        CHECK(memcmp(out, printed, strlen(printed)) == 0);
    }
    CHECK(tally.refused == 0);
}

static int reads_as(uint32_t named, const char *line, const kz_event *expected) {
    uint32_t names[KZ_MAX_GROUP];
    kz_event event;
    memset(&event, 255, sizeof event);
    return allowed(kz_read_event(named, (const uint8_t *)line, strlen(line), &event, names), 0) &&
           same_event(&event, expected);
}

static int writes_as(const kz_event *event, const char *line) {
    uint8_t out[KZ_MAX_NAMED_LINE];
    const size_t length = strlen(line);
    return allowed(kz_write_event(event, NULL, 0, out, length), (uint32_t)length) &&
           memcmp(out, line, length) == 0;
}

static void check_kinds_text(void) {
    static const char *const wrong[] = {
        "(borrow 1 0 8 rw reference)\n",
        "(borrow 1 0 8 raw)\n",
        "(borrow 1 0 8 raw rw)\n",
        "(borrow 1 0 8 rw raw cell)\n",
        "(borrow 1 0 8 rw raw raw)\n",
        "(borrow 1 0 8 rw  raw)\n",
        "(borrow 1 0 8 rwraw)\n",
        "(borrow 1 0 8 rw ra)\n",
        "(borrow 1 0 8 rw cells)\n",
        "(borrow 1 0 8 rw 1)\n",
        "(create 0 8 rw raw)\n",
        "(read 1 0 8 raw)\n",
    };
    static const char trace[] =
        "(create 0 64 rw)\n(borrow 1 0 8 rw raw)\n(borrow 2 0 4 ro)\n(borrow 1 8 8 ro cell)\n";
    static const char named_trace[] =
        KZ_NAMED_HEADER "(create 1 0 64 rw)\n(borrow 2 1 0 8 rw raw)\n(write 1 0 8)\n(read 2 0 8)\n";
    static const char listing[] =
        "(issued 4)\n(1 0 64 rw" OF_0 " (2 0 8 rw raw" OF_0 " (3 0 4 ro" OF_0 ")) (4 8 8 ro cell" OF_0
        "))\n";
    static const char named_output[] =
        "(allowed 5)\n(issued 2)\n(1 0 64 rw" OF_0 " (2 0 8 rw raw" OF_0 "))\n";
    static const char root[] = "(issued 1)\n(1 0 64 rw raw" OF_0 ")\n";
    const size_t length = sizeof listing - 1;
    const kz_event raw = with_kind(event_of(KZ_BORROW, 1, 0, 8, KZ_RW), KZ_RAW);
    const kz_event cell = with_kind(named_event(KZ_BORROW, 2, 1, 0, 8, KZ_RO), KZ_CELL);
    const kz_event created = with_kind(event_of(KZ_CREATE, 0, 0, 8, KZ_RW), KZ_RAW);
    const kz_event unknown = with_kind(event_of(KZ_BORROW, 1, 0, 8, KZ_RW), 3);
    uint32_t names[KZ_MAX_GROUP];
    kz_event event;
    uint8_t out[192];
    static kz_cap table[5], other[5];
    static uint8_t written[KZ_WRITTEN_BYTES];
    static kz_tally tally, copied;
    const kz_lent lent = {table, 5, written, sizeof written, LENT_STATES, &tally, NULL, NULL, 0};
    const kz_lent copy = {other, 5, written, sizeof written, LENT_STATES, &copied, NULL, NULL, 0};
    size_t i;
    CHECK(writes_as(&raw, "(borrow 1 0 8 rw raw)\n"));
    CHECK(reads_as(0, "(borrow 1 0 8 rw raw)\n", &raw));
    CHECK(writes_as(&cell, "(borrow 2 1 0 8 ro cell)\n"));
    CHECK(reads_as(1, "(borrow 2 1 0 8 ro cell)\n", &cell));
    CHECK(writes_as(&created, "(create 0 8 rw)\n"));
    memset(out, '?', sizeof out);
    CHECK(refused(kz_write_event(&unknown, NULL, 0, out, sizeof out), KZ_MISSPELT));
    CHECK(refused(kz_write_event(&unknown, NULL, 0, NULL, 0), KZ_MISSPELT));
    CHECK(out[0] == '?');
    for (i = 0; i < sizeof wrong / sizeof wrong[0]; i++) {
        const uint8_t *line = (const uint8_t *)wrong[i];
        CHECK(refused(kz_read_event(0, line, strlen(wrong[i]), &event, names), KZ_MISSPELT));
    }
    CHECK(allowed(kz_run(&lent, (const uint8_t *)trace, sizeof trace - 1), 4));
    CHECK(allowed(kz_write_listing(&lent, out, sizeof out), (uint32_t)length));
    CHECK(memcmp(out, listing, length) == 0);
    memset(other, 255, sizeof other);
    CHECK(allowed(kz_read_listing(&copy, out, length), 0));
    CHECK(memcmp(table, other, sizeof table) == 0 && copied.issued == 4);
    CHECK(refused(kz_read_listing(&copy, (const uint8_t *)root, sizeof root - 1), KZ_MISSPELT));
    CHECK(allowed(kz_check(&work, (const uint8_t *)trace, sizeof trace - 1, out, sizeof out),
                  (uint32_t)(12 + length)));
    CHECK(memcmp(out, "(allowed 4)\n", 12) == 0 && memcmp(out + 12, listing, length) == 0);
    CHECK(allowed(kz_check(&work, (const uint8_t *)named_trace, sizeof named_trace - 1, out,
                           sizeof out),
                  sizeof named_output - 1));
    CHECK(memcmp(out, named_output, sizeof named_output - 1) == 0);
}

static void check_fresh_text(void) {
    static const char *const wrong[] = {
        "(create 0 8 fresh)\n",
        "(create 0 8 fresh rw)\n",
        "(create fresh 0 8 rw)\n",
        "(create 0 8 rw fresh fresh)\n",
        "(create 0 8 rw  fresh)\n",
        "(create 0 8 rw fresh )\n",
        "(create 0 8 rwfresh)\n",
        "(create 0 8 rw fres)\n",
        "(create 0 8 rw freshly)\n",
        "(create 0 8 rw Fresh)\n",
        "(create 0 8 rw 1)\n",
        "(create 0 8 rw raw fresh)\n",
        "(create 0 8 rw fresh raw)\n",
        "(borrow 1 0 8 rw fresh)\n",
        "(borrow 1 0 8 rw cell fresh)\n",
        "(borrow 1 0 8 rw fresh cell)\n",
        "(read 1 0 8 fresh)\n",
        "(write 1 0 8 fresh)\n",
        "(drop 1 fresh)\n",
    };
    static const char *const wrong_listings[] = {
        "(issued 1)\n(1 0 8 fresh" OF_0 ")\n",
        "(issued 1)\n(1 0 8 fresh rw" OF_0 ")\n",
        "(issued 1)\n(1 0 8 rw fresh fresh" OF_0 ")\n",
        "(issued 1)\n(1 0 8 rw" OF_0 " fresh)\n",
        "(issued 1)\n(1 65528 9 rw fresh" OF_0 ")\n",
        "(issued 2)\n(1 0 8 rw fresh" OF_0 " (2 0 4 ro cell" OF_0 "))\n",
        "(issued 2)\n(1 0 8 rw" OF_0 " (2 0 4 ro cell fresh" OF_0 "))\n",
        "(issued 2)\n(1 0 8 rw fresh" OF_0 " (2 0 4 ro fresh cell" OF_0 "))\n",
        "(issued 2)\n(1 0 8 rw" OF_0 " (2 0 4 ro" OF_0 ") fresh)\n",
    };
    static const char trace[] = "(create 0 8 rw fresh)\n(borrow 1 0 4 rw cell)\n(write 2 0 4)\n"
                                "(read 2 0 4)\n(read 1 0 5)\n";
    static const char named_trace[] =
        KZ_NAMED_HEADER "(create 1 0 8 ro fresh)\n(read 1 0 0)\n(read 1 7 1)\n";
    static const char listing[] =
        "(issued 2)\n(1 0 8 rw fresh" OF_0 " (2 0 4 ro cell fresh" OF_0 "))\n";
    static const char output[] =
        "(refused 16 5)\n(issued 2)\n(1 0 8 rw fresh" OF_0 " (2 0 4 rw cell fresh" OF_0 "))\n";
    static const char named_output[] = "(refused 16 4)\n(issued 1)\n(1 0 8 ro fresh" OF_0 ")\n";
    const size_t length = sizeof listing - 1;
    const kz_event fresh = with_mark(event_of(KZ_CREATE, 0, 0, 8, KZ_RW), 1);
    const kz_event named = with_mark(named_event(KZ_CREATE, 1, 0, 0, 8, KZ_RO), 1);
    const kz_event kinded = with_kind(fresh, KZ_CELL);
    const kz_event borrow = event_of(KZ_BORROW, 1, 0, 8, KZ_RW);
    const kz_event marked = with_mark(borrow, 1);
    const kz_event unknown = with_mark(fresh, 2);
    uint32_t names[KZ_MAX_GROUP];
    kz_event event;
    uint8_t out[192];
    static kz_cap table[3], other[3];
    static uint8_t written[KZ_WRITTEN_BYTES], bits[KZ_WRITTEN_BYTES];
    static kz_tally tally, copied;
    const kz_lent lent = {table, 3, written, sizeof written, LENT_STATES, &tally, NULL, NULL, 0};
    const kz_lent copy = {other, 3, bits, sizeof bits, LENT_STATES, &copied, NULL, NULL, 0};
    size_t i;
    CHECK(writes_as(&fresh, "(create 0 8 rw fresh)\n"));
    CHECK(reads_as(0, "(create 0 8 rw fresh)\n", &fresh));
    CHECK(writes_as(&named, "(create 1 0 8 ro fresh)\n"));
    CHECK(reads_as(1, "(create 1 0 8 ro fresh)\n", &named));
    CHECK(writes_as(&kinded, "(create 0 8 rw fresh)\n"));
    CHECK(writes_as(&marked, "(borrow 1 0 8 rw)\n"));
    CHECK(reads_as(0, "(borrow 1 0 8 rw)\n", &borrow));
    memset(out, '?', sizeof out);
    CHECK(refused(kz_write_event(&unknown, NULL, 0, out, sizeof out), KZ_MISSPELT));
    CHECK(refused(kz_write_event(&unknown, NULL, 0, NULL, 0), KZ_MISSPELT));
    CHECK(refused(kz_write_event(&fresh, NULL, 0, out, 21), KZ_BUFFER_TOO_SHORT));
    CHECK(out[0] == '?');
    for (i = 0; i < sizeof wrong / sizeof wrong[0]; i++) {
        const uint8_t *line = (const uint8_t *)wrong[i];
        CHECK(refused(kz_read_event(0, line, strlen(wrong[i]), &event, names), KZ_MISSPELT));
    }
    /* A run goes on with the bits that the one before it left. */
    CHECK(refused_at(kz_run(&lent, (const uint8_t *)trace, sizeof trace - 1), KZ_NOT_WRITTEN, 5));
    CHECK(written[0] == 0x0f && tally.reads == 1 && tally.refused == 1);
    CHECK(refused_at(kz_run(&lent, (const uint8_t *)trace + 59, 26), KZ_NOT_WRITTEN, 2));
    CHECK(allowed(kz_read(&lent, 1, 0, 4), 0));
    CHECK(allowed(kz_write_listing(&lent, out, sizeof out), (uint32_t)length));
    CHECK(memcmp(out, listing, length) == 0);
    /* A listing that is read leaves the bits. */
    memset(other, 255, sizeof other);
    memset(bits, 0xf0, sizeof bits);
    CHECK(allowed(kz_read_listing(&copy, out, length), 0));
    CHECK(memcmp(table, other, sizeof table) == 0 && copied.issued == 2);
    for (i = 0; i < sizeof bits; i++) CHECK(bits[i] == 0xf0);
    CHECK(refused(kz_read(&copy, 1, 0, 8), KZ_NOT_WRITTEN));
    CHECK(allowed(kz_read(&copy, 1, 4, 4), 0));
    for (i = 0; i < sizeof wrong_listings / sizeof wrong_listings[0]; i++) {
        const uint8_t *text = (const uint8_t *)wrong_listings[i];
        CHECK(refused(kz_read_listing(&copy, text, strlen(wrong_listings[i])), KZ_MISSPELT));
    }
    /* capcheck begins with nothing written. */
    CHECK(allowed(kz_check(&work, (const uint8_t *)trace, sizeof trace - 1, out, sizeof out),
                  sizeof output - 1));
    CHECK(memcmp(out, output, sizeof output - 1) == 0);
    CHECK(allowed(kz_check(&work, (const uint8_t *)named_trace, sizeof named_trace - 1, out,
                           sizeof out),
                  sizeof named_output - 1));
    CHECK(memcmp(out, named_output, sizeof named_output - 1) == 0);
}

/* Who acts and who holds what is made, in lines. */
static void check_domains_lines(void) {
    static const char *const wrong[] = {
        "(as 0 (read 2 0 8))\n",
        "(as 64 (read 2 0 8))\n",
        "(as 03 (read 2 0 8))\n",
        "(as 3 (as 4 (read 2 0 8)))\n",
        "(as 3 (read 2 0 8)\n",
        "(as 3 (read 2 0 8)))\n",
        "(as 3(read 2 0 8))\n",
        "(as 3 read 2 0 8)\n",
        "(as 3 (read 2 0 8) )\n",
        "(as (read 2 0 8))\n",
        "(as 3)\n",
        "(as 3 )\n",
        "(As 3 (read 2 0 8))\n",
        "(read 2 0 8 0000000000000001)\n",
        "(drop 2 0000000000000009)\n",
        "(create 0 8 rw 0000000000000001)\n",
        "(create 0 8 rw 0000000000000008)\n",
        "(create 0 8 rw 0000000000000000)\n",
        "(create 0 8 rw 9)\n",
        "(create 0 8 rw 00000000000000009)\n",
        "(create 0 8 rw 000000000000000F)\n",
        "(create 0 8 rw 00000000000000 9)\n",
        "(create 0 8 rw 0000000000000009 fresh)\n",
        "(create 0 8 0000000000000009 rw)\n",
        "(borrow 1 0 8 rw 0000000000000009 raw)\n",
        "(as 3 (create 0 8 rw 0000000000000008))\n",
        "(as 3 (create 0 8 rw 0000000000000001))\n",
    };
    const kz_event create = kz_by(with_mark(event_of(KZ_CREATE, 0, 0, 8, KZ_RW), 1), 3, 9);
    const kz_event alone = kz_by(event_of(KZ_BORROW, 1, 0, 8, KZ_RO), 63, kz_holder(63));
    const kz_event shared = kz_by(with_kind(named_event(KZ_BORROW, 2, 1, 0, 8, KZ_RO), KZ_RAW), 0,
                                  0xfedcba9876543211u);
    const kz_event freshest = kz_by(event_of(KZ_CREATE, 0, 0, 8, KZ_RW), 0, 0xfffffffffffffff1u);
    const kz_event celled = kz_by(event_of(KZ_BORROW, 1, 0, 8, KZ_RO), 0, 0xce00000000000001u);
    const kz_event read = kz_by(event_of(KZ_READ, 2, 0, 8, 0), 3, 0);
    const kz_event held = kz_by(event_of(KZ_WRITE, 2, 0, 8, 0), 10, ~(uint64_t)0);
    const kz_event dropped = kz_by(event_of(KZ_DROP_ALL, 0, 0, 2, 0), 3, 0);
    uint32_t names[KZ_MAX_GROUP];
    kz_event event;
    uint8_t out[KZ_MAX_LINE];
    size_t i;
    CHECK(writes_as(&create, "(as 3 (create 0 8 rw fresh 0000000000000009))\n"));
    CHECK(reads_as(0, "(as 3 (create 0 8 rw fresh 0000000000000009))\n", &create));
    CHECK(writes_as(&alone, "(as 63 (borrow 1 0 8 ro))\n"));
    CHECK(reads_as(0, "(as 63 (borrow 1 0 8 ro))\n", &alone));
    CHECK(writes_as(&shared, "(borrow 2 1 0 8 ro raw fedcba9876543211)\n"));
    CHECK(reads_as(1, "(borrow 2 1 0 8 ro raw fedcba9876543211)\n", &shared));
    /* Holders that begin as another word does. */
    CHECK(writes_as(&freshest, "(create 0 8 rw fffffffffffffff1)\n"));
    CHECK(reads_as(0, "(create 0 8 rw fffffffffffffff1)\n", &freshest));
    CHECK(writes_as(&celled, "(borrow 1 0 8 ro ce00000000000001)\n"));
    CHECK(reads_as(0, "(borrow 1 0 8 ro ce00000000000001)\n", &celled));
    CHECK(writes_as(&read, "(as 3 (read 2 0 8))\n"));
    CHECK(reads_as(1, "(as 3 (read 2 0 8))\n", &read));
    CHECK(writes_as(&held, "(as 10 (write 2 0 8))\n"));
    memset(names, 255, sizeof names);
    CHECK(allowed(kz_read_event(0, (const uint8_t *)"(as 3 (drop 2 5))\n", 18, &event, names), 0));
    CHECK(same_event(&event, &dropped) && names[0] == 2 && names[1] == 5);
    CHECK(allowed(kz_write_event(&dropped, names, 2, out, sizeof out), 18));
    CHECK(memcmp(out, "(as 3 (drop 2 5))\n", 18) == 0);
    memset(&event, 255, sizeof event);
    for (i = 0; i < sizeof wrong / sizeof wrong[0]; i++) {
        const uint8_t *line = (const uint8_t *)wrong[i];
        CHECK(refused(kz_read_event(0, line, strlen(wrong[i]), &event, names), KZ_MISSPELT));
        CHECK(event.actor == 4294967295u);
    }
}

/* Makers and holders, in a run and in listings. */
static void check_domains_text(void) {
    static const char *const wrong_listings[] = {
        "(issued 1)\n(1 0 8 rw)\n",
        "(issued 1)\n(1 0 8 rw 0)\n",
        "(issued 1)\n(1 0 8 rw 0000000000000001)\n",
        "(issued 1)\n(1 0 8 rw 0000000000000001 0)\n",
        "(issued 1)\n(1 0 8 rw 00 0000000000000001)\n",
        "(issued 1)\n(1 0 8 rw 1 0000000000000001)\n",
        "(issued 1)\n(1 0 8 rw 64 0000000000000001)\n",
        "(issued 1)\n(1 0 8 rw 0 000000000000001)\n",
        "(issued 1)\n(1 0 8 rw 0 000000000000000B)\n",
        "(issued 2)\n(1 0 8 rw 0 0000000000000001 (2 0 4 ro))\n",
        "(issued 2)\n(1 0 8 rw (2 0 4 ro 0 0000000000000001) 0 0000000000000001)\n",
    };
    static const char trace[] = "(as 3 (create 0 64 rw 0000000000000009))\n"
                                "(borrow 1 0 8 ro cell 8000000000000001)\n"
                                "(as 63 (read 2 0 8))\n(as 3 (drop 1 2))\n";
    static const char listing[] =
        "(issued 2)\n(1 0 64 rw 3 0000000000000009 (2 0 8 ro cell 0 8000000000000001))\n";
    uint8_t out[192];
    static kz_cap table[3], other[3];
    static uint8_t written[KZ_WRITTEN_BYTES];
    static kz_tally tally, copied;
    const kz_lent lent = {table, 3, written, sizeof written, LENT_STATES, &tally, NULL, NULL, 0};
    const kz_lent copy = {other, 3, written, sizeof written, LENT_STATES, &copied, NULL, NULL, 0};
    const size_t length = sizeof listing - 1;
    size_t i;
    CHECK(refused_at(kz_run(&lent, (const uint8_t *)trace, sizeof trace - 1), KZ_NOT_HOLDER, 4));
    CHECK(allowed(kz_write_listing(&lent, out, sizeof out), (uint32_t)length));
    CHECK(memcmp(out, listing, length) == 0);
    CHECK(allowed(kz_read_listing(&copy, out, length), 0));
    CHECK(memcmp(table, other, sizeof table) == 0 && copied.issued == 2);
    for (i = 0; i < sizeof wrong_listings / sizeof wrong_listings[0]; i++) {
        const uint8_t *text = (const uint8_t *)wrong_listings[i];
        CHECK(refused(kz_read_listing(&copy, text, strlen(wrong_listings[i])), KZ_MISSPELT));
    }
    CHECK(memcmp(table, other, sizeof table) == 0 && copied.issued == 2);
    CHECK(allowed(kz_check(&work, (const uint8_t *)trace, sizeof trace - 1, out, sizeof out),
                  (uint32_t)(15 + length)));
    CHECK(memcmp(out, "(refused 17 4)\n", 15) == 0 && memcmp(out + 15, listing, length) == 0);
}

/* The default sheet, by rising place. */
static const kz_sheet default_sheet = {{1, 1, 1, 0, 2, 2, 0, 0, 0, 0, 0, 2, 1, 1, 1, 0, 2, 2}};

/* A sheet of one result. */
static kz_sheet all_of(uint8_t result) {
    kz_sheet sheet;
    memset(&sheet, result, sizeof sheet);
    return sheet;
}

static int same_sheet(const kz_sheet *one, const kz_sheet *other) {
    return memcmp(one, other, sizeof *one) == 0;
}

/* What an access from there does to a capability of this kind, by a sheet. Of `table`, which is left as
   it is then, that one is 3. Where it comes from a stranger the parent of 3 is 2, a reference; else it
   is 1, and the access comes from 1, or from the cell 2. */
static uint32_t result_on(kz_cap table[3], const kz_sheet *sheet, uint32_t kind, uint32_t access,
                          uint32_t from) {
    static uint8_t written[KZ_WRITTEN_BYTES];
    kz_tally tally;
    const kz_lent lent = {table, 3, written, sizeof written, LENT_STATES, &tally, sheet, NULL, 0};
    const uint32_t user = from == KZ_FROM_CELL ? 2 : 1;
    const uint32_t parent = from == KZ_FROM_STRANGER ? 2 : 1;
    const kz_event event = event_of(access, user, 0, 8, 0);
    size_t i;
    memset(table, 0, 3 * sizeof *table);
    memset(written, 0, sizeof written);
    memset(&tally, 0, sizeof tally);
    CHECK(allowed(kz_create(&lent, 0, 64, KZ_RW), 1));
    CHECK(allowed(kz_borrow_as(&lent, 1, 0, 8, KZ_RW, user == 2 ? KZ_CELL : KZ_REFERENCE), 2));
    CHECK(allowed(kz_borrow_as(&lent, parent, 0, 8, KZ_RW, kind), 3));
    CHECK(allowed(kz_apply(&lent, &event), 0));
    CHECK(tally.refused == 0 && table[0].name == 1 && table[0].right == KZ_RW);
    for (i = 0; i < 3; i++) {
        if (table[i].name == 3) return table[i].right == KZ_RW ? KZ_KEEP : KZ_LOWER;
    }
    return KZ_END;
}

/* The default sheet is that of NULL, and any number from KZ_END on is one. */
static void check_sheet_of_default(void) {
    const kz_sheet ends = all_of(KZ_END), others[] = {all_of(KZ_END + 1), all_of(255)};
    kz_cap table[3], other[3];
    uint32_t kind, access, from;
    for (kind = 0; kind < 3; kind++) {
        for (access = KZ_READ; access <= KZ_WRITE; access++) {
            for (from = 0; from < 3; from++) {
                const uint32_t result = result_on(table, &default_sheet, kind, access, from);
                CHECK(result_on(other, NULL, kind, access, from) == result);
                CHECK(memcmp(table, other, sizeof table) == 0);
                CHECK(result_on(table, &ends, kind, access, from) == KZ_END);
                CHECK(result_on(other, &others[0], kind, access, from) == KZ_END);
                CHECK(memcmp(table, other, sizeof table) == 0);
                CHECK(result_on(other, &others[1], kind, access, from) == KZ_END);
                CHECK(memcmp(table, other, sizeof table) == 0);
            }
        }
    }
}

/* Each place of a sheet decides on its own combination and on no other. What a stranger strikes goes
   along with its parent, which the same access strikes as its kin. */
static void check_sheet_places(void) {
    static const uint32_t above[] = {KZ_WRITE + 1, 255, 256, 4294967295u};
    kz_cap table[3];
    uint32_t kind, access, from, place, result;
    size_t i;
    for (kind = 0; kind < 3; kind++) {
        for (access = KZ_READ; access <= KZ_WRITE; access++) {
            const size_t parents = kz_sheet_place(KZ_REFERENCE, access, KZ_FROM_KIN);
            for (from = 0; from < 3; from++) {
                const size_t own = kz_sheet_place(kind, access, from);
                CHECK(own == kind * 6 + (access - KZ_READ) * 3 + from);
                for (place = 0; place < KZ_SHEET_PLACES; place++) {
                    const int decides =
                        place == own || (from == KZ_FROM_STRANGER && place == parents);
                    for (result = KZ_KEEP; result <= KZ_END; result++) {
                        kz_sheet sheet = all_of(KZ_KEEP);
                        sheet.results[place] = (uint8_t)result;
                        CHECK(result_on(table, &sheet, kind, access, from) ==
                              (decides ? result : (uint32_t)KZ_KEEP));
                    }
                }
            }
        }
    }
    /* A number above those of its list counts as the last. */
    for (i = 0; i < sizeof above / sizeof above[0]; i++) {
        CHECK(kz_sheet_place(above[i], KZ_READ, KZ_FROM_KIN) == 13);
        CHECK(kz_sheet_place(KZ_RAW, above[i], KZ_FROM_CELL) == 9);
        CHECK(kz_sheet_place(KZ_RAW, KZ_READ, above[i]) == 8);
        CHECK(kz_sheet_place(above[i], above[i], above[i]) == KZ_SHEET_PLACES - 1);
    }
    CHECK(kz_sheet_place(3, KZ_READ, 3) == 14);
}

/* Sheets of one result: nothing is lost, all is lowered and stays, or all ends. A create is as a
   stranger's write. */
static void check_sheets_of_one_result(void) {
    static kz_cap table[6];
    static uint8_t written[KZ_WRITTEN_BYTES];
    static kz_tally tally;
    kz_sheet sheet = all_of(KZ_KEEP);
    const kz_lent lent = {table, 6, written, sizeof written, LENT_STATES, &tally, &sheet, NULL, 0};
    uint32_t i;
    CHECK(allowed(kz_create(&lent, 0, 16, KZ_RW), 1));
    CHECK(allowed(kz_borrow(&lent, 1, 0, 8, KZ_RW), 2));
    CHECK(allowed(kz_borrow_as(&lent, 1, 0, 8, KZ_RW, KZ_RAW), 3));
    CHECK(allowed(kz_borrow_as(&lent, 2, 0, 8, KZ_RW, KZ_CELL), 4));
    CHECK(allowed(kz_create(&lent, 0, 8, KZ_RW), 5));
    for (i = 1; i <= 5; i++) {
        CHECK(allowed(kz_write(&lent, i, 0, 8), 0));
        CHECK(allowed(kz_read(&lent, i, 0, 8), 0));
    }
    for (i = 0; i < 5; i++) CHECK(table[i].name == i + 1 && table[i].right == KZ_RW);
    /* The sheet is looked at anew in each call. 4 goes along with 2. */
    sheet = all_of(KZ_LOWER);
    CHECK(allowed(kz_write(&lent, 4, 0, 8), 0));
    for (i = 0; i < 5; i++) {
        CHECK(table[i].name == i + 1);
        CHECK(table[i].right == (uint32_t)(i == 2 || i == 4 ? KZ_RO : KZ_RW));
    }
    CHECK(refused(kz_write(&lent, 3, 0, 8), KZ_READ_ONLY));
    CHECK(allowed(kz_read(&lent, 3, 0, 8), 0));
    for (i = 1; i < 5; i++) CHECK(table[i].right == KZ_RO);
    CHECK(table[0].right == KZ_RW);
    CHECK(allowed(kz_create(&lent, 4, 1, KZ_RW), 6));
    for (i = 0; i < 6; i++) CHECK(table[i].right == (uint32_t)(i == 5 ? KZ_RW : KZ_RO));
    CHECK(refused(kz_create(&lent, 0, 8, KZ_RW), KZ_TABLE_FULL));
    sheet = all_of(KZ_END);
    CHECK(allowed(kz_read(&lent, 3, 0, 1), 0));
    CHECK(table[0].name == 1 && table[1].name == 3 && table[2].name == 6 && table[3].name == 0);
    CHECK(allowed(kz_create(&lent, 0, 8, KZ_RO), 7));
    CHECK(table[0].name == 7 && table[1].name == 0);
    CHECK(tally.issued == 7 && tally.creates == 4 && tally.borrows == 3);
    CHECK(tally.reads == 7 && tally.writes == 6 && tally.refused == 2);
}

/* A create goes by the place of a stranger's write alone, for the kind of what it touches. */
static void check_sheet_of_create(void) {
    static kz_cap table[4];
    static uint8_t written[KZ_WRITTEN_BYTES];
    static kz_tally tally;
    kz_sheet sheet = all_of(KZ_END);
    const kz_lent lent = {table, 4, written, sizeof written, LENT_STATES, &tally, &sheet, NULL, 0};
    CHECK(allowed(kz_create(&lent, 0, 16, KZ_RW), 1));
    CHECK(allowed(kz_borrow_as(&lent, 1, 0, 8, KZ_RW, KZ_RAW), 2));
    CHECK(allowed(kz_borrow_as(&lent, 1, 0, 8, KZ_RW, KZ_CELL), 3));
    sheet.results[kz_sheet_place(KZ_REFERENCE, KZ_WRITE, KZ_FROM_STRANGER)] = KZ_KEEP;
    sheet.results[kz_sheet_place(KZ_CELL, KZ_WRITE, KZ_FROM_STRANGER)] = KZ_LOWER;
    CHECK(allowed(kz_create(&lent, 0, 8, KZ_RW), 4));
    CHECK(table[0].name == 1 && table[0].right == KZ_RW);
    CHECK(table[1].name == 3 && table[1].right == KZ_RO);
    CHECK(table[2].name == 4 && table[2].right == KZ_RW && table[3].name == 0);
}

/* The sheet of a kz_lent goes with every call that takes events. What is dropped ends by any sheet. */
static void check_sheet_in_calls(void) {
    static const uint8_t trace[] = "(create 0 16 rw)\n(borrow 1 0 8 rw)\n(read 1 0 8)\n(write 2 0 8)\n";
    static const uint32_t refusals[] = {0, KZ_READ_ONLY, KZ_ENDED};
    static const uint32_t names[] = {1, 2};
    static kz_part part;
    kz_event events[5];
    uint32_t result;
    events[0] = event_of(KZ_CREATE, 0, 0, 16, KZ_RW);
    events[1] = event_of(KZ_BORROW, 1, 0, 8, KZ_RW);
    events[2] = event_of(KZ_READ, 1, 0, 8, 0);
    events[3] = event_of(KZ_WRITE, 2, 0, 8, 0);
    events[4] = event_of(KZ_DROP_ALL, 0, 0, 2, 0);
    for (result = KZ_KEEP; result <= KZ_END; result++) {
        const kz_sheet sheet = all_of((uint8_t)result);
        const uint32_t dropped = result == KZ_END ? KZ_ENDED : 0;
        kz_lent lent = kz_lend(&part);
        kz_answer answers[5], answer;
        lent.sheet = &sheet;
        memset(&part, 0, sizeof part);
        answer = kz_run(&lent, trace, sizeof trace - 1);
        CHECK(answer.refusal == refusals[result] && answer.value == 4);
        answer = kz_drop_all(&lent, names, 2);
        CHECK(answer.refusal == dropped && answer.value == 0);
        CHECK(part.table[0].name == (dropped == 0 ? 0u : 1u) && part.table[1].name == 0);
        memset(&part, 0, sizeof part);
        CHECK(kz_apply_all(&lent, events, 5, names, 2, answers) == 5);
        CHECK(allowed(answers[0], 1) && allowed(answers[1], 2) && allowed(answers[2], 0));
        CHECK(answers[3].refusal == refusals[result] && answers[3].value == 0);
        CHECK(answers[4].refusal == dropped && answers[4].value == 0);
        CHECK(part.table[0].name == (dropped == 0 ? 0u : 1u) && part.table[1].name == 0);
    }
}

/* The exported functions with fewer bytes than a sheet has, of which the missing ones end, with more,
   which are not looked at, and with none behind a pointer. */
static void check_sheet_bytes(void) {
    static const uint8_t made[] = "(create 0 8 rw)\n(borrow 1 0 8 rw)\n(borrow 1 0 8 rw cell)\n";
    static const uint8_t uses[] = "(read 3 0 8)\n(read 1 0 8)\n";
    static const struct {
        size_t length;
        uint32_t between, after[3]; /* the right of 2 after the first read, the names after both */
    } cases[] = {
        {0, KZ_RO, {1, 2, 3}},  {1, KZ_RW, {1, 0, 0}},  {2, KZ_RW, {1, 2, 0}},
        {18, KZ_RW, {1, 2, 3}}, {19, KZ_RW, {1, 2, 3}},
    };
    kz_event events[2];
    kz_answer answers[2];
    static uint8_t written[3][KZ_WRITTEN_BYTES];
    const size_t size = KZ_WRITTEN_BYTES;
    kz_cap tables[3][3];
    kz_tally tallies[3];
    uint8_t bytes[KZ_SHEET_PLACES + 1], text[KZ_MAX_SHEET], other[KZ_MAX_SHEET];
    size_t i, j;
    events[0] = event_of(KZ_READ, 3, 0, 8, 0);
    events[1] = event_of(KZ_READ, 1, 0, 8, 0);
    memset(bytes, KZ_KEEP, sizeof bytes);
    bytes[KZ_SHEET_PLACES] = KZ_END;
    for (i = 0; i < sizeof cases / sizeof cases[0]; i++) {
        const size_t length = cases[i].length;
        kz_sheet sheet = all_of(KZ_END);
        memset(tables, 0, sizeof tables);
        memset(written, 0, sizeof written);
        memset(tallies, 0, sizeof tallies);
        for (j = 0; j < 3; j++) {
            CHECK(kz_abi_run(tables[j], 3, written[j], size, STATES, &tallies[j], bytes, length,
                             NULL, 0, made, sizeof made - 1) == 3);
        }
        CHECK(kz_abi_apply(tables[0], 3, written[0], size, STATES, tallies, bytes, length, NULL, 0,
                           &events[0], NULL, 0) == 0);
        CHECK(tables[0][1].right == cases[i].between);
        CHECK(kz_abi_apply(tables[0], 3, written[0], size, STATES, tallies, bytes, length, NULL, 0,
                           &events[1], NULL, 0) == 0);
        for (j = 0; j < 3; j++) CHECK(tables[0][j].name == cases[i].after[j]);
        CHECK(kz_abi_apply_all(tables[1], 3, written[1], size, STATES, &tallies[1], bytes, length,
                               NULL, 0, events, 2, NULL, 0, answers, 2) == 2);
        CHECK(kz_abi_run(tables[2], 3, written[2], size, STATES, &tallies[2], bytes, length, NULL,
                         0, uses, sizeof uses - 1) == 2);
        for (j = 1; j < 3; j++) {
            CHECK(memcmp(tables[0], tables[j], sizeof tables[0]) == 0);
            CHECK(memcmp(&tallies[0], &tallies[j], sizeof tallies[0]) == 0);
        }
        memcpy(sheet.results, bytes, length < sizeof sheet ? length : sizeof sheet);
        answers[0] = kz_write_sheet(length == 0 ? NULL : &sheet, text, sizeof text);
        answers[1] = kz_abi_answer(kz_abi_write_sheet(bytes, length, other, sizeof other));
        CHECK(answers[0].refusal == 0 && memcmp(&answers[0], &answers[1], sizeof answers[0]) == 0);
        CHECK(memcmp(text, other, answers[0].value) == 0);
    }
}

static int reads_to(const uint8_t *text, size_t length, const kz_sheet *expected) {
    kz_sheet sheet = all_of(255);
    return allowed(kz_read_sheet(text, length, &sheet), 0) && same_sheet(&sheet, expected);
}

static void check_sheet_text(void) {
    /* The lines of examples/card6.sheet. */
    static const char lines[] =
        "(rule (holder reference cell) (access read) (from cell kin stranger) lower)\n"
        "(rule (holder raw) (access read) (from cell kin stranger) keep)\n"
        "(rule (holder reference raw cell) (access write) (from cell) keep)\n"
        "(rule (holder raw) (access write) (from kin) keep)\n"
        "(rule (holder reference cell) (access write) (from kin) end)\n"
        "(rule (holder reference raw cell) (access write) (from stranger) end)\n";
    static const char first[] = "(rule (holder reference) (access read) (from cell) lower)\n";
    static const char last[] = "(rule (holder cell) (access write) (from stranger) end)\n";
    const size_t length = 988, last_length = sizeof last - 1;
    const kz_sheet lowers = all_of(KZ_LOWER);
    kz_sheet sheet;
    uint8_t out[KZ_MAX_SHEET + 1];
    kz_answer answer;
    uint32_t turn, place;
    CHECK(reads_to((const uint8_t *)lines, sizeof lines - 1, &default_sheet));
    memset(out, '?', sizeof out);
    CHECK(refused(kz_write_sheet(NULL, out, length - 1), KZ_BUFFER_TOO_SHORT));
    for (place = 0; place < sizeof out; place++) CHECK(out[place] == '?');
    CHECK(allowed(kz_write_sheet(NULL, out, length), (uint32_t)length));
    CHECK(memcmp(out, first, sizeof first - 1) == 0 && out[length] == '?');
    CHECK(memcmp(out + length - last_length, last, last_length) == 0);
    CHECK(reads_to(out, length, &default_sheet));
    memset(out, '?', sizeof out);
    CHECK(allowed(kz_write_sheet(&default_sheet, out, sizeof out), (uint32_t)length));
    CHECK(memcmp(out, first, sizeof first - 1) == 0 && out[length] == '?');
    CHECK(reads_to(out, length, &default_sheet));
    /* The longest. */
    memset(out, '?', sizeof out);
    CHECK(refused(kz_write_sheet(&lowers, out, KZ_MAX_SHEET - 1), KZ_BUFFER_TOO_SHORT));
    for (place = 0; place < sizeof out; place++) CHECK(out[place] == '?');
    CHECK(allowed(kz_write_sheet(&lowers, out, KZ_MAX_SHEET), KZ_MAX_SHEET));
    CHECK(out[KZ_MAX_SHEET] == '?' && reads_to(out, KZ_MAX_SHEET, &lowers));
    /* Every number from KZ_END on is written and read back as KZ_END. */
    for (turn = 0; turn < 256; turn++) {
        kz_sheet expected;
        for (place = 0; place < KZ_SHEET_PLACES; place++) {
            const uint8_t result = (uint8_t)(place * (turn % 5 + 1) + turn);
            sheet.results[place] = result;
            expected.results[place] = result < KZ_END ? result : (uint8_t)KZ_END;
        }
        answer = kz_write_sheet(&sheet, out, KZ_MAX_SHEET);
        CHECK(answer.refusal == 0 && reads_to(out, answer.value, &expected));
    }
}

/* What is no sheet's text leaves the sheet as it was. The first refusal that applies to the whole text
   is given. */
static void check_wrong_sheet_text(void) {
#define RULE "(rule (holder raw) (access write) (from kin) keep)\n"
#define REST                                                                            \
    "(rule (holder reference cell) (access read write) (from cell kin stranger) end)\n" \
    "(rule (holder raw) (access read) (from cell kin stranger) end)\n"
    static const struct {
        const char *text;
        enum kz_refusal refusal;
    } cases[] = {
        {"\n", KZ_MISSPELT},
        {"(rule (holder raw) (access write) (from kin) keep)", KZ_MISSPELT},
        {RULE "\n", KZ_MISSPELT},
        {RULE " ", KZ_MISSPELT},
        {"(rule (holder raw) (access write) (from kin) keep)\r\n", KZ_MISSPELT},
        {"(rule (holder raw  cell) (access write) (from kin) keep)\n", KZ_MISSPELT},
        {"(rule (holder) (access write) (from kin) keep)\n", KZ_MISSPELT},
        {"(rule (access write) (holder raw) (from kin) keep)\n", KZ_MISSPELT},
        {"(rule (holder Raw) (access write) (from kin) keep)\n", KZ_MISSPELT},
        {"(rule (holder raw) (access drop) (from kin) keep)\n", KZ_MISSPELT},
        {"(rule (holder raw) (access write) (from raw) keep)\n", KZ_MISSPELT},
        {"(rule (holder raw) (access write) (from kin) raise)\n", KZ_MISSPELT},
        {RULE RULE "(rule (holder raw) (access write) (from kin) keep end)\n", KZ_MISSPELT},
        {RULE RULE, KZ_GIVEN_TWICE},
        {"(rule (holder raw raw) (access write) (from kin) keep)\n", KZ_GIVEN_TWICE},
        {"(rule (holder raw) (access write read write) (from kin) keep)\n", KZ_GIVEN_TWICE},
        {"(rule (holder raw) (access write) (from kin kin) keep)\n", KZ_GIVEN_TWICE},
        {REST RULE "(rule (holder raw) (access write) (from cell kin) end)\n", KZ_GIVEN_TWICE},
        {"", KZ_NOT_GIVEN},
        {RULE, KZ_NOT_GIVEN},
        {REST RULE "(rule (holder raw) (access write) (from cell) end)\n", KZ_NOT_GIVEN},
    };
    static const char whole[] =
        REST RULE "(rule (holder raw) (access write) (from stranger cell) end)\n";
    const kz_sheet untouched = all_of(77);
    kz_sheet sheet = all_of(KZ_END);
    size_t i;
    sheet.results[kz_sheet_place(KZ_RAW, KZ_WRITE, KZ_FROM_KIN)] = KZ_KEEP;
    CHECK(reads_to((const uint8_t *)whole, sizeof whole - 1, &sheet));
    sheet = untouched;
    for (i = 0; i < sizeof cases / sizeof cases[0]; i++) {
        const uint8_t *text = (const uint8_t *)cases[i].text;
        CHECK(refused(kz_read_sheet(text, strlen(cases[i].text), &sheet), cases[i].refusal));
        CHECK(same_sheet(&sheet, &untouched));
    }
    CHECK(refused(kz_read_sheet(NULL, 0, &sheet), KZ_NOT_GIVEN));
    CHECK(refused(kz_write_sheet(NULL, NULL, 0), KZ_BUFFER_TOO_SHORT));
    CHECK(same_sheet(&sheet, &untouched));
#undef RULE
#undef REST
}

/* Lists of events and columns, with room for two entries more than there can be. Where nothing was
   written each byte is UNTOUCHED, which is no kind and no right. */
enum { LIST_ROOM = KZ_MAX_COLUMN_EVENTS + 2, UNTOUCHED = 0xee };

static struct lists {
    kz_event events[LIST_ROOM];
    uint32_t names[LIST_ROOM], starts[LIST_ROOM], lengths[LIST_ROOM];
    uint8_t kinds[LIST_ROOM], rights[LIST_ROOM];
} lists, expected;

static void clear_lists(void) {
    memset(&lists, UNTOUCHED, sizeof lists);
}

/* What the lists have is expected to stay, but for what is changed there. */
static void expect_lists(void) {
    memcpy(&expected, &lists, sizeof lists);
}

static int as_expected(void) {
    return memcmp(&lists, &expected, sizeof lists) == 0;
}

/* Counts that no call gives. */
static const kz_counts other_counts = {61, 62, 63, 64, 65, 66};

static int same_counts(const kz_counts *one, const kz_counts *other) {
    return memcmp(one, other, sizeof *one) == 0;
}

static int counted(const kz_counts *used, size_t events, size_t names, size_t spans,
                   size_t rights) {
    return used->events == events && used->kinds == events && used->names == names &&
           used->starts == spans && used->lengths == spans && used->rights == rights;
}

/* The columns of the lists, with so many entries of each. */
static kz_columns lend_columns(size_t kinds, size_t names, size_t spans, size_t rights) {
    const kz_columns columns = {lists.kinds,   kinds, lists.names,  names,  lists.starts, spans,
                                lists.lengths, spans, lists.rights, rights, other_counts};
    return columns;
}

static kz_columns lend_all(void) {
    return lend_columns(LIST_ROOM, LIST_ROOM, LIST_ROOM, LIST_ROOM);
}

/* The length of a column by its number, from the kinds on. */
enum { COLUMNS = 5 };

static size_t *length_of(kz_columns *columns, size_t column) {
    switch (column) {
    case 0:
        return &columns->kinds_len;
    case 1:
        return &columns->names_len;
    case 2:
        return &columns->starts_len;
    case 3:
        return &columns->lengths_len;
    default:
        return &columns->rights_len;
    }
}

/* Whether events are refused so, and nothing is touched. */
static int not_to_columns(const kz_event *events, size_t count, kz_columns columns,
                          enum kz_refusal refusal) {
    expect_lists();
    return refused(kz_to_columns(events, count, &columns), refusal) && as_expected() &&
           same_counts(&columns.used, &other_counts);
}

/* The same of columns. */
static int not_from_columns(kz_columns columns, size_t room, enum kz_refusal refusal) {
    expect_lists();
    return refused(kz_from_columns(&columns, lists.events, room), refusal) && as_expected() &&
           same_counts(&columns.used, &other_counts);
}

/* Events of each kind, with numbers as small and as large as can be, and how many entries they need. */
enum { MIXED = 7, MIXED_NAMES = 5, MIXED_SPANS = 6, MIXED_RIGHTS = 3 };

static const kz_event mixed[MIXED] = {
    {KZ_CREATE, 0, 0, 64, KZ_RW, 0, 0, 0, 0, 0, 1, 0},
    {KZ_BORROW, 1, 8, 16, KZ_RO, 0, 0, 0, 0, 0, 1, 0},
    {KZ_READ, 2, 9, 0, 0, 0, 0, 0, 0, 0, 0, 0},
    {KZ_CREATE, 0, 4294967295u, 4294967295u, KZ_RO, 0, 0, 0, 0, 0, 1, 0},
    {KZ_DROP, 4294967295u, 0, 0, 0, 0, 0, 0, 0, 0, 0, 0},
    {KZ_WRITE, 1, 32, 4294967295u, 0, 0, 0, 0, 0, 0, 0, 0},
    {KZ_READ, 0, 4294967295u, 1, 0, 0, 0, 0, 0, 0, 0, 0},
};

static kz_columns lend_mixed(void) {
    return lend_columns(MIXED, MIXED_NAMES, MIXED_SPANS, MIXED_RIGHTS);
}

/* The lists with nothing but their entries. */
static void expect_mixed(void) {
    static const uint8_t kinds[MIXED] = {1, 2, 3, 1, 5, 4, 3};
    static const uint32_t names[MIXED_NAMES] = {1, 2, 4294967295u, 1, 0};
    static const uint32_t starts[MIXED_SPANS] = {0, 8, 9, 4294967295u, 32, 4294967295u};
    static const uint32_t lengths[MIXED_SPANS] = {64, 16, 0, 4294967295u, 4294967295u, 1};
    static const uint8_t rights[MIXED_RIGHTS] = {2, 1, 1};
    memset(&expected, UNTOUCHED, sizeof expected);
    memcpy(expected.kinds, kinds, sizeof kinds);
    memcpy(expected.names, names, sizeof names);
    memcpy(expected.starts, starts, sizeof starts);
    memcpy(expected.lengths, lengths, sizeof lengths);
    memcpy(expected.rights, rights, sizeof rights);
}

/* There, with this room, and back from just what was used, with this room for events. */
static void check_there_and_back(kz_columns columns, size_t room) {
    kz_columns used;
    clear_lists();
    CHECK(allowed(kz_to_columns(mixed, MIXED, &columns), MIXED));
    CHECK(counted(&columns.used, MIXED, MIXED_NAMES, MIXED_SPANS, MIXED_RIGHTS));
    expect_mixed();
    CHECK(as_expected());
    used = kz_columns_used(&columns);
    used.used = other_counts;
    memcpy(expected.events, mixed, sizeof mixed);
    CHECK(allowed(kz_from_columns(&used, lists.events, room), MIXED));
    CHECK(same_counts(&used.used, &columns.used));
    CHECK(as_expected());
}

static void check_columns(void) {
    kz_columns columns = lend_all(), used;
    check_there_and_back(lend_all(), LIST_ROOM);
    check_there_and_back(lend_mixed(), MIXED);
    CHECK(allowed(kz_to_columns(mixed, MIXED, &columns), MIXED));
    CHECK(columns.kinds_len == LIST_ROOM && columns.rights_len == LIST_ROOM);
    used = kz_columns_used(&columns);
    CHECK(used.kinds == lists.kinds && used.kinds_len == MIXED);
    CHECK(used.names == lists.names && used.names_len == MIXED_NAMES);
    CHECK(used.starts == lists.starts && used.starts_len == MIXED_SPANS);
    CHECK(used.lengths == lists.lengths && used.lengths_len == MIXED_SPANS);
    CHECK(used.rights == lists.rights && used.rights_len == MIXED_RIGHTS);
    CHECK(same_counts(&used.used, &columns.used));
}

/* Each kind by itself: the entries that it has, and its line, which reads to the very same event. */
static void check_columns_of_kinds(void) {
    static const struct {
        const char *line;
        kz_event event;
        uint32_t names, spans, rights;
    } cases[] = {
        {"(create 5 6 ro)\n", {1, 0, 5, 6, 1, 0, 0, 0, 0, 0, 1, 0}, 0, 1, 1},
        {"(borrow 4 5 6 rw)\n", {2, 4, 5, 6, 2, 0, 0, 0, 0, 0, 1, 0}, 1, 1, 1},
        {"(read 4 5 6)\n", {3, 4, 5, 6, 0, 0, 0, 0, 0, 0, 0, 0}, 1, 1, 0},
        {"(write 4 5 6)\n", {4, 4, 5, 6, 0, 0, 0, 0, 0, 0, 0, 0}, 1, 1, 0},
        {"(drop 4)\n", {5, 4, 0, 0, 0, 0, 0, 0, 0, 0, 0, 0}, 1, 0, 0},
    };
    size_t i;
    for (i = 0; i < sizeof cases / sizeof cases[0]; i++) {
        const kz_event *event = &cases[i].event;
        const uint32_t names = cases[i].names, spans = cases[i].spans, rights = cases[i].rights;
        kz_columns columns = lend_columns(1, names, spans, rights);
        clear_lists();
        expect_lists();
        expected.kinds[0] = (uint8_t)event->kind;
        if (names != 0) expected.names[0] = event->name;
        if (spans != 0) expected.starts[0] = event->start;
        if (spans != 0) expected.lengths[0] = event->length;
        if (rights != 0) expected.rights[0] = (uint8_t)event->right;
        CHECK(reads_as(0, cases[i].line, event));
        CHECK(allowed(kz_to_columns(event, 1, &columns), 1));
        CHECK(counted(&columns.used, 1, names, spans, rights));
        CHECK(as_expected());
        columns.used = other_counts;
        expected.events[0] = *event;
        CHECK(allowed(kz_from_columns(&columns, lists.events, LIST_ROOM), 1));
        CHECK(counted(&columns.used, 1, names, spans, rights));
        CHECK(as_expected());
    }
}

/* Whether an event of this kind may have this number in this of its twelve words, in place of another. */
static int may_have(uint32_t kind, size_t word, uint32_t number) {
    switch (word) {
    case 1:
        return kind != KZ_CREATE;
    case 2:
    case 3:
        return kind != KZ_DROP;
    case 4:
        return (kind == KZ_CREATE || kind == KZ_BORROW) && (number == KZ_RO || number == KZ_RW);
    default:
        return 0;
    }
}

/* The events with this number in a word of one of them. */
static void check_word(size_t at, size_t word, uint32_t number) {
    kz_columns columns = lend_mixed();
    kz_event events[MIXED];
    uint32_t words[12];
    memcpy(events, mixed, sizeof mixed);
    memcpy(words, &mixed[at], sizeof words);
    if (words[word] == number) return;
    words[word] = number;
    memcpy(&events[at], words, sizeof words);
    if (may_have(mixed[at].kind, word, number)) {
        CHECK(allowed(kz_to_columns(events, MIXED, &columns), MIXED));
        CHECK(allowed(kz_from_columns(&columns, lists.events, MIXED), MIXED));
        CHECK(memcmp(lists.events, events, sizeof events) == 0);
    } else {
        CHECK(not_to_columns(events, MIXED, columns, KZ_MISSPELT));
    }
}

/* Every word of every kind with other numbers. That of the kind gets no other kind, since some have the
   same values. */
static void check_wrong_column_events(void) {
    static const uint32_t numbers[] = {0,   1,   2,   3,   4,     5,     6,           7,          8,
                                       255, 256, 257, 258, 65536, 65537, 2147483648u, 4294967295u};
    static const uint32_t kinds[] = {0, 6, 7, 8, 9, 255, 256, 257, 258, 261, 65537, 4294967295u};
    size_t at, word, i;
    for (at = 0; at < MIXED; at++) {
        for (i = 0; i < sizeof kinds / sizeof kinds[0]; i++) check_word(at, 0, kinds[i]);
        for (word = 1; word < 12; word++) {
            for (i = 0; i < sizeof numbers / sizeof numbers[0]; i++)
                check_word(at, word, numbers[i]);
        }
    }
}

/* Lines that a trace may have, and whose events have no columns. */
static void check_events_without_columns(void) {
    static const struct {
        uint32_t named;
        const char *line;
    } cases[] = {
        {1, "(create 1 0 8 rw)\n"},
        {1, "(borrow 2 1 0 8 rw)\n"},
        {0, "(create 0 8 rw fresh)\n"},
        {0, "(create 0 8 rw 0000000000000003)\n"},
        {0, "(borrow 1 0 8 rw raw)\n"},
        {0, "(borrow 1 0 8 rw cell)\n"},
        {0, "(borrow 1 0 8 rw 8000000000000001)\n"},
        {0, "(as 1 (create 0 8 rw))\n"},
        {0, "(as 63 (drop 1))\n"},
        {0, "(drop 1 2)\n"},
        {0, "(mark 0)\n"},
        {0, "(back 0)\n"},
    };
    const kz_event alone = event_of(KZ_DROP_ALL, 0, 0, 1, 0);
    uint32_t names[KZ_MAX_GROUP];
    size_t i;
    for (i = 0; i < sizeof cases / sizeof cases[0]; i++) {
        const uint8_t *line = (const uint8_t *)cases[i].line;
        const size_t length = strlen(cases[i].line);
        kz_event event;
        CHECK(allowed(kz_read_event(cases[i].named, line, length, &event, names), 0));
        CHECK(not_to_columns(&event, 1, lend_all(), KZ_MISSPELT));
    }
    CHECK(not_to_columns(&alone, 1, lend_all(), KZ_MISSPELT));
}

/* Each list too short in its turn, from one entry to all of them. Events and columns that are wrong
   besides are refused for that. */
static void check_short_columns(void) {
    static const size_t needed[COLUMNS] = {MIXED, MIXED_NAMES, MIXED_SPANS, MIXED_SPANS,
                                           MIXED_RIGHTS};
    kz_columns columns = lend_mixed();
    kz_event wrong[MIXED];
    size_t column, room;
    memcpy(wrong, mixed, sizeof mixed);
    wrong[MIXED - 1].actor = 1;
    clear_lists();
    for (column = 0; column < COLUMNS; column++) {
        for (room = 0; room < needed[column]; room++) {
            kz_columns shorter = lend_all();
            *length_of(&shorter, column) = room;
            CHECK(not_to_columns(mixed, MIXED, shorter, KZ_BUFFER_TOO_SHORT));
            CHECK(not_to_columns(wrong, MIXED, shorter, KZ_MISSPELT));
        }
    }
    CHECK(allowed(kz_to_columns(mixed, MIXED, &columns), MIXED));
    columns.used = other_counts;
    for (room = 0; room < MIXED; room++) {
        CHECK(not_from_columns(columns, room, KZ_BUFFER_TOO_SHORT));
        lists.rights[MIXED_RIGHTS - 1] = 3;
        CHECK(not_from_columns(columns, room, KZ_MISSPELT));
        lists.rights[MIXED_RIGHTS - 1] = KZ_RO;
    }
}

/* Columns with one entry more or one less than the kinds ask for, whatever the room for events. What
   stands behind the columns is a kind and a right, so that only the lengths are wrong. */
static void check_column_lengths(void) {
    static const size_t rooms[] = {0, MIXED - 1, MIXED, LIST_ROOM};
    kz_columns columns = lend_mixed();
    size_t column, i;
    clear_lists();
    CHECK(allowed(kz_to_columns(mixed, MIXED, &columns), MIXED));
    lists.kinds[MIXED] = KZ_DROP;
    lists.rights[MIXED_RIGHTS] = KZ_RW;
    for (i = 0; i < sizeof rooms / sizeof rooms[0]; i++) {
        for (column = 0; column < COLUMNS; column++) {
            kz_columns other = lend_mixed();
            ++*length_of(&other, column);
            CHECK(not_from_columns(other, rooms[i], KZ_MISSPELT));
            *length_of(&other, column) -= 2;
            CHECK(not_from_columns(other, rooms[i], KZ_MISSPELT));
        }
        CHECK(not_from_columns(lend_columns(MIXED, MIXED_NAMES, MIXED_SPANS + 1, MIXED_RIGHTS),
                               rooms[i], KZ_MISSPELT));
        CHECK(not_from_columns(lend_columns(MIXED, MIXED_NAMES, MIXED_SPANS - 1, MIXED_RIGHTS),
                               rooms[i], KZ_MISSPELT));
    }
}

/* Another of the five kinds asks for other entries, except that a read and a write have the same. */
static int asks_for_the_same(uint8_t one, uint8_t other) {
    return one == other || (one == KZ_READ && other == KZ_WRITE) ||
           (one == KZ_WRITE && other == KZ_READ);
}

/* Numbers that are no kind and no right, and kinds that the other columns are not for, at each place. */
static void check_wrong_columns(void) {
    static const uint8_t numbers[] = {0, 1, 2, 3, 4, 5, 6, 7, 8, 128, 255};
    kz_columns columns = lend_mixed();
    size_t at, i;
    clear_lists();
    CHECK(allowed(kz_to_columns(mixed, MIXED, &columns), MIXED));
    for (i = 0; i < sizeof numbers; i++) {
        for (at = 0; at < MIXED; at++) {
            const uint8_t kind = lists.kinds[at];
            if (asks_for_the_same(kind, numbers[i])) continue;
            lists.kinds[at] = numbers[i];
            CHECK(not_from_columns(lend_mixed(), LIST_ROOM, KZ_MISSPELT));
            lists.kinds[at] = kind;
        }
        for (at = 0; at < MIXED_RIGHTS; at++) {
            const uint8_t right = lists.rights[at];
            if (numbers[i] == KZ_RO || numbers[i] == KZ_RW) continue;
            lists.rights[at] = numbers[i];
            CHECK(not_from_columns(lend_mixed(), LIST_ROOM, KZ_MISSPELT));
            lists.rights[at] = right;
        }
    }
    lists.kinds[2] = KZ_WRITE;
    lists.rights[0] = KZ_RO;
    CHECK(allowed(kz_from_columns(&columns, lists.events, LIST_ROOM), MIXED));
    CHECK(lists.events[2].kind == KZ_WRITE && lists.events[0].right == KZ_RO);
}

/* Columns that were filled by hand, taken to events, and those put into columns again. */
static void check_back_and_there(void) {
    static const uint32_t numbers[] = {7, 0, 4294967295u, 9, 7};
    static const uint8_t kinds[] = {5, 4, 4, 2, 3, 1}, rights[] = {1, 2};
    static kz_event events[6];
    kz_columns columns = lend_columns(6, 5, 5, 2);
    clear_lists();
    memcpy(lists.kinds, kinds, sizeof kinds);
    memcpy(lists.names, numbers, sizeof numbers);
    memcpy(lists.starts, numbers, sizeof numbers);
    memcpy(lists.lengths, numbers, sizeof numbers);
    memcpy(lists.rights, rights, sizeof rights);
    expect_lists();
    CHECK(allowed(kz_from_columns(&columns, events, 6), 6));
    CHECK(counted(&columns.used, 6, 5, 5, 2));
    CHECK(events[0].kind == KZ_DROP && events[0].name == 7 && events[0].start == 0);
    CHECK(events[3].kind == KZ_BORROW && events[3].name == 9 && events[3].right == KZ_RO);
    CHECK(events[5].kind == KZ_CREATE && events[5].start == 7 && events[5].holders_low == 1);
    clear_lists();
    columns.used = other_counts;
    CHECK(allowed(kz_to_columns(events, 6, &columns), 6));
    CHECK(counted(&columns.used, 6, 5, 5, 2));
    CHECK(as_expected());
}

/* As many events as there may be, and one more, which is refused though a list is too short besides. */
static void check_most_columns(void) {
    static kz_event events[KZ_MAX_COLUMN_EVENTS + 1];
    const uint32_t most = KZ_MAX_COLUMN_EVENTS;
    kz_columns columns = lend_columns(most, most, most, most);
    uint32_t i;
    for (i = 0; i <= most; i++) events[i] = event_of(KZ_BORROW, i, most - i, 4, KZ_RO);
    clear_lists();
    expect_lists();
    for (i = 0; i < most; i++) {
        expected.events[i] = events[i];
        expected.kinds[i] = KZ_BORROW;
        expected.names[i] = i;
        expected.starts[i] = most - i;
        expected.lengths[i] = 4;
        expected.rights[i] = KZ_RO;
    }
    CHECK(allowed(kz_to_columns(events, most, &columns), most));
    CHECK(counted(&columns.used, most, most, most, most));
    CHECK(allowed(kz_from_columns(&columns, lists.events, most), most));
    CHECK(counted(&columns.used, most, most, most, most));
    CHECK(as_expected());
    columns = lend_columns(most, most, most, most - 1);
    CHECK(not_to_columns(events, most, columns, KZ_BUFFER_TOO_SHORT));
    CHECK(not_to_columns(events, most + 1, columns, KZ_MISSPELT));
    columns = lend_columns(most + 1, most + 1, most + 1, most + 1);
    CHECK(not_to_columns(events, most + 1, columns, KZ_MISSPELT));
    lists.kinds[most] = KZ_BORROW;
    lists.rights[most] = KZ_RO;
    CHECK(not_from_columns(columns, most + 1, KZ_MISSPELT));
    CHECK(not_from_columns(columns, most, KZ_MISSPELT));
    CHECK(not_from_columns(columns, 0, KZ_MISSPELT));
    columns = lend_columns(most, most, most, most);
    CHECK(not_from_columns(columns, most - 1, KZ_BUFFER_TOO_SHORT));
}

/* No events need no entries, and those that are lent for them stay. */
static void check_no_columns(void) {
    const kz_columns none = {NULL, 0, NULL, 0, NULL, 0, NULL, 0, NULL, 0, other_counts};
    kz_columns columns = none;
    CHECK(allowed(kz_to_columns(NULL, 0, &columns), 0));
    CHECK(counted(&columns.used, 0, 0, 0, 0));
    columns = none;
    CHECK(allowed(kz_from_columns(&columns, NULL, 0), 0));
    CHECK(counted(&columns.used, 0, 0, 0, 0));
    clear_lists();
    expect_lists();
    columns = lend_all();
    CHECK(allowed(kz_to_columns(NULL, 0, &columns), 0));
    CHECK(counted(&columns.used, 0, 0, 0, 0));
    columns = kz_columns_used(&columns);
    columns.used = other_counts;
    CHECK(allowed(kz_from_columns(&columns, lists.events, LIST_ROOM), 0));
    CHECK(counted(&columns.used, 0, 0, 0, 0));
    CHECK(as_expected());
    CHECK(not_to_columns(mixed, 1, none, KZ_BUFFER_TOO_SHORT));
    lists.kinds[0] = KZ_DROP;
    CHECK(not_from_columns(lend_columns(1, 0, 0, 0), LIST_ROOM, KZ_MISSPELT));
    CHECK(not_from_columns(lend_columns(1, 1, 0, 0), 0, KZ_BUFFER_TOO_SHORT));
    CHECK(not_from_columns(lend_columns(0, 1, 0, 0), 0, KZ_MISSPELT));
    CHECK(not_from_columns(lend_columns(0, 0, 1, 0), 0, KZ_MISSPELT));
    CHECK(not_from_columns(lend_columns(0, 0, 0, 1), 0, KZ_MISSPELT));
}

/* The exported functions, which have each list by itself and answer one number. */
static void check_columns_exported(void) {
    const uint64_t misspelt = (uint64_t)KZ_MISSPELT << 32;
    const uint64_t too_short = (uint64_t)KZ_BUFFER_TOO_SHORT << 32;
    const uint8_t kind = KZ_DROP;
    const uint32_t name = 9;
    kz_counts used = other_counts;
    clear_lists();
    CHECK(kz_abi_to_columns(mixed, MIXED, lists.kinds, MIXED, lists.names, MIXED_NAMES,
                            lists.starts, MIXED_SPANS, lists.lengths, MIXED_SPANS, lists.rights,
                            MIXED_RIGHTS, &used) == MIXED);
    CHECK(counted(&used, MIXED, MIXED_NAMES, MIXED_SPANS, MIXED_RIGHTS));
    expect_mixed();
    CHECK(as_expected());
    CHECK(kz_abi_from_columns(&kind, 1, &name, 1, NULL, 0, NULL, 0, NULL, 0, lists.events, 1,
                              &used) == 1);
    CHECK(counted(&used, 1, 1, 0, 0));
    CHECK(lists.events[0].kind == KZ_DROP && lists.events[0].name == 9);
    used = other_counts;
    CHECK(kz_abi_to_columns(mixed, 1, NULL, 0, NULL, 0, NULL, 0, NULL, 0, NULL, 0, &used) ==
          too_short);
    CHECK(kz_abi_from_columns(&kind, 1, &name, 1, NULL, 0, NULL, 0, NULL, 0, NULL, 0, &used) ==
          too_short);
    CHECK(kz_abi_from_columns(&kind, 1, NULL, 0, NULL, 0, NULL, 0, NULL, 0, lists.events, 1,
                              &used) == misspelt);
    CHECK(same_counts(&used, &other_counts));
}

/* What is reported of a text with these lengths. Every word of the report is written, and the answer says
   the same. */
static kz_sizing sizes_of(const uint8_t *text, size_t text_len, const uint32_t *lengths,
                          size_t count) {
    kz_sizing report;
    kz_answer answer;
    memset(&report, UNTOUCHED, sizeof report);
    answer = kz_sizes(text, text_len, lengths, count, &report);
    CHECK(answer.refusal == report.refusal && answer.value == report.rows);
    return report;
}

/* The same of so many clients, with these traces. */
static kz_sizing sizes_of_traces(const char *const *traces, size_t count) {
    static uint8_t text[1024];
    uint32_t lengths[KZ_MAX_CLIENTS + 1];
    size_t length = 0, i;
    for (i = 0; i < count; i++) {
        lengths[i] = (uint32_t)strlen(traces[i]);
        memcpy(text + length, traces[i], lengths[i]);
        length += lengths[i];
    }
    return sizes_of(text, length, lengths, count);
}

static int reported(kz_sizing report, uint32_t refusal, uint32_t rows, uint32_t client,
                    uint32_t line) {
    return report.refusal == refusal && report.rows == rows && report.client == client &&
           report.line == line;
}

static int all_fit(kz_sizing report, uint32_t rows) {
    return reported(report, 0, rows, 0, 0);
}

static int line_refused(kz_sizing report, enum kz_refusal refusal, uint32_t client, uint32_t line) {
    return reported(report, (uint32_t)refusal, 0, client, line);
}

/* Lengths that are refused before any line is. */
static int lengths_refused(kz_sizing report) {
    return line_refused(report, KZ_MISSPELT, 0, 0);
}

/* One client: its number of rows is the smallest table on which its trace runs. */
static void check_sizes_of_one(void) {
    static const struct {
        const char *trace;
        uint32_t rows;
    } cases[] = {
        {"", 0},
        {"(create 0 8 rw)\n", 1},
        {"(create 0 0 ro)\n", 1},
        {"(create 0 8 rw)\n(read 1 0 8)\n(write 1 0 8)\n(drop 1)\n", 1},
        {"(create 0 8 rw)\n(drop 1)\n(create 0 8 rw)\n(drop 2)\n", 1},
        {"(create 0 8 rw)\n(create 0 8 rw)\n", 2}, /* full before it ends the first */
        {"(create 0 8 rw)\n(create 8 8 rw)\n(drop 2)\n(create 8 8 rw)\n(drop 1)\n", 2},
        {"(create 0 8 rw)\n(borrow 1 0 8 rw)\n(borrow 2 0 8 ro)\n(borrow 3 0 4 ro)\n", 4},
        {"(create 0 8 rw)\n(borrow 1 0 8 rw)\n(write 1 0 8)\n(borrow 1 0 8 rw)\n", 2},
    };
    static kz_part part;
    size_t i;
    for (i = 0; i < sizeof cases / sizeof cases[0]; i++) {
        const uint8_t *text = (const uint8_t *)cases[i].trace;
        const size_t length = strlen(cases[i].trace);
        kz_lent lent = kz_lend(&part);
        CHECK(all_fit(sizes_of_traces(&cases[i].trace, 1), cases[i].rows));
        memset(&part, 0, sizeof part);
        lent.rows = cases[i].rows;
        CHECK(kz_run(&lent, text, length).refusal == 0);
        if (cases[i].rows == 0) continue;
        memset(&part, 0, sizeof part);
        lent.rows = cases[i].rows - 1;
        CHECK(kz_run(&lent, text, length).refusal == KZ_TABLE_FULL);
    }
}

/* How many clients the cases have, some of them with an empty trace. */
enum { FEW = 3 };

/* Lines in turn, clients that are finished passed over, names counted in each, addresses shared. */
static void check_sizes_in_turn(void) {
    static const struct {
        const char *traces[FEW];
        uint32_t rows;
    } cases[] = {
        {{"", "", ""}, 0},
        {{"(create 0 8 rw)\n", "", "(create 8 8 rw)\n"}, 2},
        {{"(create 0 8 rw)\n(write 1 0 8)\n(drop 1)\n",
          "(create 8 8 rw)\n(write 1 8 8)\n(drop 1)\n",
          "(create 16 8 rw)\n(write 1 16 8)\n(drop 1)\n"},
         3},
        /* Who goes first matters: the drop comes before the borrow, or behind it. */
        {{"(create 0 8 rw)\n(drop 1)\n", "(create 8 8 rw)\n(borrow 1 8 8 rw)\n", ""}, 2},
        {{"(create 8 8 rw)\n(borrow 1 8 8 rw)\n", "(create 0 8 rw)\n(drop 1)\n", ""}, 3},
        /* The second goes on alone where the first and the third are finished. */
        {{"(create 0 8 rw)\n",
          "(create 8 8 rw)\n(borrow 1 8 8 rw)\n(borrow 2 8 8 rw)\n(read 3 8 8)\n(drop 2)\n",
          "(create 16 8 rw)\n(drop 1)\n"},
         4},
        /* The second takes the first's memory, which the first does not use again. */
        {{"(create 0 8 rw)\n(borrow 1 0 8 rw)\n", "(create 64 8 rw)\n(create 0 8 rw)\n",
          "(create 72 8 rw)\n(create 80 8 rw)\n"},
         5},
    };
    size_t i;
    for (i = 0; i < sizeof cases / sizeof cases[0]; i++)
        CHECK(all_fit(sizes_of_traces(cases[i].traces, FEW), cases[i].rows));
}

/* The first refusal in turn, with its client and its line there. */
static void check_sizes_refused(void) {
    static const struct {
        const char *traces[FEW];
        enum kz_refusal refusal;
        uint32_t client, line;
    } cases[] = {
        {{"(drop 1)\n", "", ""}, KZ_UNISSUED, 1, 1},
        {{"", "", "(drop 1)\n"}, KZ_UNISSUED, 3, 1},
        {{"(create 0 8 rw)\n", "(read 1 0 8)\n", ""}, KZ_UNISSUED, 2, 1},
        {{"(create 0 8 rw)\n(read 2 0 8)\n(create 8 8 rw)\n", "(create 16 8 rw)\n", ""},
         KZ_UNISSUED, 1, 2},
        {{"(create 0 8 rw)\n", "(create 8 8 rw)\n(read 0 8 8)\n", ""}, KZ_UNISSUED, 2, 2},
        {{"(create 0 8 rw)\n", "(read 4294967295 8 8)\n", ""}, KZ_UNISSUED, 2, 1},
        {{"(create 0 8 rw)\n", "(read 1 4294967295 2)\n", ""}, KZ_ILLEGAL_SPAN, 2, 1},
        {{"(create 0 8 rw)\n(drop 1)\n(drop 1)\n", "(create 8 8 rw)\n(drop 1)\n", ""},
         KZ_ENDED, 1, 3},
        {{"(create 0 8 rw)\n(read 1 0 8)\n", "(create 0 8 rw)\n", ""}, KZ_ENDED, 1, 2},
        {{"(create 0 8 rw)\n", "(create 8 8 rw)\n(read 1 0 8)\n", ""}, KZ_OUTSIDE_SPAN, 2, 2},
        {{"(create 0 8 rw)\n(borrow 1 0 8 rw)\n(read 1 0 8)\n(write 2 0 8)\n", "", ""},
         KZ_READ_ONLY, 1, 4},
        /* A line is judged in its turn, so the other's first comes before this one's second. */
        {{"(create 0 8 rw)\nno line\n", "(create 8 8 rw)\n", "(drop 2)\n"}, KZ_UNISSUED, 3, 1},
        {{"(create 0 8 rw)\nno line\n", "(create 8 8 rw)\n(drop 2)\n", ""}, KZ_MISSPELT, 1, 2},
        {{"", "(create 0 8 rw)\n", "(create 8 8 rw)"}, KZ_MISSPELT, 3, 1},
    };
    size_t i;
    for (i = 0; i < sizeof cases / sizeof cases[0]; i++) {
        const kz_sizing report = sizes_of_traces(cases[i].traces, FEW);
        CHECK(line_refused(report, cases[i].refusal, cases[i].client, cases[i].line));
    }
}

/* Lines that are read elsewhere and have other words than a client's, and such as are read nowhere. */
static void check_sizes_of_other_lines(void) {
    static const char *const lines[] = {
        "(trace 2)\n",
        "(create 1 0 8 rw)\n",
        "(create 0 8 rw fresh)\n",
        "(create 0 8 rw 0000000000000003)\n",
        "(create 0 8 rw 0000000000000001)\n",
        "(borrow 2 1 0 8 rw)\n",
        "(borrow 1 0 8 rw raw)\n",
        "(borrow 1 0 8 rw cell)\n",
        "(borrow 1 0 8 rw 8000000000000001)\n",
        "(as 1 (create 0 8 rw))\n",
        "(as 0 (read 1 0 8))\n",
        "(drop 1 2)\n",
        "(mark 0)\n",
        "(back 0)\n",
        "\n",
        "(drop 1)",
        "(drop 01)\n",
        "(drop 4294967296)\n",
        " (drop 1)\n",
        "(drop 1)\r\n",
    };
    const char *traces[FEW] = {"(create 0 8 rw)\n", "(create 8 8 rw)\n", ""};
    char trace[64];
    size_t i;
    for (i = 0; i < sizeof lines / sizeof lines[0]; i++) {
        CHECK(line_refused(sizes_of_traces(&lines[i], 1), KZ_MISSPELT, 1, 1));
        strcpy(trace, traces[0]);
        traces[2] = strcat(trace, lines[i]);
        CHECK(line_refused(sizes_of_traces(traces, FEW), KZ_MISSPELT, 3, 2));
    }
}

/* Lengths that are too many, or not those of the text. The sum is that of the numbers, not of their last
   32 bits. */
static void check_lengths(void) {
    static const char two[] = "(create 0 8 rw)\n(create 8 8 rw)\n";
    static const uint32_t wrong[][2] = {
        {0, 0},  {16, 0}, {0, 31}, {16, 15},          {16, 17},          {32, 1},
        {33, 0}, {0, 33}, {1, 32}, {4294967295u, 33}, {33, 4294967295u}, {4294967295u, 4294967295u}};
    static const uint32_t halves[] = {16, 16}, whole[] = {32, 0}, inside[] = {15, 17};
    static const uint32_t none[KZ_MAX_CLIENTS + 2] = {0};
    static const uint32_t wrapped[] = {2147483648u, 2147483648u};
    const uint8_t *text = (const uint8_t *)two;
    uint32_t many[KZ_MAX_CLIENTS + 1] = {0};
    size_t i;
    CHECK(sizeof two - 1 == 32);
    CHECK(all_fit(sizes_of(text, 32, halves, 2), 2));
    CHECK(all_fit(sizes_of(text, 32, whole, 2), 2));
    CHECK(all_fit(sizes_of(text, 32, whole, 1), 2));
    CHECK(line_refused(sizes_of(text, 32, inside, 2), KZ_MISSPELT, 1, 1));
    for (i = 0; i < sizeof wrong / sizeof wrong[0]; i++)
        CHECK(lengths_refused(sizes_of(text, 32, wrong[i], 2)));
    CHECK(lengths_refused(sizes_of(text, 32, halves, 1)));
    CHECK(lengths_refused(sizes_of(text, 32, NULL, 0)));
    CHECK(lengths_refused(sizes_of(text, 16, halves, 2)));
    CHECK(lengths_refused(sizes_of(NULL, 0, wrapped, 2)));
    CHECK(all_fit(sizes_of(NULL, 0, NULL, 0), 0));
    CHECK(all_fit(sizes_of(NULL, 0, none, KZ_MAX_CLIENTS), 0));
    CHECK(lengths_refused(sizes_of(NULL, 0, none, KZ_MAX_CLIENTS + 1)));
    CHECK(lengths_refused(sizes_of(NULL, 0, none, KZ_MAX_CLIENTS + 2)));
    /* The last of as many as there may be, and of one more. */
    many[KZ_MAX_CLIENTS - 1] = 32;
    CHECK(all_fit(sizes_of(text, 32, many, KZ_MAX_CLIENTS), 2));
    CHECK(lengths_refused(sizes_of(text, 32, many, KZ_MAX_CLIENTS + 1)));
    CHECK(lengths_refused(sizes_of(text, 31, many, KZ_MAX_CLIENTS)));
    many[KZ_MAX_CLIENTS - 1] = 31;
    CHECK(line_refused(sizes_of(text, 31, many, KZ_MAX_CLIENTS), KZ_MISSPELT, KZ_MAX_CLIENTS, 2));
}

/* So many creates side by side, of which the clients have one each in turn. */
static kz_sizing sizes_of_creates(uint32_t made, uint32_t count) {
    static char text[(KZ_MAX_ROWS + 1) * KZ_MAX_LINE];
    uint32_t lengths[KZ_MAX_CLIENTS], client, place;
    char *end = text;
    for (client = 0; client < count; client++) {
        const char *start = end;
        for (place = client; place < made; place += count)
            end += sprintf(end, "(create %u 8 rw)\n", (unsigned)place * 8);
        lengths[client] = (uint32_t)(end - start);
    }
    return sizes_of((const uint8_t *)text, (size_t)(end - text), lengths, count);
}

/* As many rows as there may be, and one more. */
static void check_most_rows(void) {
    static const uint32_t counts[] = {1, 3, KZ_MAX_CLIENTS};
    const uint32_t most = KZ_MAX_ROWS;
    size_t i;
    for (i = 0; i < sizeof counts / sizeof counts[0]; i++) {
        const uint32_t count = counts[i];
        CHECK(all_fit(sizes_of_creates(most - 1, count), most - 1));
        CHECK(all_fit(sizes_of_creates(most, count), most));
        CHECK(line_refused(sizes_of_creates(most + 1, count), KZ_TABLE_FULL, most % count + 1,
                           most / count + 1));
    }
}

/* The deepest borrow, and one deeper, by a client whose names are not the table's. */
static void check_deepest_client(void) {
    static char text[KZ_MAX_DEPTH * KZ_MAX_LINE + 64];
    uint32_t lengths[2], i;
    char *end = text + sprintf(text, "(create 64 8 rw)\n(read 1 64 8)\n");
    const uint8_t *bytes = (const uint8_t *)text;
    lengths[0] = (uint32_t)(end - text);
    end += sprintf(end, "(create 0 8 rw)\n");
    for (i = 1; i < KZ_MAX_DEPTH; i++) end += sprintf(end, "(borrow %u 0 8 rw)\n", (unsigned)i);
    lengths[1] = (uint32_t)(end - text) - lengths[0];
    CHECK(all_fit(sizes_of(bytes, (size_t)(end - text), lengths, 2), KZ_MAX_DEPTH + 1));
    end += sprintf(end, "(borrow %u 0 8 rw)\n", (unsigned)i);
    lengths[1] = (uint32_t)(end - text) - lengths[0];
    CHECK(line_refused(sizes_of(bytes, (size_t)(end - text), lengths, 2), KZ_TOO_DEEP, 2,
                       KZ_MAX_DEPTH + 1));
}

/* The exported function, which answers one number. */
static void check_sizes_exported(void) {
    static const char trace[] = "(create 0 8 rw)\n(borrow 1 0 8 rw)\n";
    static const uint32_t length = sizeof trace - 1;
    const uint8_t *text = (const uint8_t *)trace;
    kz_sizing report;
    CHECK(kz_abi_sizes(text, length, &length, 1, &report) == 2);
    CHECK(all_fit(report, 2));
    CHECK(kz_abi_sizes(text, length - 1, &length, 1, &report) == (uint64_t)KZ_MISSPELT << 32);
    CHECK(lengths_refused(report));
    CHECK(kz_abi_sizes(NULL, 0, NULL, 0, &report) == 0);
    CHECK(all_fit(report, 0));
}

static void check_null(void) {
    static const char listing[] = "(issued 0)\n";
    const uint8_t *text = (const uint8_t *)listing;
    const kz_event dropped = event_of(KZ_DROP, 1, 0, 0, 0);
    const kz_event wrong_right = named_event(KZ_CREATE, 1, 0, 0, 8, 3);
    const kz_event nobody = event_of(KZ_DROP_ALL, 0, 0, 0, 0);
    const kz_event one = event_of(KZ_DROP_ALL, 0, 0, 1, 0);
    const uint32_t name = 1;
    uint32_t names[KZ_MAX_GROUP];
    kz_event event;
    kz_answer answer;
    uint8_t out[64];
    static uint8_t written[KZ_WRITTEN_BYTES];
    static kz_tally tally;
    const kz_lent lent = {NULL, 0, written, sizeof written, LENT_STATES, &tally, NULL, NULL, 0};
    CHECK(refused(kz_create(&lent, 0, 64, KZ_RW), KZ_TABLE_FULL));
    CHECK(refused(kz_create_fresh(&lent, 0, 64, KZ_RW), KZ_TABLE_FULL));
    CHECK(refused(apply_named(&lent, KZ_CREATE, 1, 0, 0, 64, KZ_RW), KZ_TABLE_FULL));
    CHECK(kz_apply_all(&lent, &nobody, 1, NULL, 0, &answer) == 1);
    CHECK(refused(answer, KZ_MISGROUPED));
    CHECK(refused(kz_drop_all(&lent, &name, 1), KZ_UNISSUED));
    CHECK(refused(kz_drop_all(&lent, NULL, 0), KZ_MISGROUPED));
    CHECK(allowed(kz_run(&lent, NULL, 0), 0));
    CHECK(refused(kz_write_event(&dropped, NULL, 0, NULL, 0), KZ_BUFFER_TOO_SHORT));
    CHECK(refused(kz_write_event(&wrong_right, NULL, 0, NULL, 0), KZ_MISSPELT));
    CHECK(refused(kz_write_event(&nobody, NULL, 0, NULL, 0), KZ_MISGROUPED));
    CHECK(refused(kz_write_event(&one, NULL, 0, NULL, 0), KZ_MISGROUPED));
    CHECK(refused(kz_write_event(&one, &name, 1, NULL, 0), KZ_BUFFER_TOO_SHORT));
    CHECK(refused(kz_read_event(0, NULL, 0, &event, names), KZ_MISSPELT));
    CHECK(refused(kz_read_event(1, NULL, 0, &event, names), KZ_MISSPELT));
    CHECK(allowed(kz_write_listing(&lent, out, sizeof out), sizeof listing - 1));
    CHECK(refused(kz_write_listing(&lent, NULL, 0), KZ_BUFFER_TOO_SHORT));
    CHECK(refused(kz_read_listing(&lent, NULL, 0), KZ_MISSPELT));
    CHECK(allowed(kz_read_listing(&lent, text, sizeof listing - 1), 0));
    CHECK(refused(kz_check(&work, NULL, 0, NULL, 0), KZ_BUFFER_TOO_SHORT));
    CHECK(allowed(kz_check(&work, NULL, 0, out, sizeof out), sizeof listing - 1 + 12));
}

/* A table whose listing is as long as a listing can be, and the longest lines. No root has a kind to
   be written, so one root has all others below it. A mark makes nothing longer: where it is written,
   addresses have five digits at most. */
static void check_longest(void) {
    static kz_part part;
    static uint8_t out[KZ_MAX_LISTING];
    const uint32_t most = 4294967295u;
    const kz_lent lent = kz_lend(&part);
    kz_event borrow = with_kind(event_of(KZ_BORROW, most, most, most, KZ_RW), KZ_CELL);
    kz_event named = with_kind(named_event(KZ_BORROW, most, most, most, most, KZ_RW), KZ_CELL);
    kz_event created = with_mark(named_event(KZ_CREATE, most, 0, most, most, KZ_RW), 1);
    const kz_event group = kz_by(event_of(KZ_DROP_ALL, 0, 0, KZ_MAX_GROUP, 0), 63, 0);
    const uint64_t all = ~(uint64_t)0;
    uint32_t names[KZ_MAX_GROUP];
    kz_event event;
    uint32_t i;
    for (i = 0; i < KZ_MAX_ROWS; i++) {
        part.table[i].name = KZ_MAX_NAME - KZ_MAX_ROWS + 1 + i;
        part.table[i].start = 1000000000;
        part.table[i].length = 1000000000;
        part.table[i].right = KZ_RW;
        part.table[i].depth = i == 0 ? 1 : 2;
        part.table[i].parent = i == 0 ? 0 : part.table[0].name;
        part.table[i].kind = i == 0 ? KZ_REFERENCE : KZ_CELL;
        part.table[i].maker = 63;
        part.table[i].holders_high = 0x80000000u;
    }
    part.tally.issued = KZ_MAX_NAME;
    for (i = 0; i < KZ_MAX_ROWS; i++) {
        part.table[i].start = part.table[i].length = 10000;
        part.table[i].fresh = 1;
    }
    CHECK(allowed(kz_write_listing(&lent, out, sizeof out), KZ_MAX_LISTING - 4 * KZ_MAX_ROWS));
    for (i = 0; i < KZ_MAX_ROWS; i++) {
        part.table[i].start = part.table[i].length = 1000000000;
        part.table[i].fresh = 0;
    }
    CHECK(allowed(kz_write_listing(&lent, out, sizeof out), sizeof out));
    CHECK(allowed(kz_read_listing(&lent, out, sizeof out), 0));
    CHECK(refused(kz_write_listing(&lent, out, sizeof out - 1), KZ_BUFFER_TOO_SHORT));
    borrow = kz_by(borrow, 63, all);
    named = kz_by(named, 63, all);
    created = kz_by(created, 63, all);
    CHECK(allowed(kz_write_event(&borrow, NULL, 0, out, KZ_MAX_LINE), KZ_MAX_LINE));
    CHECK(refused(kz_write_event(&borrow, NULL, 0, out, KZ_MAX_LINE - 1), KZ_BUFFER_TOO_SHORT));
    CHECK(allowed(kz_read_event(0, out, KZ_MAX_LINE, &event, names), 0));
    CHECK(same_event(&event, &borrow));
    CHECK(allowed(kz_write_event(&named, NULL, 0, out, KZ_MAX_NAMED_LINE), KZ_MAX_NAMED_LINE));
    CHECK(allowed(kz_write_event(&created, NULL, 0, out, sizeof out), KZ_MAX_NAMED_LINE - 10));
    for (i = 0; i < KZ_MAX_GROUP; i++) names[i] = most - KZ_MAX_GROUP + 1 + i;
    CHECK(allowed(kz_write_event(&group, names, KZ_MAX_GROUP, out, KZ_MAX_DROP_LINE),
                  KZ_MAX_DROP_LINE));
    CHECK(allowed(kz_read_event(0, out, KZ_MAX_DROP_LINE, &event, names), 0));
    CHECK(event.kind == KZ_DROP_ALL && event.length == KZ_MAX_GROUP);
}

/* No table that shares this room was marked. */
static void check_states_untouched(void) {
    static kz_states zeros;
    CHECK(memcmp(&states, &zeros, sizeof zeros) == 0);
}

int main(void) {
    check_layout();
    check_answers();
    check_lend();
    check_events();
    check_reused_memory();
    check_raw();
    check_cells();
    check_wrong_kinds();
    check_fresh();
    check_fresh_by_sheet();
    check_fresh_limits();
    check_wrong_marks();
    check_wrong_sizes();
    check_states();
    check_many_states();
    check_wrong_states();
    check_stored();
    check_holders();
    check_domains();
    check_wrong_domains();
    check_limits();
    check_wrong_limits();
    check_charge();
    check_named_events();
    check_grouped_events();
    check_many_events();
    check_exported();
    check_text();
    check_named_text();
    check_grouped_text();
    check_states_text();
    check_states_exported();
    check_kinds_text();
    check_fresh_text();
    check_domains_lines();
    check_domains_text();
    check_sheet_of_default();
    check_sheet_places();
    check_sheets_of_one_result();
    check_sheet_of_create();
    check_sheet_in_calls();
    check_sheet_bytes();
    check_sheet_text();
    check_wrong_sheet_text();
    check_columns();
    check_columns_of_kinds();
    check_wrong_column_events();
    check_events_without_columns();
    check_short_columns();
    check_column_lengths();
    check_wrong_columns();
    check_back_and_there();
    check_most_columns();
    check_no_columns();
    check_columns_exported();
    check_sizes_of_one();
    check_sizes_in_turn();
    check_sizes_refused();
    check_sizes_of_other_lines();
    check_lengths();
    check_most_rows();
    check_deepest_client();
    check_sizes_exported();
    check_null();
    check_longest();
    check_states_untouched();
    return failures != 0;
}
