/*
 * How much stack each call of the library writes: the stack below a call is painted before it, and looked
 * through afterwards. On 1,024 rows, a root and chains below it down to depth 64, all of them fresh and
 * their memory written, so that reads look at its bits; the calls for columns on as many events as they
 * take, and that for table sizes with clients that fill as many rows. What a call leaves unwritten of its
 * frames does not show.
 */
#include <stdio.h>
#include <stdlib.h>
#include <string.h>

#include <kelzoud.h>

enum { PAINTED = 1 << 20, PAINT = 0x5b };

static kz_part part;
static kz_part made;
static uint8_t text[KZ_MAX_CHECK];
static size_t text_len;
static const uint32_t names[] = {2, 3};

static void events(void) {
    const kz_lent lent = kz_lend(&part);
    static const kz_event event = {KZ_WRITE, 1, 0, 64, 0, 0, 0, 0, 0, 0, 0, 0};
    kz_apply(&lent, &event);
}

/* The same with limits, of which domain 0 has all rows. */
static uint32_t limits[KZ_DOMAINS] = {KZ_MAX_ROWS};

static void events_in_limits(void) {
    kz_lent lent = kz_lend(&part);
    lent.limits = limits;
    lent.limit_count = KZ_DOMAINS;
    kz_write(&lent, 1, 0, 64);
    kz_borrow(&lent, 1, 0, 64, KZ_RW);
}

/* A mark, and a back to it, which fits. */
static void states(void) {
    const kz_lent lent = kz_lend(&part);
    kz_mark(&lent, 7);
    kz_back(&lent, 7);
}

static void states_in_limits(void) {
    kz_lent lent = kz_lend(&part);
    lent.limits = limits;
    lent.limit_count = KZ_DOMAINS;
    kz_mark(&lent, 7);
    kz_back(&lent, 7);
}

static void charge(void) {
    const kz_lent lent = kz_lend(&part);
    kz_charge(&lent, 5);
}

static void drops(void) {
    const kz_lent lent = kz_lend(&part);
    kz_drop_all(&lent, names, 2);
}

static void batch(void) {
    const kz_lent lent = kz_lend(&part);
    static const kz_event all[] = {
        {KZ_READ, 5, 0, 64, 0, 0, 0, 0, 0, 0, 0, 0},
        {KZ_DROP_ALL, 0, 0, 2, 0, 0, 0, 0, 0, 0, 0, 0},
        {KZ_WRITE, 1, 0, 64, 0, 0, 0, 0, 0, 0, 0, 0},
        {KZ_MARK, 3, 0, 0, 0, 0, 0, 0, 0, 0, 0, 0},
        {KZ_BACK, 3, 0, 0, 0, 0, 0, 0, 0, 0, 0, 0},
    };
    static kz_answer answers[5];
    kz_apply_all(&lent, all, 5, names, 2, answers);
}

static void run(void) {
    const kz_lent lent = kz_lend(&part);
    static const char lines[] = "(read 5 0 64)\n(mark 3)\n(drop 2 3)\n(back 3)\n(write 1 0 64)\n"
                                "(borrow 1 0 64 rw raw 000000000000000f)\n(as 3 (drop 1025 1026))\n";
    kz_run(&lent, (const uint8_t *)lines, sizeof lines - 1);
}

static void write_event(void) {
    static const kz_event event = {KZ_BORROW, 1, 0, 64, KZ_RW, 0, 0, KZ_CELL, 0, 3, 15, 0};
    static uint8_t out[KZ_MAX_LINE];
    kz_write_event(&event, NULL, 0, out, sizeof out);
}

static void read_event(void) {
    static const char line[] = "(as 3 (borrow 1 0 64 rw cell 000000000000000f))\n";
    static const char create[] = "(create 0 64 rw fresh 000000000000000f)\n";
    static const char drop[] = "(as 3 (drop 2 3))\n";
    static const char mark[] = "(as 3 (mark 3))\n";
    static kz_event event;
    static uint32_t found[KZ_MAX_GROUP];
    kz_read_event(0, (const uint8_t *)line, sizeof line - 1, &event, found);
    kz_read_event(0, (const uint8_t *)create, sizeof create - 1, &event, found);
    kz_read_event(0, (const uint8_t *)drop, sizeof drop - 1, &event, found);
    kz_read_event(0, (const uint8_t *)mark, sizeof mark - 1, &event, found);
}

static void write_listing(void) {
    const kz_lent lent = kz_lend(&part);
    static uint8_t out[KZ_MAX_LISTING];
    kz_write_listing(&lent, out, sizeof out);
}

static void read_listing(void) {
    const kz_lent lent = kz_lend(&part);
    kz_read_listing(&lent, text, text_len);
}

/* A sheet of every result, and its text of a line for each combination. */
static kz_sheet sheet;
static uint8_t sheet_text[KZ_MAX_SHEET];
static size_t sheet_len;

static void events_by_sheet(void) {
    kz_lent lent = kz_lend(&part);
    static const kz_event event = {KZ_WRITE, 1, 0, 64, 0, 0, 0, 0, 0, 0, 0, 0};
    lent.sheet = &sheet;
    kz_apply(&lent, &event);
}

static void write_sheet(void) {
    static uint8_t out[KZ_MAX_SHEET];
    kz_write_sheet(&sheet, out, sizeof out);
}

static void read_sheet(void) {
    static kz_sheet found;
    kz_read_sheet(sheet_text, sheet_len, &found);
}

/* As many events as go into columns, of all kinds in turn, and the columns. */
enum { MOVED = KZ_MAX_COLUMN_EVENTS };

static kz_event moved[MOVED];
static uint8_t kinds[MOVED], rights[MOVED];
static uint32_t moved_names[MOVED], starts[MOVED], lengths[MOVED];
static kz_columns columns = {kinds, MOVED, moved_names, MOVED, starts, MOVED, lengths, MOVED, rights, MOVED,
                             {0, 0, 0, 0, 0, 0}};

static void all_kinds(void) {
    static const kz_event five[] = {
        {KZ_CREATE, 0, 0, 64, KZ_RW, 0, 0, 0, 0, 0, 1, 0},
        {KZ_BORROW, 1, 0, 64, KZ_RO, 0, 0, 0, 0, 0, 1, 0},
        {KZ_READ, 2, 0, 64, 0, 0, 0, 0, 0, 0, 0, 0},
        {KZ_WRITE, 1, 0, 64, 0, 0, 0, 0, 0, 0, 0, 0},
        {KZ_DROP, 1, 0, 0, 0, 0, 0, 0, 0, 0, 0, 0},
    };
    for (size_t i = 0; i < MOVED; i++)
        moved[i] = five[i % 5];
    kz_to_columns(moved, MOVED, &columns);
    columns = kz_columns_used(&columns);
}

static void to_columns(void) {
    kz_to_columns(moved, MOVED, &columns);
}

static void from_columns(void) {
    static kz_event found[MOVED];
    kz_from_columns(&columns, found, MOVED);
}

/* A chain down to the greatest depth, and a line of each sort. */
static char trace[KZ_MAX_INPUT];
static size_t trace_len;

static void deep_trace(void) {
    trace_len = (size_t)sprintf(trace, "(create 0 64 rw fresh)\n");
    for (int depth = 1; depth < KZ_MAX_DEPTH; depth++)
        trace_len += (size_t)sprintf(trace + trace_len, "(borrow %d 0 64 rw cell)\n", depth);
    trace_len += (size_t)sprintf(trace + trace_len, "(mark 7)\n(write 64 0 8)\n(read 64 0 8)\n");
    trace_len += (size_t)sprintf(trace + trace_len, "(drop 63 64)\n(back 7)\n");
}

static void check(void) {
    static uint8_t out[KZ_MAX_CHECK];
    static kz_states work;
    kz_check(&work, (const uint8_t *)trace, trace_len, out, sizeof out);
}

/* As many clients as there may be, which fill all rows, in chains down to the greatest depth. */
static char clients[(KZ_MAX_ROWS + 2 * KZ_MAX_CLIENTS) * KZ_MAX_LINE];
static uint32_t client_lengths[KZ_MAX_CLIENTS];
static size_t clients_len;

static void all_clients(void) {
    for (int client = 0; client < KZ_MAX_CLIENTS; client++) {
        const size_t start = clients_len;
        for (int row = 0; row < KZ_MAX_ROWS / KZ_MAX_CLIENTS; row++) {
            const int first = 64 * (client + KZ_MAX_CLIENTS * (row / KZ_MAX_DEPTH));
            if (row % KZ_MAX_DEPTH == 0)
                clients_len += (size_t)sprintf(clients + clients_len, "(create %d 64 rw)\n", first);
            else
                clients_len += (size_t)sprintf(clients + clients_len, "(borrow %d %d 64 rw)\n", row, first);
        }
        clients_len += (size_t)sprintf(clients + clients_len, "(write 1 %d 8)\n(drop 1)\n", 64 * client);
        client_lengths[client] = (uint32_t)(clients_len - start);
    }
}

static void sizes(void) {
    kz_sizing report;
    kz_sizes((const uint8_t *)clients, clients_len, client_lengths, KZ_MAX_CLIENTS, &report);
}

/* A frame that is painted and left, so that the next call stands in it. */
static __attribute__((noinline)) void paint(void) {
    uint8_t below[PAINTED];
    memset(below, PAINT, sizeof below);
    __asm__ volatile("" : : "r"(below) : "memory");
}

static __attribute__((noinline)) size_t written(void) {
    uint8_t below[PAINTED];
    size_t i = 0;
    __asm__ volatile("" : "=m"(below));
    while (i < PAINTED && below[i] == PAINT) i++;
    return PAINTED - i;
}

static void nothing(void) {}

static __attribute__((noinline)) size_t measure(void (*call)(void)) {
    part = made;
    paint();
    call();
    return written();
}

/* All rows live, as deep as a row can be; they have one span. */
static void deep_rows(void) {
    const kz_lent lent = kz_lend(&made);
    kz_create_fresh(&lent, 0, 64, KZ_RW);
    kz_write(&lent, 1, 0, 64);
    for (uint32_t at = 1; at < KZ_MAX_ROWS; at++)
        kz_borrow_as(&lent, at % (KZ_MAX_DEPTH - 1) == 1 ? 1 : at, 0, 64, KZ_RW, at % 3);
}

int main(void) {
    const struct {
        const char *name;
        void (*call)(void);
    } calls[] = {
        {"kz_apply", events},           {"kz_drop_all", drops},     {"kz_apply_all", batch},
        {"kz_run", run},                {"kz_write_event", write_event},
        {"kz_read_event", read_event},  {"kz_write_listing", write_listing},
        {"kz_read_listing", read_listing}, {"kz_check", check},
        {"kz_apply, a sheet", events_by_sheet}, {"kz_apply, limits", events_in_limits},
        {"kz_mark, kz_back", states},   {"the same, limits", states_in_limits},
        {"kz_charge", charge},          {"kz_write_sheet", write_sheet},
        {"kz_read_sheet", read_sheet},  {"kz_to_columns", to_columns},
        {"kz_from_columns", from_columns}, {"kz_sizes", sizes},
    };
    deep_rows();
    deep_trace();
    const kz_lent lent = kz_lend(&made);
    text_len = kz_write_listing(&lent, text, sizeof text).value;
    for (size_t place = 0; place < KZ_SHEET_PLACES; place++)
        sheet.results[place] = (uint8_t)(place % 3);
    sheet_len = kz_write_sheet(&sheet, sheet_text, sizeof sheet_text).value;
    all_kinds();
    all_clients();
    const size_t none = measure(nothing);
    for (size_t i = 0; i < sizeof calls / sizeof calls[0]; i++)
        printf("%-18s %6zu\n", calls[i].name, measure(calls[i].call) - none);
    return 0;
}
