/*
 * A store of traces that keeps like beside like.
 *
 * A trace comes in as text, one event a line, and is kept as five columns. What stands in one of them is of
 * one sort, so that it packs well, and can be searched without the others. Here the columns are printed,
 * and the text is made of them again, byte for byte.
 */
#include <stdio.h>
#include <string.h>

#include "kelzoud.h"

static const char trace[] = "(create 4096 64 rw)\n"
                            "(borrow 1 4096 16 rw)\n"
                            "(borrow 1 4112 16 ro)\n"
                            "(write 2 4096 8)\n"
                            "(read 3 4112 4)\n"
                            "(drop 2)\n"
                            "(drop 1)\n";

/* No column has more entries than there are events. */
enum { ROOM = KZ_MAX_COLUMN_EVENTS };

static kz_event events[ROOM];
static uint8_t kinds[ROOM], rights[ROOM];
static uint32_t names[ROOM], starts[ROOM], lengths[ROOM];

/* Reads the lines of a text, and counts them. Whether all are lines, and not too many. */
static int read_events(const char *text, size_t *count) {
    uint32_t dropped[KZ_MAX_GROUP]; /* the names of a line that drops several */
    for (*count = 0; *text != '\0'; ++*count) {
        const size_t length = strcspn(text, "\n") + 1;
        const uint8_t *line = (const uint8_t *)text;
        if (*count == ROOM) return 0;
        if (kz_read_event(0, line, length, &events[*count], dropped).refusal != 0) return 0;
        text += length;
    }
    return 1;
}

/* Writes the line of each event. Whether they are the text. */
static int are_lines_of(const char *text, size_t count) {
    uint8_t line[KZ_MAX_LINE];
    size_t i;
    for (i = 0; i < count; i++) {
        const size_t length = kz_write_event(&events[i], NULL, 0, line, sizeof line).value;
        if (strncmp(text, (const char *)line, length) != 0) return 0;
        text += length;
    }
    return *text == '\0';
}

static void print_bytes(const char *what, const uint8_t *column, size_t length) {
    size_t i;
    printf("%-7s", what);
    for (i = 0; i < length; i++) printf(" %u", (unsigned)column[i]);
    printf("\n");
}

static void print_numbers(const char *what, const uint32_t *column, size_t length) {
    size_t i;
    printf("%-7s", what);
    for (i = 0; i < length; i++) printf(" %u", (unsigned)column[i]);
    printf("\n");
}

int main(void) {
    kz_columns columns = {.kinds = kinds, .kinds_len = ROOM, .names = names, .names_len = ROOM,
                          .starts = starts, .starts_len = ROOM, .lengths = lengths,
                          .lengths_len = ROOM, .rights = rights, .rights_len = ROOM};
    size_t count;
    if (!read_events(trace, &count) || kz_to_columns(events, count, &columns).refusal != 0) {
        printf("this trace has no columns\n");
        return 1;
    }
    columns = kz_columns_used(&columns); /* what is to be kept, and nothing behind it */
    print_bytes("kinds", columns.kinds, columns.kinds_len);
    print_numbers("names", columns.names, columns.names_len);
    print_numbers("starts", columns.starts, columns.starts_len);
    print_numbers("lengths", columns.lengths, columns.lengths_len);
    print_bytes("rights", columns.rights, columns.rights_len);
    memset(events, 0, sizeof events);
    count = kz_from_columns(&columns, events, ROOM).value;
    printf("%u events came back, and their text is %s\n", (unsigned)count,
           are_lines_of(trace, count) ? "the same" : "another");
    return 0;
}
