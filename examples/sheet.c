/*
 * Runs a trace by a conflict sheet: sheet SHEET TRACE, which are files. Prints the verdict and the listing
 * as capcheck does, which knows no other sheet than the default one. The exit status is 0 where the
 * trace is allowed, 1 where it is refused, and 2 where nothing was run.
 */
#include <stdio.h>

#include "kelzoud.h"

struct text {
    uint8_t bytes[KZ_MAX_INPUT];
    size_t length;
};

/* Whether a file could be read whole into a text. */
static int read_file(const char *name, struct text *text) {
    FILE *file = fopen(name, "rb");
    int whole;
    if (file == NULL) {
        return 0;
    }
    text->length = fread(text->bytes, 1, sizeof text->bytes, file);
    whole = fgetc(file) == EOF && !ferror(file);
    fclose(file);
    return whole;
}

static const char *reason(uint32_t refusal) {
    switch (refusal) {
    case KZ_GIVEN_TWICE:
        return "a combination is given twice";
    case KZ_NOT_GIVEN:
        return "a combination is not given";
    default:
        return "a line is not that of a rule";
    }
}

int main(int argc, char **argv) {
    static struct text rules, trace;
    static kz_part part; /* all zeros: an empty table with no name issued */
    static uint8_t listing[KZ_MAX_LISTING];
    kz_lent lent = kz_lend(&part);
    kz_sheet sheet;
    kz_answer read, ran, written;
    if (argc != 3 || !read_file(argv[1], &rules) || !read_file(argv[2], &trace)) {
        fprintf(stderr, "usage: sheet SHEET TRACE, two files of at most %d bytes\n", KZ_MAX_INPUT);
        return 2;
    }
    read = kz_read_sheet(rules.bytes, rules.length, &sheet);
    if (read.refusal != 0) {
        fprintf(stderr, "%s: refusal %u, %s\n", argv[1], (unsigned)read.refusal,
                reason(read.refusal));
        return 2;
    }
    lent.sheet = &sheet;
    ran = kz_run(&lent, trace.bytes, trace.length);
    if (ran.refusal == 0) {
        printf("(allowed %u)\n", (unsigned)ran.value);
    } else {
        printf("(refused %u %u)\n", (unsigned)ran.refusal, (unsigned)ran.value);
    }
    written = kz_write_listing(&lent, listing, sizeof listing);
    fwrite(listing, 1, written.value, stdout);
    return ran.refusal != 0;
}
