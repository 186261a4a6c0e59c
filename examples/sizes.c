/*
 * A maker who chooses how many rows the table of a probe is built with.
 *
 * Three programs that will share the table were recorded one by one, each at addresses of its own. The maker
 * tries their traces together, a line of each in turn, and each by itself. Since they share no memory, the
 * sum of what each needs alone is enough in whatever order their lines come; that is what is built in. A
 * recording with a fault in it is pointed out by its program and its line.
 */
#include <stdio.h>
#include <string.h>

#include "kelzoud.h"

struct client {
    const char *name;
    const char *trace;
};

/* A frame of two halves, filled and released. */
static const char camera[] = "(create 4096 64 rw)\n"
                             "(borrow 1 4096 32 rw)\n"
                             "(borrow 1 4128 32 rw)\n"
                             "(write 2 4096 32)\n"
                             "(write 3 4128 32)\n"
                             "(drop 1)\n";

/* A packet that is waited for, and a view of its head. */
static const char radio[] = "(create 8192 16 rw)\n"
                            "(write 1 8192 16)\n"
                            "(read 1 8192 1)\n"
                            "(read 1 8192 1)\n"
                            "(read 1 8192 1)\n"
                            "(borrow 1 8192 4 ro)\n"
                            "(read 2 8192 4)\n"
                            "(drop 1)\n";

/* Lines of a log, one at a time. */
static const char logger[] = "(create 12288 8 rw)\n"
                             "(write 1 12288 8)\n"
                             "(drop 1)\n"
                             "(create 12288 8 rw)\n"
                             "(write 2 12288 8)\n"
                             "(drop 2)\n";

/* The same with a line that is written after it was released. */
static const char faulty_logger[] = "(create 12288 8 rw)\n"
                                    "(drop 1)\n"
                                    "(write 1 12288 8)\n";

/* Tries the traces of some clients together: they go end to end, with the length of each. */
static kz_sizing try_clients(const struct client *clients, size_t count) {
    static uint8_t text[4096];
    uint32_t lengths[KZ_MAX_CLIENTS];
    kz_sizing report;
    size_t used = 0, i;
    for (i = 0; i < count; i++) {
        lengths[i] = (uint32_t)strlen(clients[i].trace);
        memcpy(text + used, clients[i].trace, lengths[i]);
        used += lengths[i];
    }
    kz_sizes(text, used, lengths, count, &report);
    return report;
}

static void print_report(const char *what, const struct client *clients, kz_sizing report) {
    if (report.refusal == 0) {
        printf("%s: rows %u\n", what, (unsigned)report.rows);
    } else if (report.client == 0) {
        printf("%s: too many clients\n", what);
    } else {
        printf("%s: refusal %u in line %u of the %s\n", what, (unsigned)report.refusal,
               (unsigned)report.line, clients[report.client - 1].name);
    }
}

int main(void) {
    enum { CLIENTS = 3 };
    struct client clients[CLIENTS] = {{"camera", camera}, {"radio", radio}, {"logger", logger}};
    uint32_t sum = 0;
    size_t i;
    for (i = 0; i < CLIENTS; i++) {
        const kz_sizing alone = try_clients(&clients[i], 1);
        print_report(clients[i].name, &clients[i], alone);
        sum += alone.rows;
    }
    print_report("all, a line of each in turn", clients, try_clients(clients, CLIENTS));
    printf("all, in any order: rows %u, bytes %u\n", (unsigned)sum,
           (unsigned)(sum * sizeof(kz_cap)));
    clients[2].trace = faulty_logger;
    print_report("with a fault", clients, try_clients(clients, CLIENTS));
    return 0;
}
