/*
 * Kelzoud: a capability table that revokes on use.
 *
 * The caller lends all memory: a table of capabilities, the written bits of its addresses, room for
 * states to come back to, a tally of events, a conflict sheet where the default one does not serve, a
 * sheet of limits where domains are to have them, texts, columns and output buffers.
 * The library keeps nothing between calls, allocates nothing and has no global state, so calls with
 * different memory may run at the same time on different threads.
 *
 * What a caller owes:
 *   - A pointer is followed by a length or a count, and points to as many elements as that says. A
 *     pointer whose length is 0 is not followed and may be NULL. `answers` of kz_apply_all has as
 *     many elements as there are events. A kz_sheet that is only read may be NULL, and is then the
 *     default one. All other pointers without a length are never NULL, the tally of a kz_lent and the
 *     states of kz_check among them.
 *   - Whatever a call may write overlaps nothing else that the call is given.
 * Nothing else is asked. Every event, table, tally, sheet, line, text and listing gets an answer, and
 * so do any written bits, any limits, any columns and any lengths of traces, however many they are, and
 * whatever stands in a kz_states.
 *
 * A call answers with a kz_answer: a refusal, which is 0 when the call was allowed, and a value, as
 * each call says. A call that is refused changes nothing that was lent, except as kz_apply,
 * kz_apply_all, kz_drop_all, kz_run and kz_sizes say.
 *
 * First come the values and structs, then the calls, and at the end what the calls are made of, for
 * the foreign function interfaces of other languages. A program that makes no other calls than those
 * for events, kz_lend to kz_charge, may link libkelzoud-events.a in place of libkelzoud.a.
 */
#ifndef KELZOUD_H
#define KELZOUD_H

#include <stddef.h>
#include <stdint.h>

#ifdef __cplusplus
extern "C" {
#endif

/* Limits. That no listing and no text of kz_check is longer than is said here is proved. */
enum {
    KZ_MAX_ROWS = 1024,           /* rows of a table */
    KZ_MAX_NAME = 1000000,        /* names that are ever given out */
    KZ_MAX_DEPTH = 64,            /* depth of a capability */
    KZ_MAX_GROUP = 64,            /* names that are dropped together */
    KZ_DOMAINS = 64,              /* domains that act on a table, 0 to 63 */
    KZ_SLOTS = 8,                 /* states to come back to, in slots 0 to 7 */
    KZ_WRITTEN_BYTES = 8192,      /* bytes of written bits, no fewer and no more */
    KZ_WRITTEN_ADDRESSES = 65536, /* addresses that have a written bit, from 0 on */
    KZ_MAX_COLUMN_EVENTS = 4096,  /* events that are put into columns, or taken from them */
    KZ_MAX_CLIENTS = 8,           /* clients whose traces kz_sizes takes together */
    KZ_MAX_INPUT = 65536,         /* bytes of input that kz_check runs */
    KZ_MAX_LINE = 75,             /* bytes of an event line, its newline included */
    KZ_MAX_NAMED_LINE = 86,       /* the same where new names are written out */
    KZ_MAX_DROP_LINE = 719,       /* the same of a line of KZ_MAX_GROUP names */
    KZ_MAX_SHEET = 1005,          /* bytes of the text that kz_write_sheet writes */
    KZ_MAX_LISTING = 60429,       /* bytes of a listing */
    KZ_MAX_CHECK = 60448          /* bytes that kz_check writes */
};

/* The first line of a text in which new names are written out. */
#define KZ_NAMED_HEADER "(trace 2)\n"

/* Rights. */
enum {
    KZ_RO = 1, /* read-only */
    KZ_RW = 2  /* read-write */
};

/* Kinds of capabilities: what a read or write does to one goes by its kind, as a kz_sheet says. */
enum {
    KZ_REFERENCE = 0, /* as of &T and &mut T */
    KZ_RAW = 1,       /* as of *const T and *mut T */
    KZ_CELL = 2       /* as of &UnsafeCell<T> */
};

/* Kinds of events. */
enum {
    KZ_CREATE = 1,
    KZ_BORROW = 2,
    KZ_READ = 3,
    KZ_WRITE = 4,
    KZ_DROP = 5,
    KZ_DROP_ALL = 6, /* names that are dropped together */
    KZ_MARK = 7,     /* stores a state */
    KZ_BACK = 8      /* goes back to it */
};

/* The refusals in the order in which they are judged: where several apply, the first is given. */
enum kz_refusal {
    KZ_DISORDERED = 1,       /* the table is not in order, as kz_cap says, or has too many rows; the
                                written bits are not KZ_WRITTEN_BYTES bytes; no kz_states is lent; the
                                lent limits are not as kz_lent says; or a back goes to what does not
                                fit, as kz_states says */
    KZ_MISGROUPED = 13,      /* lent names: none, more than KZ_MAX_GROUP, or not strictly rising */
    KZ_MISSPELT = 2,         /* text that is not spelled so; an unknown kind, right, cap_kind, mark,
                                domain or slot; holders without the domain that acts; events that
                                have no columns, or columns that no events have, as kz_columns says;
                                lengths of traces that kz_sizes does not take */
    KZ_GIVEN_TWICE = 14,     /* a sheet's text gives a combination twice */
    KZ_NOT_GIVEN = 15,       /* a sheet's text leaves a combination out */
    KZ_NOTHING_STORED = 19,  /* a back to a slot in which nothing is stored */
    KZ_ILLEGAL_SPAN = 3,     /* an end above 4,294,967,296; of a fresh create, above 65,536 */
    KZ_UNISSUED = 4,         /* name 0, or a name above the issued number */
    KZ_ENDED = 5,            /* a name that was issued, and whose capability has ended */
    KZ_NOT_HOLDER = 17,      /* a capability that the domain that acts does not hold */
    KZ_OUTSIDE_SPAN = 6,     /* a span that is not inside the capability's */
    KZ_READ_ONLY = 7,        /* a write through a read-only capability, or a read-write borrow of it */
    KZ_NOT_WRITTEN = 16,     /* a read through a fresh capability of an address that is not written */
    KZ_TOO_DEEP = 8,         /* a borrow from depth KZ_MAX_DEPTH */
    KZ_NAMES_SPENT = 9,      /* a create or borrow when KZ_MAX_NAME names are issued */
    KZ_MISNAMED = 12,        /* a written new name that is not the issued number plus one */
    KZ_TABLE_FULL = 10,      /* a create or borrow when no row is empty and no limits are lent; a listing
                                with too many rows */
    KZ_LIMIT_REACHED = 18,   /* a create or borrow of a domain that has reached its lent limit */
    KZ_BUFFER_TOO_SHORT = 11 /* a text that is longer than the output buffer; more entries than a column
                                or a list of events that is lent for them has */
};

/*
 * A capability. A table is a run of these: live capabilities stand first, in rising order of name,
 * and every later row is all zeros. A table is in order when it is so arranged, has at most
 * KZ_MAX_ROWS rows, and each row is as is said here, with no name above the issued number, nor that
 * above KZ_MAX_NAME; no span ends above 4,294,967,296, and that of a fresh one not above 65,536; each
 * is held by its maker; and what was borrowed has its parent in an earlier row, a span inside the
 * parent's, a right not above it, and the same mark. Who made and who holds the parent is not asked.
 *
 * Up to KZ_DOMAINS domains act on one table: cores, processes, or whatever a tool tells apart. The
 * domain that made a capability is its maker, and those that may use it are its holders, which the maker
 * gives when it makes it, itself among them, and which never change. A set of holders is a number of 64
 * bits, of which domain D has the one worth 2^D; in a row and in an event it stands in two halves, the
 * lower and the higher 32 bits: see kz_holder. A tool that knows no domains is domain 0 throughout.
 */
typedef struct kz_cap {
    uint32_t name;         /* 1 to KZ_MAX_NAME, given out in order and never twice */
    uint32_t parent;       /* the name it was borrowed from, 0 for a created one */
    uint32_t start;        /* the first address of its span */
    uint32_t length;       /* the number of addresses in its span, which may be 0 */
    uint32_t right;        /* KZ_RO or KZ_RW */
    uint32_t depth;        /* 1 for a created one, one more for each borrow, at most KZ_MAX_DEPTH */
    uint32_t kind;         /* KZ_REFERENCE, KZ_RAW or KZ_CELL; a created one is a reference */
    uint32_t fresh;        /* the mark: 1 where nothing is read through it before it is written, else 0 */
    uint32_t maker;        /* the domain that made it, 0 to 63 */
    uint32_t holders_low;  /* its holders: domain D, from 0 to 31, has the bit worth 2^D here */
    uint32_t holders_high; /* and domain D from 32 to 63 the bit worth 2^(D - 32) here */
} kz_cap;

/*
 * The tally of a table: the names issued, the allowed events of each kind and the refused events. A
 * count at 4,294,967,295 stays there. A new table has all rows zero, all of its written bits and all of
 * its tally.
 */
typedef struct kz_tally {
    uint32_t issued;
    uint32_t creates;
    uint32_t borrows;
    uint32_t reads;
    uint32_t writes;
    uint32_t drops;
    uint32_t refused;
} kz_tally;

/*
 * Room for KZ_SLOTS states to come back to, each a table of up to KZ_MAX_ROWS rows with its written bits:
 * 426,336 bytes. A mark stores the table and the written bits in a slot, over whatever is stored there,
 * and a back brings them back and keeps what is stored. Both leave the tally, the issued number in it: no
 * name is given twice, and a name that was given after the mark has ended after the back. Only there may a
 * capability that has ended live again, and one that was lowered be read-write again.
 *
 * All zeros: nothing is stored. Only marks change it. How a state lies in it is the library's to choose, so
 * it is copied as a whole or not at all. It belongs to one table, as the written bits do; tables that are
 * never marked may share one.
 *
 * What is stored is judged on going back to it, with the names that are issued then and the limits that are
 * lent then: where it is not in order, as where something else was written there, where a limit is
 * exceeded, or where it has another number of rows than the table, the back is KZ_DISORDERED.
 */
typedef struct kz_states {
    kz_cap rows[KZ_SLOTS * (KZ_MAX_ROWS + 1)];
    uint8_t written[KZ_SLOTS * KZ_WRITTEN_BYTES];
} kz_states;

/* What a read or write does to a capability that it strikes, and to its subtree. */
enum {
    KZ_KEEP = 0,  /* nothing */
    KZ_LOWER = 1, /* it becomes read-only */
    KZ_END = 2    /* it ends; so does any other number in a sheet */
};

/* Where a read or write comes from, for the capability that it strikes: the first that fits. */
enum {
    KZ_FROM_CELL = 0,    /* from a cell, or from below one, that the struck one is not under */
    KZ_FROM_KIN = 1,     /* from its parent, or from below its parent */
    KZ_FROM_STRANGER = 2 /* from anywhere else; a create's write is always a stranger's */
};

/*
 * A conflict sheet: what a read or write does to what it strikes, for each kind of the struck
 * capability, each access, and where the access comes from. These are 18 combinations, each with a
 * place, kz_sheet_place: the kind times 6, plus 3 for a write, plus where it comes from. Every array of
 * 18 bytes is a sheet, and one of zeros keeps everything. kz_read_sheet and kz_write_sheet are for its
 * text; docs/SHEETS.md tells how to make one for another language.
 *
 * The default sheet is that of kz_event. Each event goes by the sheet that is lent with it; a tool that
 * keeps one sheet for all events of a table has the promises about whole lists of events.
 */
enum { KZ_SHEET_PLACES = 18 };

typedef struct kz_sheet {
    uint8_t results[KZ_SHEET_PLACES];
} kz_sheet;

/*
 * What a caller lends for events: a table of `rows` rows, 0 to KZ_MAX_ROWS of them, its written bits,
 * room for its states, its tally, the conflict sheet by which events are carried out, NULL for the default
 * one, and a sheet of limits, or none. Begin with all zeros here too, and set the fields by name; all but
 * the sheet and the limits are needed.
 *
 * The written bits say which addresses were written since they were last created over: 1 for written.
 * They are KZ_WRITTEN_BYTES bytes, all zeros at first. Address A, from 0 to 65,535, has the bit worth
 * 2^(A mod 8) in byte A / 8. Every allowed create clears the bits of its addresses, and every allowed
 * write sets those of its own, whether anything is fresh or not; nothing else changes them. Only a read
 * through a fresh capability looks at them. Addresses from 65,536 on have no bit, and no fresh
 * capability reaches them.
 *
 * One table's bits belong to it throughout: lend the same ones with every event, also where nothing is
 * fresh. Tables that stand for parts of one memory, each with its own allocations, share them. With any
 * other `written_size` than KZ_WRITTEN_BYTES every event and run is KZ_DISORDERED; what the bits are is
 * taken as it stands.
 *
 * With any other `states_size` than sizeof(kz_states), which is its size in bytes, or with `states` NULL,
 * every event and run is KZ_DISORDERED too, whether it marks or not.
 *
 * A sheet of limits has a number for each domain, that of domain D at place D: how many capabilities that
 * it made may live at once. There are KZ_DOMAINS of them, and `limit_count` is that; where it is 0 none
 * is lent, and `limits` may be NULL. With any other count, with a sum above `rows`, or where some domain
 * has made more live ones than its limit already, every event and run is KZ_DISORDERED. So a domain below
 * its limit always has an empty row, whatever the others do: where limits are lent KZ_TABLE_FULL is never
 * given, and a create or borrow of a domain at its limit is KZ_LIMIT_REACHED. What a domain makes for
 * others to hold counts for itself alone.
 *
 * The calls for listings, and kz_charge, look neither at the bits, nor at the states, nor at the limits.
 */
typedef struct kz_lent {
    kz_cap *table;
    size_t rows;
    uint8_t *written;
    size_t written_size; /* KZ_WRITTEN_BYTES */
    kz_states *states;
    size_t states_size; /* sizeof(kz_states) */
    kz_tally *tally;
    const kz_sheet *sheet;
    const uint32_t *limits;
    size_t limit_count; /* KZ_DOMAINS, or 0 where no limits are lent */
} kz_lent;

/* All memory for a table of KZ_MAX_ROWS rows but for sheets, all zeros at first: see kz_lend. It has
   479,612 bytes, so a static one, or one from calloc, goes where a stack may be too small. */
typedef struct kz_part {
    kz_cap table[KZ_MAX_ROWS];
    uint8_t written[KZ_WRITTEN_BYTES];
    kz_states states;
    kz_tally tally;
} kz_part;

/*
 * One event. What a kind lacks is 0 where an event is read, and not looked at where one is given:
 *
 *   KZ_CREATE    start length right fresh  a new root, newly allocated, as a write through it would
 *                holders                   be: ends every capability that is touched, of whatever kind,
 *                                          whoever holds it, and its subtree
 *   KZ_BORROW    name start length right   a new capability of kind `cap_kind` under a live one, with
 *                cap_kind holders          its mark; takes nothing away
 *   KZ_READ      name start length         lowers to read-only every capability that it strikes, and
 *                                          its subtree
 *   KZ_WRITE     name start length         ends every capability that it strikes, and its subtree
 *   KZ_DROP      name                      ends the capability and its subtree
 *   KZ_DROP_ALL  start length              ends several, which stand in a list of names beside the
 *                                          event: `length` names, from the place `start` on
 *   KZ_MARK      name                      stores the table and the written bits in the slot `name`,
 *                                          0 to 7, as kz_states says
 *   KZ_BACK      name                      brings back what is stored in the slot `name`
 *
 * A read or write strikes what is touched and is neither its user nor an ancestor of its user. What it
 * then does is said here by the default sheet. Another says for each combination whether what is struck
 * stays, is lowered or ends, and a create is a stranger's write. By the default sheet there are two
 * exceptions:
 *
 *   - No read strikes a raw capability, and no write does whose user is the raw one's parent or below
 *     that parent. So a raw one, its parent, and others borrowed from that parent are used in turn.
 *   - A write whose user is a cell, or below one, strikes nothing outside that cell's subtree. So cells
 *     over the same memory are written through in turn, and what stands beside them stays. A read from
 *     there strikes as any other does, other cells too.
 *
 * A subtree goes along whatever the kinds in it: a raw one is lowered and ends with an ancestor. Where
 * all are references there is no exception.
 *
 * A create whose `fresh` is 1 makes memory that is written before it is read. A read through it, or
 * through what is borrowed from it, is KZ_NOT_WRITTEN where it reads an address whose written bit is 0,
 * as kz_lent says; one of no address never is. Whoever may write may write there first: a write asks
 * for nothing to be written. A fresh create that ends above 65,536 is KZ_ILLEGAL_SPAN.
 *
 * A span of length 0 touches nothing, so a create of length 0 ends nothing. Any other kind, any other
 * right than KZ_RO and KZ_RW, in a borrow any other `cap_kind` than the three, in a create any other
 * `fresh` than 0 and 1, and in a mark or back any other slot than 0 to 7, is KZ_MISSPELT.
 *
 * A log may write out the name of what a create or borrow makes. Then `named` is not 0, and `written`
 * is that name. Where it is not the issued number plus one, as 0 never is, the event is refused
 * KZ_MISNAMED. The other kinds lack both.
 *
 * Every kind has an `actor`, the domain that acts: 0 to 63, else the event is KZ_MISSPELT. What it goes
 * through, and each name that it drops, it must hold: KZ_NOT_HOLDER. What it makes has it as its maker,
 * and has the holders that the event gives. These must have the actor among them, else the event is
 * KZ_MISSPELT: so zeros are not enough for a create or borrow, and an event of domain 0 that nobody else
 * is to use says 1 in `holders_low`. kz_by sets all three words. A borrow may give holders that its parent
 * has not. The slots are all domains' alike: any of them may mark and go back, whatever it holds.
 *
 * Begin with all zeros: later releases add fields, in which 0 asks for what is said here.
 */
typedef struct kz_event {
    uint32_t kind;         /* KZ_CREATE to KZ_BACK */
    uint32_t name;         /* the capability that the event goes through, or the slot of a mark or back */
    uint32_t start;        /* the first address of its span, or the first place of its names, from 0 */
    uint32_t length;       /* how many addresses, or how many names */
    uint32_t right;        /* KZ_RO or KZ_RW */
    uint32_t named;        /* not 0 where a new name is written out */
    uint32_t written;      /* the new name that is written out */
    uint32_t cap_kind;     /* of what a borrow makes: KZ_REFERENCE, KZ_RAW or KZ_CELL */
    uint32_t fresh;        /* of what a create makes: 1 for write before read, else 0 */
    uint32_t actor;        /* the domain that acts, 0 to 63 */
    uint32_t holders_low;  /* of what a create or borrow makes: the lower half of its holders */
    uint32_t holders_high; /* and the higher half, as in a kz_cap */
} kz_event;

/* An answer. */
typedef struct kz_answer {
    uint32_t refusal; /* 0 for allowed, else a kz_refusal */
    uint32_t value;   /* as each call says */
} kz_answer;

/* What a capability's holders are charged: see kz_charge. */
typedef struct kz_shares {
    uint32_t refusal; /* 0 for allowed, else a kz_refusal; then the others are 0 */
    uint32_t share;   /* what each holder is charged */
    uint32_t rest;    /* what is left over, less than there are holders */
} kz_shares;

/* How many entries kz_to_columns or kz_from_columns used in each list. */
typedef struct kz_counts {
    uint32_t events;  /* how many events there are, at most KZ_MAX_COLUMN_EVENTS */
    uint32_t kinds;   /* the same: every event has one */
    uint32_t names;   /* all but creates have one */
    uint32_t starts;  /* all but drops have one */
    uint32_t lengths; /* as many as starts */
    uint32_t rights;  /* creates and borrows have one */
} kz_counts;

/*
 * A trace by column, with like beside like, as one stores it: the kinds of its events, their names,
 * starts, lengths and rights, each in the events' order, and with no entry where a kind lacks the value.
 * So `(create 0 64 rw)`, `(borrow 1 0 8 ro)`, `(write 1 32 4)` and `(drop 2)` are
 *
 *   kinds   1 2 4 5    KZ_CREATE to KZ_DROP
 *   names   1 1 2
 *   starts  0 0 32
 *   lengths 64 8 4
 *   rights  2 1        KZ_RO and KZ_RW
 *
 * Only creates, borrows, reads, writes and drops of one name have columns, and only as domain 0 does them
 * for itself alone, in lines of no more words than these: no name is written out, `cap_kind`, `fresh` and
 * `actor` are 0, what is made has 1 in `holders_low` and 0 in `holders_high`, and whatever the kind lacks
 * is 0, as kz_read_event leaves it. A right is KZ_RO or KZ_RW. Names, starts and lengths may be any: no
 * table is asked whether they are right.
 *
 * Where events are put into columns, the lengths say how much room each has. Where they are taken from
 * columns, they say how many entries each has, and that must be just as many as the kinds ask for:
 * kz_columns_used makes the second of the first.
 */
typedef struct kz_columns {
    uint8_t *kinds; /* of every event */
    size_t kinds_len;
    uint32_t *names; /* of borrows, reads, writes and drops */
    size_t names_len;
    uint32_t *starts; /* of creates, borrows, reads and writes */
    size_t starts_len;
    uint32_t *lengths; /* of the same */
    size_t lengths_len;
    uint8_t *rights; /* of creates and borrows */
    size_t rights_len;
    kz_counts used; /* how many entries the last allowed call used */
} kz_columns;

/* What kz_sizes found. */
typedef struct kz_sizing {
    uint32_t refusal; /* 0 where every line is allowed, else the kz_refusal of the first that is not */
    uint32_t rows;    /* the fewest rows with which every line is allowed; 0 where one is refused */
    uint32_t client;  /* whose line is refused, from 1; 0 where none is, or where no line was taken */
    uint32_t line;    /* which line of its trace that is, from 1; 0 in the same cases */
} kz_sizing;

/* The whole of a part, lent with the default sheet and without limits. Set `sheet`, or `limits` and
   `limit_count`, of what is returned to use others. */
static inline kz_lent kz_lend(kz_part *part);

/*
 * Sets of holders, as one number of 64 bits: that of one domain, of which several are put together by
 * `|`; that of a list of domains; and that of a row. A number above 63 is no domain: alone it gives the
 * empty set, 0, and so does a list with such a number, so that no create or borrow is allowed with it.
 */
static inline uint64_t kz_holder(uint32_t domain);
static inline uint64_t kz_holders(const uint32_t *domains, size_t count);
static inline uint64_t kz_holders_of(const kz_cap *row);

/* The event with this actor, and with these holders of what it makes. Where it makes nothing they are not
   looked at, and may be 0. */
static inline kz_event kz_by(kz_event event, uint32_t actor, uint64_t holders);

/*
 * The place of a combination in a sheet: a kind of capability, KZ_READ or KZ_WRITE, and KZ_FROM_CELL to
 * KZ_FROM_STRANGER. Any other number counts as KZ_CELL, KZ_WRITE or KZ_FROM_STRANGER, so the place is
 * always inside.
 */
static inline size_t kz_sheet_place(uint32_t kind, uint32_t access, uint32_t from);

/*
 * One event. The names of a KZ_DROP_ALL cannot be given here: it is refused KZ_MISGROUPED, and
 * kz_drop_all is the call for it.
 *
 * Whether a row is empty is judged on the table before the event: KZ_TABLE_FULL is given also where a
 * create would end some.
 *
 * Allowed: the value is the new name for a create or borrow, else 0. The table, the written bits and
 * the tally follow the event; the tally counts the event, and not what it ended. A mark changes its slot
 * alone, and a back the table and the written bits; neither is counted.
 * Refused, with value 0: KZ_DISORDERED changes nothing. Any other refusal adds one to the refused
 * count and changes nothing else.
 */
static inline kz_answer kz_apply(const kz_lent *lent, const kz_event *event);

/*
 * Many events in one call: each in its turn, as by a call of kz_apply, on what those before it left. A
 * refused one stops nothing: those after it are taken too. In `names` stand the names of every
 * KZ_DROP_ALL, which is taken as kz_drop_all takes it; several may share names. One that reaches past
 * the end of the list has no names: KZ_MISGROUPED.
 *
 * `answers` gets the answer to each event, at the same place. The number of events is returned. What is
 * lent is judged once, before the first: where the table is not in order, the written bits are not
 * KZ_WRITTEN_BYTES, no states are lent, or the limits are refused, every answer is KZ_DISORDERED, and
 * nothing else is changed. A back to what does not fit is KZ_DISORDERED by itself, changes nothing, and
 * stops nothing either.
 */
static inline size_t kz_apply_all(const kz_lent *lent, const kz_event *events, size_t count,
                                  const uint32_t *names, size_t names_len, kz_answer *answers);

/* kz_apply for each kind, with the values that the kind has, and no written name. What kz_create makes
   may be read unwritten; what kz_create_fresh makes may not. What kz_borrow makes is a reference;
   kz_borrow_as is told the kind. kz_mark and kz_back are told the slot, 0 to 7; a back to a slot in which
   nothing is stored is KZ_NOTHING_STORED. All act as domain 0, which alone holds what they make. */
static inline kz_answer kz_create(const kz_lent *lent, uint32_t start, uint32_t length,
                                  uint32_t right);
static inline kz_answer kz_create_fresh(const kz_lent *lent, uint32_t start, uint32_t length,
                                        uint32_t right);
static inline kz_answer kz_borrow(const kz_lent *lent, uint32_t name, uint32_t start,
                                  uint32_t length, uint32_t right);
static inline kz_answer kz_borrow_as(const kz_lent *lent, uint32_t name, uint32_t start,
                                     uint32_t length, uint32_t right, uint32_t kind);
static inline kz_answer kz_read(const kz_lent *lent, uint32_t name, uint32_t start,
                                uint32_t length);
static inline kz_answer kz_write(const kz_lent *lent, uint32_t name, uint32_t start,
                                 uint32_t length);
static inline kz_answer kz_drop(const kz_lent *lent, uint32_t name);
static inline kz_answer kz_mark(const kz_lent *lent, uint32_t slot);
static inline kz_answer kz_back(const kz_lent *lent, uint32_t slot);

/* The same by any domain: `actor` acts, and what it makes is held by `holders`, the actor among them, as
   kz_holder(actor) | kz_holder(other) is. */
static inline kz_answer kz_create_by(const kz_lent *lent, uint32_t actor, uint64_t holders,
                                     uint32_t start, uint32_t length, uint32_t right);
static inline kz_answer kz_create_fresh_by(const kz_lent *lent, uint32_t actor, uint64_t holders,
                                           uint32_t start, uint32_t length, uint32_t right);
static inline kz_answer kz_borrow_by(const kz_lent *lent, uint32_t actor, uint64_t holders,
                                     uint32_t name, uint32_t start, uint32_t length,
                                     uint32_t right);
static inline kz_answer kz_borrow_as_by(const kz_lent *lent, uint32_t actor, uint64_t holders,
                                        uint32_t name, uint32_t start, uint32_t length,
                                        uint32_t right, uint32_t kind);
static inline kz_answer kz_read_by(const kz_lent *lent, uint32_t actor, uint32_t name,
                                   uint32_t start, uint32_t length);
static inline kz_answer kz_write_by(const kz_lent *lent, uint32_t actor, uint32_t name,
                                    uint32_t start, uint32_t length);
static inline kz_answer kz_drop_by(const kz_lent *lent, uint32_t actor, uint32_t name);
static inline kz_answer kz_mark_by(const kz_lent *lent, uint32_t actor, uint32_t slot);
static inline kz_answer kz_back_by(const kz_lent *lent, uint32_t actor, uint32_t slot);

/*
 * Capabilities dropped together, as when a function returns: `names` has 1 to KZ_MAX_GROUP names,
 * each above the one before it. All are judged on the table before the call, in their order, and
 * either all are dropped, with their subtrees, or none. So a name may be below another of the list.
 * The table is then as after kz_drop of each in falling order. One name is kz_drop. The actor must hold
 * each of the names, and need not hold what is below them; without one it is domain 0.
 *
 * Allowed: the value is 0. The tally counts one drop, however many names there are.
 * Refused, with value 0: KZ_DISORDERED changes nothing. KZ_MISGROUPED for any other list, else
 * KZ_MISSPELT for an actor above 63, else the first name that is refused gives KZ_UNISSUED, KZ_ENDED or
 * KZ_NOT_HOLDER; these add one to the refused count and change nothing else.
 */
static inline kz_answer kz_drop_all(const kz_lent *lent, const uint32_t *names, size_t count);
static inline kz_answer kz_drop_all_by(const kz_lent *lent, uint32_t actor, const uint32_t *names,
                                       size_t count);

/*
 * What the holders of a live capability are charged for it: its length in equal shares, `share` for each,
 * and `rest` addresses are left over. So the length is `share` times the number of holders, plus `rest`.
 *
 * Refused: KZ_DISORDERED for a table that is not in order, else KZ_UNISSUED or KZ_ENDED. Nothing is
 * changed, and nothing counted; neither the written bits, the states, the limits nor who asks are looked
 * at.
 */
static inline kz_shares kz_charge(const kz_lent *lent, uint32_t name);

/*
 * A run of event lines, until one is refused. The table, the written bits and the states are then as after
 * the last allowed line.
 *
 * In a text whose first line is KZ_NAMED_HEADER every create and borrow has its new name written out,
 * else none has: the lines are those of kz_write_event. That first line is counted as a line; it is no
 * event and raises no count. Anywhere else it is refused KZ_MISSPELT. In both, a line of several names
 * drops them together, as kz_drop_all does.
 *
 * Allowed: the value is the number of lines. An empty text is a run of no lines.
 * Refused: the value is the number of the refused line, from 1, which adds one to the refused count.
 * KZ_DISORDERED of what is lent has value 0 and changes nothing, whatever the text; that of a back has the
 * value of its line, the lines before it stand, and the refused count stays.
 */
static inline kz_answer kz_run(const kz_lent *lent, const uint8_t *text, size_t text_len);

/*
 * Writes the line of an event, its newline included, to the start of `out`; the bytes after it stay.
 * What the kind lacks is not looked at. The lines are `(create START LENGTH RIGHT)`,
 * `(borrow NAME START LENGTH RIGHT)`, `(read NAME START LENGTH)`, `(write NAME START LENGTH)`,
 * `(drop NAME)`, `(mark SLOT)` and `(back SLOT)`; with a written name
 * `(create WRITTEN START LENGTH RIGHT)` and `(borrow WRITTEN NAME START LENGTH RIGHT)`; and
 * `(drop NAME .. NAME)` of a KZ_DROP_ALL, whose names stand in `names` as for kz_apply_all. Of one name
 * that is the line of KZ_DROP. Behind the right a create has ` fresh` where its `fresh` is 1, and a borrow
 * ` raw` or ` cell` where that is its `cap_kind`; that it is a reference is not written, nor which mark it
 * has from its parent. Last come the holders, as 16 digits 0 to 9 and a to f, the highest first; where the
 * actor alone holds what is made they are not written. The line of any other actor than 0 is
 * `(as ACTOR LINE)`, as in `(as 3 (read 2 0 8))`. Any other numbers may be written; whether they are right
 * is judged on a table.
 *
 * Allowed: the value is the length written, at most KZ_MAX_LINE, KZ_MAX_NAMED_LINE with a written
 * name, and KZ_MAX_DROP_LINE of a KZ_DROP_ALL.
 * Refused: KZ_MISGROUPED for a KZ_DROP_ALL of no name, of more than KZ_MAX_GROUP, or of names that do
 * not rise strictly; KZ_MISSPELT for an unknown kind, right or actor, for a `cap_kind`, `fresh` or slot
 * that the event has and that is none, and for holders without the actor; else KZ_BUFFER_TOO_SHORT. `out`
 * is untouched.
 */
static inline kz_answer kz_write_event(const kz_event *event, const uint32_t *names,
                                       size_t names_len, uint8_t *out, size_t out_len);

/*
 * Reads exactly one line of kz_write_event, its newline included: where `named` is not 0 one of a text
 * in which new names are written out, else one of a text in which none is. All but creates and borrows are
 * the same in both. `names` has room for KZ_MAX_GROUP.
 *
 * Allowed: the value is 0. `event` gets the event, with 0 for what its kind lacks, 1 in `named` where a
 * new name was read, and the holders of what it makes, written or not. A line of two names or more is a
 * KZ_DROP_ALL from place 0 on: `names` gets its names, and those after them stay. Of any other line
 * `names` is untouched.
 * Refused: KZ_MISSPELT, as of names that do not rise strictly or are too many. `event` and `names` are
 * untouched.
 */
static inline kz_answer kz_read_event(uint32_t named, const uint8_t *line, size_t line_len,
                                      kz_event *event, uint32_t names[64]);

/*
 * Writes the listing of a table and of its tally's issued number to the start of `out`; the bytes
 * after it stay. It is `(issued N)`, then a line for each created capability by rising name: its name,
 * start, length, right, `raw` or `cell` where that is its kind, `fresh` where it is marked, its maker,
 * its holders in 16 digits, and those borrowed from it in the same form, as in
 * `(1 0 64 rw 0 0000000000000009 (2 0 8 rw raw 3 0000000000000008))`, whose 1 was made by domain 0 for
 * itself and domain 3, and 2 by domain 3 for itself. Neither the written bits nor the states are in it.
 *
 * Allowed: the value is the length written.
 * Refused: KZ_DISORDERED, else KZ_BUFFER_TOO_SHORT. `out` is untouched.
 */
static inline kz_answer kz_write_listing(const kz_lent *lent, uint8_t *out, size_t out_len);

/*
 * Reads a listing into a table, whose old contents are not judged, and into the tally's issued
 * number. The tally's other counts stay, and so do the written bits and the states: they have to be those
 * that the listed table had.
 *
 * Allowed: the value is 0. The whole table is written.
 * Refused: KZ_DISORDERED for more than KZ_MAX_ROWS rows, else KZ_MISSPELT when no table in order has
 * this listing, else KZ_TABLE_FULL when it has more capabilities than rows. Nothing is changed.
 */
static inline kz_answer kz_read_listing(const kz_lent *lent, const uint8_t *text, size_t text_len);

/*
 * Reads the text of a conflict sheet: lines such as
 *
 *   (rule (holder raw cell) (access write) (from kin) keep)
 *
 * each ended by a newline, with one space between words. Holders are `reference`, `raw` and `cell`;
 * accesses `read` and `write`; from `cell`, `kin` and `stranger`; results `keep`, `lower` and `end`.
 * The brackets stand in this order, and each lists one word or more, in any order. A rule gives its
 * result to every combination of its words, and every combination must be given exactly once in the
 * whole text.
 *
 * Allowed: the value is 0, and `sheet` gets the sheet.
 * Refused, over the whole text: KZ_MISSPELT where a line is not of this form, as an empty line or a
 * last one without its newline; else KZ_GIVEN_TWICE, as by a word that is repeated in a bracket; else
 * KZ_NOT_GIVEN, as by an empty text. `sheet` is untouched.
 */
static inline kz_answer kz_read_sheet(const uint8_t *text, size_t text_len, kz_sheet *sheet);

/*
 * Writes one text of a sheet, NULL for the default one, to the start of `out`; the bytes after it stay.
 * It has a line for each combination, by rising place, and reads back to the sheet.
 *
 * Allowed: the value is the length written, at most KZ_MAX_SHEET.
 * Refused: KZ_BUFFER_TOO_SHORT. `out` is untouched.
 */
static inline kz_answer kz_write_sheet(const kz_sheet *sheet, uint8_t *out, size_t out_len);

/*
 * Puts events, in their order, into columns, from the start of each; the entries behind them stay.
 *
 * Allowed: the value is the number of events, and `used` has how many entries each column got.
 * Refused, with value 0: KZ_MISSPELT for more than KZ_MAX_COLUMN_EVENTS events, and where one of them has
 * no columns, as kz_columns says; else KZ_BUFFER_TOO_SHORT where a column has too little room. No entry
 * is touched, nor `used`.
 */
static inline kz_answer kz_to_columns(const kz_event *events, size_t count, kz_columns *columns);

/*
 * Takes the events from columns to the start of `events`, which has `room` of them; those behind stay. They
 * are those that kz_to_columns puts into these columns, word for word. The entries of the columns are only
 * read; where they are const, kz_abi_from_columns is the call.
 *
 * Allowed: the value is the number of events, and `used` has it with how many entries each column has.
 * Refused, with value 0: KZ_MISSPELT for more than KZ_MAX_COLUMN_EVENTS kinds, for a kind that is none of
 * KZ_CREATE to KZ_DROP or a right that is neither KZ_RO nor KZ_RW, and where another column has more or
 * fewer entries than the kinds ask for; else KZ_BUFFER_TOO_SHORT where `room` is too little. No event is
 * touched, nor `used`.
 */
static inline kz_answer kz_from_columns(kz_columns *columns, kz_event *events, size_t room);

/* The same columns, of which each has as many entries as `used` says: what kz_to_columns has filled, to be
   given to kz_from_columns. */
static inline kz_columns kz_columns_used(const kz_columns *columns);

/*
 * Writes what the program capcheck prints for an input to the start of `out`; the bytes after it
 * stay. That is `(allowed LINES)` or `(refused NUMBER LINE)` for a run on KZ_MAX_ROWS empty rows, with
 * no address written and nothing stored, by the default sheet and without limits, and the listing after
 * it, or `(long)` alone for an input above KZ_MAX_INPUT bytes. `states` is its working space: whatever
 * stands there before is not looked at, and what stands there afterwards is not said.
 *
 * Allowed: the value is the length written, whatever the run's own verdict.
 * Refused: KZ_BUFFER_TOO_SHORT. `out` is untouched.
 */
static inline kz_answer kz_check(kz_states *states, const uint8_t *input, size_t input_len,
                                 uint8_t *out, size_t out_len);

/*
 * Tries how many rows a table needs for clients that use it together: programs, cores, or whatever else is
 * recorded apart and is to share one table. A client is its trace, a text of event lines. The traces stand
 * in `text` end to end, and `lengths` has how many bytes each of them has, `count` numbers in the same
 * order.
 *
 * One line of each client is taken in turn, from the first client on, and then from the first again. A
 * client whose lines are all taken is passed over, one with an empty trace from the start. All lines are
 * taken on one table, empty at first, by the default sheet and without limits, as domain 0's. They are
 * `(create START LENGTH RIGHT)`, `(borrow NAME START LENGTH RIGHT)`, `(read NAME START LENGTH)`,
 * `(write NAME START LENGTH)` and `(drop NAME)`, without any other words.
 *
 * Each client counts names for itself: what its first create or borrow makes is its 1, whatever the others
 * make. A name that it was not yet given is KZ_UNISSUED. Addresses are the same for all: a create of one
 * client ends what it touches of another's. So clients that share no memory are recorded at addresses of
 * their own.
 *
 * Allowed: the value is the fewest rows with which every line is allowed, at most KZ_MAX_ROWS. With fewer
 * some line is KZ_TABLE_FULL; with more every line is allowed too. Where nothing is made, as where there
 * is no client, it is 0. Lines that are taken in another order may need more.
 * Refused, with value 0: the first line that is refused on KZ_MAX_ROWS rows gives the refusal. That is
 * KZ_MISSPELT for a line with other words, and for a last one without its newline, and KZ_TABLE_FULL where
 * KZ_MAX_ROWS rows are too few. KZ_MISSPELT also for more than KZ_MAX_CLIENTS lengths, and for lengths
 * that are not `text_len` together: then no line is taken.
 *
 * In both cases `report` gets all of it, and where a line is refused whose it is and which. Nothing else is
 * changed, and nothing is kept: the table is the call's own, and stands on the caller's stack.
 */
static inline kz_answer kz_sizes(const uint8_t *text, size_t text_len, const uint32_t *lengths,
                                 size_t count, kz_sizing *report);

/*
 * The functions that the archives export. The calls above are made of these, which have the parts of
 * a kz_lent one by one. A language that cannot include this header declares them itself: each of their
 * structs is a run of 32-bit words without gaps, and each length is a size_t. Written bits are bytes
 * and how many they are, which must be KZ_WRITTEN_BYTES. Room for states is rows and how many they are,
 * and bytes and how many they are, 8,200 and 65,536 as a kz_states has them: any other number of either is
 * KZ_DISORDERED, and kz_abi_check writes `(refused 1 0)` then. A sheet is its bytes and how many they are:
 * none is the default one, of fewer than KZ_SHEET_PLACES the missing ones count as KZ_END, and of more
 * the first count. Limits are 32-bit numbers and how many they are, none or KZ_DOMAINS. An answer is one
 * number, the refusal times 2^32 plus the value; only kz_abi_apply_all writes kz_answer structs,
 * kz_abi_charge a kz_shares, the two calls for columns a kz_counts, and kz_abi_sizes a kz_sizing.
 */

/* Both archives. */

/* kz_apply; for a KZ_DROP_ALL `names` is the list in which its names stand. */
uint64_t kz_abi_apply(kz_cap *table, size_t rows, uint8_t *written, size_t written_size,
                      kz_cap *stored, size_t stored_rows, uint8_t *stored_bits,
                      size_t stored_size, kz_tally *tally, const uint8_t *sheet, size_t sheet_len,
                      const uint32_t *limits, size_t limit_count, const kz_event *event,
                      const uint32_t *names, size_t names_len);

/*
 * kz_apply_all of as many events as there are answers for, or of all where there are more answers;
 * those behind stay. It returns how many events it took.
 */
size_t kz_abi_apply_all(kz_cap *table, size_t rows, uint8_t *written, size_t written_size,
                        kz_cap *stored, size_t stored_rows, uint8_t *stored_bits,
                        size_t stored_size, kz_tally *tally, const uint8_t *sheet,
                        size_t sheet_len, const uint32_t *limits, size_t limit_count,
                        const kz_event *events, size_t count, const uint32_t *names,
                        size_t names_len, kz_answer *answers, size_t answers_len);

/* kz_charge, which takes of the tally the issued number alone. */
void kz_abi_charge(const kz_cap *table, size_t rows, uint32_t issued, uint32_t name,
                   kz_shares *charge);

/* libkelzoud.a alone. */

uint64_t kz_abi_run(kz_cap *table, size_t rows, uint8_t *written, size_t written_size,
                    kz_cap *stored, size_t stored_rows, uint8_t *stored_bits, size_t stored_size,
                    kz_tally *tally, const uint8_t *sheet, size_t sheet_len, const uint32_t *limits,
                    size_t limit_count, const uint8_t *text, size_t text_len);

uint64_t kz_abi_write_event(const kz_event *event, const uint32_t *names, size_t names_len,
                            uint8_t *out, size_t out_len);

uint64_t kz_abi_read_event(uint32_t named, const uint8_t *line, size_t line_len, kz_event *event,
                           uint32_t names[64]);

/* kz_write_listing, which takes of the tally the issued number alone. */
uint64_t kz_abi_write_listing(const kz_cap *table, size_t rows, uint32_t issued, uint8_t *out,
                              size_t out_len);

uint64_t kz_abi_read_listing(kz_cap *table, size_t rows, kz_tally *tally, const uint8_t *text,
                             size_t text_len);

uint64_t kz_abi_read_sheet(const uint8_t *text, size_t text_len, uint8_t sheet[18]);

uint64_t kz_abi_write_sheet(const uint8_t *sheet, size_t sheet_len, uint8_t *out, size_t out_len);

uint64_t kz_abi_to_columns(const kz_event *events, size_t count, uint8_t *kinds, size_t kinds_len,
                           uint32_t *names, size_t names_len, uint32_t *starts, size_t starts_len,
                           uint32_t *lengths, size_t lengths_len, uint8_t *rights,
                           size_t rights_len, kz_counts *used);

uint64_t kz_abi_from_columns(const uint8_t *kinds, size_t kinds_len, const uint32_t *names,
                             size_t names_len, const uint32_t *starts, size_t starts_len,
                             const uint32_t *lengths, size_t lengths_len, const uint8_t *rights,
                             size_t rights_len, kz_event *events, size_t events_len,
                             kz_counts *used);

uint64_t kz_abi_check(const uint8_t *input, size_t input_len, kz_cap *stored, size_t stored_rows,
                      uint8_t *stored_bits, size_t stored_size, uint8_t *out, size_t out_len);

uint64_t kz_abi_sizes(const uint8_t *text, size_t text_len, const uint32_t *lengths, size_t count,
                      kz_sizing *report);

/* The bodies of the calls. */

static inline kz_answer kz_abi_answer(uint64_t answer) {
    const kz_answer parts = {(uint32_t)(answer >> 32), (uint32_t)(answer & 0xffffffffu)};
    return parts;
}

static inline kz_lent kz_lend(kz_part *part) {
    const kz_lent lent = {part->table,   KZ_MAX_ROWS,      part->written, KZ_WRITTEN_BYTES,
                          &part->states, sizeof(kz_states), &part->tally,  NULL,
                          NULL,          0};
    return lent;
}

static inline uint64_t kz_holder(uint32_t domain) {
    return domain < KZ_DOMAINS ? (uint64_t)1 << domain : 0;
}

static inline uint64_t kz_holders(const uint32_t *domains, size_t count) {
    uint64_t holders = 0;
    size_t i;
    for (i = 0; i < count; i++) {
        if (domains[i] >= KZ_DOMAINS) return 0;
        holders |= kz_holder(domains[i]);
    }
    return holders;
}

static inline uint64_t kz_holders_of(const kz_cap *row) {
    return (uint64_t)row->holders_high << 32 | row->holders_low;
}

static inline kz_event kz_by(kz_event event, uint32_t actor, uint64_t holders) {
    event.actor = actor;
    event.holders_low = (uint32_t)(holders & 0xffffffffu);
    event.holders_high = (uint32_t)(holders >> 32);
    return event;
}

static inline size_t kz_sheet_place(uint32_t kind, uint32_t access, uint32_t from) {
    return (kind < 2 ? kind : 2) * (size_t)6 + (access == KZ_READ ? 0 : 3) + (from < 2 ? from : 2);
}

/* The bytes of a sheet, and how many they are. */
static inline const uint8_t *kz_abi_results(const kz_sheet *sheet) {
    return sheet == NULL ? NULL : sheet->results;
}

static inline size_t kz_abi_places(const kz_sheet *sheet) {
    return sheet == NULL ? 0 : KZ_SHEET_PLACES;
}

/* Room for states, and how many rows and bytes it has: none where it has another size. */
static inline int kz_abi_has_states(const kz_lent *lent) {
    return lent->states != NULL && lent->states_size == sizeof(kz_states);
}

static inline kz_cap *kz_abi_stored(const kz_lent *lent) {
    return kz_abi_has_states(lent) ? lent->states->rows : NULL;
}

static inline size_t kz_abi_stored_rows(const kz_lent *lent) {
    return kz_abi_has_states(lent) ? (size_t)KZ_SLOTS * (KZ_MAX_ROWS + 1) : 0;
}

static inline uint8_t *kz_abi_stored_bits(const kz_lent *lent) {
    return kz_abi_has_states(lent) ? lent->states->written : NULL;
}

static inline size_t kz_abi_stored_size(const kz_lent *lent) {
    return kz_abi_has_states(lent) ? (size_t)KZ_SLOTS * KZ_WRITTEN_BYTES : 0;
}

/* One event, and the list in which its names stand. */
static inline kz_answer kz_abi_take(const kz_lent *lent, const kz_event *event,
                                    const uint32_t *names, size_t names_len) {
    return kz_abi_answer(kz_abi_apply(
        lent->table, lent->rows, lent->written, lent->written_size, kz_abi_stored(lent),
        kz_abi_stored_rows(lent), kz_abi_stored_bits(lent), kz_abi_stored_size(lent), lent->tally,
        kz_abi_results(lent->sheet), kz_abi_places(lent->sheet), lent->limits, lent->limit_count,
        event, names, names_len));
}

static inline kz_answer kz_apply(const kz_lent *lent, const kz_event *event) {
    return kz_abi_take(lent, event, NULL, 0);
}

static inline size_t kz_apply_all(const kz_lent *lent, const kz_event *events, size_t count,
                                  const uint32_t *names, size_t names_len, kz_answer *answers) {
    return kz_abi_apply_all(
        lent->table, lent->rows, lent->written, lent->written_size, kz_abi_stored(lent),
        kz_abi_stored_rows(lent), kz_abi_stored_bits(lent), kz_abi_stored_size(lent), lent->tally,
        kz_abi_results(lent->sheet), kz_abi_places(lent->sheet), lent->limits, lent->limit_count,
        events, count, names, names_len, answers, count);
}

static inline kz_answer kz_create(const kz_lent *lent, uint32_t start, uint32_t length,
                                  uint32_t right) {
    return kz_create_by(lent, 0, kz_holder(0), start, length, right);
}

static inline kz_answer kz_create_fresh(const kz_lent *lent, uint32_t start, uint32_t length,
                                        uint32_t right) {
    return kz_create_fresh_by(lent, 0, kz_holder(0), start, length, right);
}

static inline kz_answer kz_borrow(const kz_lent *lent, uint32_t name, uint32_t start,
                                  uint32_t length, uint32_t right) {
    return kz_borrow_by(lent, 0, kz_holder(0), name, start, length, right);
}

static inline kz_answer kz_borrow_as(const kz_lent *lent, uint32_t name, uint32_t start,
                                     uint32_t length, uint32_t right, uint32_t kind) {
    return kz_borrow_as_by(lent, 0, kz_holder(0), name, start, length, right, kind);
}

static inline kz_answer kz_read(const kz_lent *lent, uint32_t name, uint32_t start,
                                uint32_t length) {
    return kz_read_by(lent, 0, name, start, length);
}

static inline kz_answer kz_write(const kz_lent *lent, uint32_t name, uint32_t start,
                                 uint32_t length) {
    return kz_write_by(lent, 0, name, start, length);
}

static inline kz_answer kz_drop(const kz_lent *lent, uint32_t name) {
    return kz_drop_by(lent, 0, name);
}

static inline kz_answer kz_mark(const kz_lent *lent, uint32_t slot) {
    return kz_mark_by(lent, 0, slot);
}

static inline kz_answer kz_back(const kz_lent *lent, uint32_t slot) {
    return kz_back_by(lent, 0, slot);
}

static inline kz_answer kz_create_by(const kz_lent *lent, uint32_t actor, uint64_t holders,
                                     uint32_t start, uint32_t length, uint32_t right) {
    const kz_event create = {KZ_CREATE, 0, start, length, right, 0, 0, 0, 0, 0, 0, 0};
    const kz_event event = kz_by(create, actor, holders);
    return kz_apply(lent, &event);
}

static inline kz_answer kz_create_fresh_by(const kz_lent *lent, uint32_t actor, uint64_t holders,
                                           uint32_t start, uint32_t length, uint32_t right) {
    const kz_event create = {KZ_CREATE, 0, start, length, right, 0, 0, 0, 1, 0, 0, 0};
    const kz_event event = kz_by(create, actor, holders);
    return kz_apply(lent, &event);
}

static inline kz_answer kz_borrow_by(const kz_lent *lent, uint32_t actor, uint64_t holders,
                                     uint32_t name, uint32_t start, uint32_t length,
                                     uint32_t right) {
    return kz_borrow_as_by(lent, actor, holders, name, start, length, right, KZ_REFERENCE);
}

static inline kz_answer kz_borrow_as_by(const kz_lent *lent, uint32_t actor, uint64_t holders,
                                        uint32_t name, uint32_t start, uint32_t length,
                                        uint32_t right, uint32_t kind) {
    const kz_event borrow = {KZ_BORROW, name, start, length, right, 0, 0, kind, 0, 0, 0, 0};
    const kz_event event = kz_by(borrow, actor, holders);
    return kz_apply(lent, &event);
}

static inline kz_answer kz_read_by(const kz_lent *lent, uint32_t actor, uint32_t name,
                                   uint32_t start, uint32_t length) {
    const kz_event event = {KZ_READ, name, start, length, 0, 0, 0, 0, 0, actor, 0, 0};
    return kz_apply(lent, &event);
}

static inline kz_answer kz_write_by(const kz_lent *lent, uint32_t actor, uint32_t name,
                                    uint32_t start, uint32_t length) {
    const kz_event event = {KZ_WRITE, name, start, length, 0, 0, 0, 0, 0, actor, 0, 0};
    return kz_apply(lent, &event);
}

static inline kz_answer kz_drop_by(const kz_lent *lent, uint32_t actor, uint32_t name) {
    const kz_event event = {KZ_DROP, name, 0, 0, 0, 0, 0, 0, 0, actor, 0, 0};
    return kz_apply(lent, &event);
}

static inline kz_answer kz_mark_by(const kz_lent *lent, uint32_t actor, uint32_t slot) {
    const kz_event event = {KZ_MARK, slot, 0, 0, 0, 0, 0, 0, 0, actor, 0, 0};
    return kz_apply(lent, &event);
}

static inline kz_answer kz_back_by(const kz_lent *lent, uint32_t actor, uint32_t slot) {
    const kz_event event = {KZ_BACK, slot, 0, 0, 0, 0, 0, 0, 0, actor, 0, 0};
    return kz_apply(lent, &event);
}

static inline kz_answer kz_drop_all(const kz_lent *lent, const uint32_t *names, size_t count) {
    return kz_drop_all_by(lent, 0, names, count);
}

static inline kz_answer kz_drop_all_by(const kz_lent *lent, uint32_t actor, const uint32_t *names,
                                       size_t count) {
    /* No list above KZ_MAX_GROUP is a group, so that of a longer one, which may be longer than 32 bits
       can say, one name more than that is enough to be refused. */
    const size_t length = count <= KZ_MAX_GROUP ? count : KZ_MAX_GROUP + 1;
    const kz_event event = {KZ_DROP_ALL, 0, 0, (uint32_t)length, 0, 0, 0, 0, 0, actor, 0, 0};
    return kz_abi_take(lent, &event, names, length);
}

static inline kz_shares kz_charge(const kz_lent *lent, uint32_t name) {
    kz_shares charge;
    kz_abi_charge(lent->table, lent->rows, lent->tally->issued, name, &charge);
    return charge;
}

static inline kz_answer kz_run(const kz_lent *lent, const uint8_t *text, size_t text_len) {
    return kz_abi_answer(kz_abi_run(
        lent->table, lent->rows, lent->written, lent->written_size, kz_abi_stored(lent),
        kz_abi_stored_rows(lent), kz_abi_stored_bits(lent), kz_abi_stored_size(lent), lent->tally,
        kz_abi_results(lent->sheet), kz_abi_places(lent->sheet), lent->limits, lent->limit_count,
        text, text_len));
}

static inline kz_answer kz_write_event(const kz_event *event, const uint32_t *names,
                                       size_t names_len, uint8_t *out, size_t out_len) {
    return kz_abi_answer(kz_abi_write_event(event, names, names_len, out, out_len));
}

static inline kz_answer kz_read_event(uint32_t named, const uint8_t *line, size_t line_len,
                                      kz_event *event, uint32_t names[64]) {
    return kz_abi_answer(kz_abi_read_event(named, line, line_len, event, names));
}

static inline kz_answer kz_write_listing(const kz_lent *lent, uint8_t *out, size_t out_len) {
    return kz_abi_answer(kz_abi_write_listing(lent->table, lent->rows, lent->tally->issued, out,
                                              out_len));
}

static inline kz_answer kz_read_listing(const kz_lent *lent, const uint8_t *text, size_t text_len) {
    return kz_abi_answer(
        kz_abi_read_listing(lent->table, lent->rows, lent->tally, text, text_len));
}

static inline kz_answer kz_read_sheet(const uint8_t *text, size_t text_len, kz_sheet *sheet) {
    return kz_abi_answer(kz_abi_read_sheet(text, text_len, sheet->results));
}

static inline kz_answer kz_write_sheet(const kz_sheet *sheet, uint8_t *out, size_t out_len) {
    return kz_abi_answer(
        kz_abi_write_sheet(kz_abi_results(sheet), kz_abi_places(sheet), out, out_len));
}

static inline kz_answer kz_to_columns(const kz_event *events, size_t count, kz_columns *columns) {
    return kz_abi_answer(kz_abi_to_columns(
        events, count, columns->kinds, columns->kinds_len, columns->names, columns->names_len,
        columns->starts, columns->starts_len, columns->lengths, columns->lengths_len,
        columns->rights, columns->rights_len, &columns->used));
}

static inline kz_answer kz_from_columns(kz_columns *columns, kz_event *events, size_t room) {
    return kz_abi_answer(kz_abi_from_columns(
        columns->kinds, columns->kinds_len, columns->names, columns->names_len, columns->starts,
        columns->starts_len, columns->lengths, columns->lengths_len, columns->rights,
        columns->rights_len, events, room, &columns->used));
}

static inline kz_columns kz_columns_used(const kz_columns *columns) {
    kz_columns used = *columns;
    used.kinds_len = used.used.kinds;
    used.names_len = used.used.names;
    used.starts_len = used.used.starts;
    used.lengths_len = used.used.lengths;
    used.rights_len = used.used.rights;
    return used;
}

static inline kz_answer kz_check(kz_states *states, const uint8_t *input, size_t input_len,
                                 uint8_t *out, size_t out_len) {
    return kz_abi_answer(kz_abi_check(input, input_len, states->rows,
                                      (size_t)KZ_SLOTS * (KZ_MAX_ROWS + 1), states->written,
                                      (size_t)KZ_SLOTS * KZ_WRITTEN_BYTES, out, out_len));
}

static inline kz_answer kz_sizes(const uint8_t *text, size_t text_len, const uint32_t *lengths,
                                 size_t count, kz_sizing *report) {
    return kz_abi_answer(kz_abi_sizes(text, text_len, lengths, count, report));
}

#ifdef __cplusplus
}
#endif

#endif
