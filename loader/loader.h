/* The query planner and evaluator for the bootloader: the public calls from C. Link target/staticlib/libloader.a (`./archive loader`).

   Every call is proved to return, for any words, and to do exactly what is said here (crates/loader_c, docs/PROMISES.md). What the proof
   takes for granted is C's part, and yours:
   - Each pointer to a struct or an array points to a whole one; each pointer with a length to so many elements, aligned, also where the
     length is 0 (then any pointer but NULL will do).
   - What a call writes (no `const`) overlaps nothing else that the same call is given.
   - No other thread or interrupt writes what a call is given while it runs.

   The archive asks for memcpy and memset, and for nothing else. Its code may use the SSE registers and the 128 bytes below the
   stack pointer, as the System V convention allows: a bootloader turns SSE on first, and takes interrupts on another stack.

   Nothing is kept: everything is lent for the time of the call and stays yours. Nothing is allocated, and there is no global state, so
   that calls may run at the same time on different buffers. x86-64, System V calling convention.

   Stack: no call takes more than LOADER_STACK bytes (loader/run measures it).

   A refused call writes its answer, and nothing else: plan, order, types, tables, rows, text, image, swap and swap state stay as they were. */
#ifndef LOADER_H
#define LOADER_H
#include <stddef.h>
#include <stdint.h>

#ifdef __cplusplus
extern "C" {
#endif

enum { LOADER_STACK = 66560 };

enum {
    LOADER_MAX_STATEMENTS = 63,
    LOADER_MAX_SCANS = LOADER_MAX_STATEMENTS,
    LOADER_MAX_SLOTS = 126,
    LOADER_MAX_SELECTS = 32,
    LOADER_MAX_SEARCHED = 6,
    LOADER_MAX_ELEMENTS = LOADER_MAX_STATEMENTS,
    /* bytes of the longest image: three counts, slots that are constants, scans, selects, and the rest of the last byte */
    LOADER_MAX_IMAGE = (19 + 65 * LOADER_MAX_SLOTS + 82 * LOADER_MAX_SCANS + 7 * LOADER_MAX_SELECTS + 7) / 8
};

/* Why a call is refused. The order in which the numbers are tried is document 01's: planning 10 to 16 ascending; search 10 to 15, 17,
   18; plan check 20, 13, then scan by scan 21 to 24, then 25, then select by select 26 or 29; cost and next 20, 21, cost then 27;
   evaluation the plan check, 1, 2, 3; text the plan check, 30, 31; a select's name the plan check, 30, 26; swaps 40; types 10 to 16, 50,
   then statement by statement 52 of its entity, 51, 52 of its value; storing the plan check, 64; restoring 60 to 63 and 20 as they are met,
   then the plan check; building 70, 71. Within a number the lowest place is given. */
enum loader_refusal {
    LOADER_FINE = 0,                  /* not refused */
    LOADER_TABLE_LENGTH = 1,          /* a table's length is no multiple of 3, or lengths differ; place 0 */
    LOADER_TABLE_ORDER = 2,           /* a table isn't strictly ascending; place 0 aevt, 1 avet, 2 eavt */
    LOADER_TABLE_MISSING = 3,         /* a fact of aevt is missing in avet or eavt; place: its row in aevt */
    LOADER_TOO_MANY_STATEMENTS = 10,  /* more statements than fit; place 0 */
    LOADER_TOO_MANY_SLOTS = 11,       /* variables and constants are more than fit; place 0 */
    LOADER_TOO_MANY_SELECTS = 12,     /* more selects than fit; place 0 */
    LOADER_NO_SELECTS = 13,           /* no selects, of a query or a plan; place 0 */
    LOADER_NO_SUCH_VARIABLE = 14,     /* a variable number not below the variable count; place: statement, or statement count + select */
    LOADER_UNUSED_VARIABLE = 15,      /* a variable in no statement; place: the variable */
    LOADER_BOUND_TWICE = 16,          /* entity and value are one variable, new there; place: statement */
    LOADER_TOO_MANY_TO_SEARCH = 17,   /* search over 6 statements; place 0 */
    LOADER_NO_SOUND_ORDER = 18,       /* no order of the statements is sound; place 0 */
    LOADER_PLAN_COUNTS = 20,          /* a plan counts more slots, scans or selects than fit; place 0 */
    LOADER_OUT_OUT_EAVT = 21,         /* a scan is out-out over eavt, or its index or flow is none; place: scan */
    LOADER_NO_SUCH_SLOT = 22,         /* a scan names no slot of the plan; place: scan */
    LOADER_WRITES_SET_SLOT = 23,      /* a scan writes a slot that is set; place: scan */
    LOADER_READS_UNSET_SLOT = 24,     /* a scan reads a slot that is not set; place: scan */
    LOADER_SLOT_NEVER_SET = 25,       /* a slot is never set; place: the slot */
    LOADER_NO_SUCH_SELECT = 26,       /* a select names no slot, or there is no such select; place: select */
    LOADER_COST_TOO_LARGE = 27,       /* cost over 2^64 - 1; place: the scan at which, working from the last, it first passes */
    LOADER_NO_SCANS = 28,             /* evaluation of no scans; never given: such a plan is refused 29 or earlier */
    LOADER_CONSTANT_SELECTED = 29,    /* a select names a constant; place: select */
    LOADER_NAME_ENDS = 30,            /* name ends fall, pass the name bytes, or aren't one per slot; place 0 */
    LOADER_TEXT_TOO_SHORT = 31,       /* text buffer too short for the whole text; place 0 */
    LOADER_TOO_MANY_ELEMENTS = 40,    /* a swap state of more elements than fit, given or asked for; place 0 */
    LOADER_TYPE_TABLE = 50,           /* a table of types is of odd length or isn't strictly ascending by attribute; place 0 */
    LOADER_NO_SUCH_ATTRIBUTE = 51,    /* an attribute is not in the table of types; place: statement */
    LOADER_TYPE_CLASH = 52,           /* a variable is used as two types; place: statement */
    LOADER_BITS_RUN_OUT = 60,         /* an image's bits run out; place: the byte where the field begins, as with the next three */
    LOADER_NO_SUCH_CODE = 61,         /* a code 3, which is no index and no flow */
    LOADER_PAD_NOT_ZERO = 62,         /* a pad bit is not zero */
    LOADER_BYTE_TOO_MANY = 63,        /* a byte too many */
    LOADER_NO_ROOM_FOR_IMAGE = 64,    /* image buffer too short for the whole image; place 0 */
    LOADER_HEAP_LENGTH = 70,          /* a heap's length is no multiple of 3; place 0 */
    LOADER_BUFFER_TOO_SHORT = 71      /* a buffer for a table is shorter than the heap; place 0 */
};

/* What a call answers, besides what it returns. A call writes all four words. */
struct loader_answer {
    uint64_t number; /* LOADER_FINE or the refusal's number; the call returns the same */
    uint64_t place;  /* the refusal's place, 0 where there is none */
    uint64_t first;  /* what the call says below; 0 where it is refused, or says nothing */
    uint64_t second;
};

/* A query. Words past the counts are not looked at. */
struct loader_statement {
    uint64_t entity;      /* a variable */
    uint64_t attribute;   /* any number */
    uint64_t is_constant; /* 1: the value is a constant; 0: a variable; anything else is refused, 14 */
    uint64_t value;       /* the constant, any number; or the variable */
};

struct loader_query {
    uint64_t variable_count;
    uint64_t statement_count;
    uint64_t select_count;
    struct loader_statement statements[LOADER_MAX_STATEMENTS];
    uint64_t select[LOADER_MAX_SELECTS]; /* variables */
};

enum loader_index { LOADER_AEVT = 0, LOADER_AVET = 1, LOADER_EAVT = 2 };
enum loader_flow { LOADER_OUT_OUT = 0, LOADER_IN_OUT = 1, LOADER_IN_IN = 2 };

/* A plan. Slot i is variable i; the constants of the query come after, in order. Words past the counts are not looked at;
   loader_plan and loader_search write zeros there. Any words are a plan, and the plan check says whether it is a good one. An index or a flow that is
   none of those above makes a scan out-out over eavt, which is refused, 21. A number of a slot above 65535 counts as 65535, which names
   no slot: 22 or 26. A slot's first word other than 1 makes it a variable, which a scan must set: 24, 25. */
struct loader_scan {
    uint64_t index;     /* enum loader_index */
    uint64_t flow;      /* enum loader_flow */
    uint64_t entity;    /* a slot */
    uint64_t attribute; /* any number */
    uint64_t value;     /* a slot */
};

struct loader_slot {
    uint64_t is_constant; /* 1: a constant; 0: a variable */
    uint64_t value;       /* the constant; 0 for a variable */
};

struct loader_plan {
    uint64_t scan_count;
    uint64_t slot_count;
    uint64_t select_count;
    struct loader_scan scans[LOADER_MAX_SCANS]; /* the first is the outermost loop */
    struct loader_slot slots[LOADER_MAX_SLOTS];
    uint64_t select[LOADER_MAX_SELECTS]; /* slots */
};

/* A swap state: its steps list every order of the elements. Any words are one; of more than LOADER_MAX_ELEMENTS elements it is refused, 40. */
struct loader_swaps {
    uint64_t element_count;
    uint64_t position; /* where the next step looks first */
    uint64_t counters[LOADER_MAX_ELEMENTS];
};

/* The calls read and write these structs as arrays of u64. */
#if defined __STDC_VERSION__ && __STDC_VERSION__ >= 201112L
_Static_assert(sizeof(struct loader_answer) == 4 * sizeof(uint64_t), "an answer is 4 words");
_Static_assert(sizeof(struct loader_query) == (3 + 4 * LOADER_MAX_STATEMENTS + LOADER_MAX_SELECTS) * sizeof(uint64_t), "a query is words");
_Static_assert(sizeof(struct loader_plan) == (3 + 5 * LOADER_MAX_SCANS + 2 * LOADER_MAX_SLOTS + LOADER_MAX_SELECTS) * sizeof(uint64_t), "a plan is words");
_Static_assert(sizeof(struct loader_swaps) == (2 + LOADER_MAX_ELEMENTS) * sizeof(uint64_t), "a swap state is words");
_Static_assert(sizeof(size_t) == sizeof(uint64_t), "a length is a word");
#endif

/* Plan a query, its statements in the given order. Refusals 10 to 16. */
uint64_t loader_plan(const struct loader_query *query, struct loader_plan *plan, struct loader_answer *answer);

/* The cheapest plan over every sound order of at most 6 statements. `order` is the order: statement numbers, outermost first, zeros
   past the last. `first` is the cost. Refusals 10 to 15, 17, 18. */
uint64_t loader_search(const struct loader_query *query, uint64_t order[LOADER_MAX_SEARCHED], struct loader_plan *plan, struct loader_answer *answer);

/* The type of each variable of a query. The table has two words a row, an attribute and its type, strictly ascending by attribute; a length
   is in words. Type 0 is a reference, any other number is a type that only the table's author knows. An entity is always a reference, a
   variable value has its attribute's type, a constant is skipped. `types` gets one type per variable, and zeros past them. A plan of the
   query does not change by it. Refusals 10 to 16, 50 to 52. */
uint64_t loader_types(const struct loader_query *query, const uint64_t *table, size_t table_length, uint64_t types[LOADER_MAX_SLOTS],
                      struct loader_answer *answer);

/* Step a plan to the next one that answers the same. `first` is 1 where it is new; 0 where all were seen, and the initial plan stands
   again. The indexes of the scans that count are written; every other word stays, whatever it says. Refusals 20, 21. */
uint64_t loader_next(struct loader_plan *plan, struct loader_answer *answer);

/* The plan check. Refusals 20, 13, 21 to 26, 29. */
uint64_t loader_check(const struct loader_plan *plan, struct loader_answer *answer);

/* `first` is the plan's cost. Refusals 20, 21, 27. */
uint64_t loader_cost(const struct loader_plan *plan, struct loader_answer *answer);

/* The check of three tables. A fact is three words: aevt (attribute, entity, value), avet (attribute, value, entity), eavt (entity,
   attribute, value). Each table holds all facts, strictly ascending word by word. A length is in words. Refusals 1 to 3. */
uint64_t loader_tables(const uint64_t *aevt, size_t aevt_length, const uint64_t *avet, size_t avet_length, const uint64_t *eavt, size_t eavt_length,
                       struct loader_answer *answer);

/* The three tables of a heap of facts, three words each (entity, attribute, value), in any order and with repeats: sorted, repeats dropped.
   Each buffer must be as long as the heap. `first` is how many rows each table then has; words past its rows stay. The tables pass
   loader_tables. The heap is only read. Lengths are in words. Refusals 70, 71. */
uint64_t loader_build(const uint64_t *heap, size_t heap_length, uint64_t *aevt, size_t aevt_length, uint64_t *avet, size_t avet_length, uint64_t *eavt,
                      size_t eavt_length, struct loader_answer *answer);

/* Evaluate a plan: write its rows from number `from` on, one after the other, as many whole ones as fit in `rows_length` words. A row is
   `select_count` words. `first` is how many rows were written, `second` 1 where another follows, else 0. Words past the last row stay.
   The plan and the tables are checked at each call. Refusals: those of the plan check, 1 to 3. */
uint64_t loader_evaluate(const struct loader_plan *plan, const uint64_t *aevt, size_t aevt_length, const uint64_t *avet, size_t avet_length,
                         const uint64_t *eavt, size_t eavt_length, uint64_t from, uint64_t *rows, size_t rows_length, struct loader_answer *answer);

/* The text of a plan, without a 0 or a newline at its end. `ends` holds for each slot where its name ends in `names`; the first starts
   at 0, each other at the end before it. A constant's name is not read. In the text a byte of a name that is
   outside 33 to 126, a colon, a comma, a round bracket or a backslash is a backslash and two lowercase hex digits: three bytes for one.
   `first` is the text's length; bytes past it stay. Refusals: those of the plan check, 30, 31. */
uint64_t loader_text(const struct loader_plan *plan, const uint8_t *names, size_t names_length, const uint64_t *ends, size_t ends_length,
                     uint8_t *text, size_t text_length, struct loader_answer *answer);

/* Store a plan as an image, by which it is kept: fields of bits, of no more bytes than the plan wants and at most LOADER_MAX_IMAGE. `first` is the
   image's length; bytes past it stay. Whoever keeps images keeps their lengths. Refusals: those of the plan check, 64. */
uint64_t loader_store(const struct loader_plan *plan, uint8_t *image, size_t image_length, struct loader_answer *answer);

/* Read an image: the plan that was stored, with zeros past its counts, and checked. Any bytes may be given; those of an image that was
   only written in part are refused, 60. Refusals 60 to 63, 20, and those of the plan check. */
uint64_t loader_restore(const uint8_t *image, size_t image_length, struct loader_plan *plan, struct loader_answer *answer);

/* The name of select `index`. `first` is its length; it ends where the name of the select's slot does, so that it is the `first` bytes
   before `names + ends[plan->select[index]]`. Refusals: those of the plan check, 30, 26. */
uint64_t loader_select_name(const struct loader_plan *plan, const uint8_t *names, size_t names_length, const uint64_t *ends, size_t ends_length,
                            size_t index, struct loader_answer *answer);

/* The swap state at the start, for so many elements. Refusal 40. */
uint64_t loader_permutations(size_t element_count, struct loader_swaps *state, struct loader_answer *answer);

/* The next swap: the two positions to swap. `first` is 1 where there is one; 0 where every order was seen, and then for ever, with
   positions 0 and 0. The order before any swap and those after each are all orders of the elements, each once. Refusal 40. */
uint64_t loader_next_swap(struct loader_swaps *state, uint64_t swap[2], struct loader_answer *answer);

#ifdef __cplusplus
}
#endif
#endif
