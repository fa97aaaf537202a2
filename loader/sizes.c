/* Does not compile where a number of the header is not that of the code. loader/run makes code.h, of the constants in crates/. */
#include "loader.h"
#include "code.h"

#define SAME(name) _Static_assert(LOADER_##name == name, #name)
SAME(MAX_STATEMENTS);
SAME(MAX_SCANS);
SAME(MAX_SLOTS);
SAME(MAX_SELECTS);
SAME(MAX_SEARCHED);
SAME(MAX_ELEMENTS);
SAME(TABLE_LENGTH);
SAME(TABLE_ORDER);
SAME(TABLE_MISSING);
SAME(TOO_MANY_STATEMENTS);
SAME(TOO_MANY_SLOTS);
SAME(TOO_MANY_SELECTS);
SAME(NO_SELECTS);
SAME(NO_SUCH_VARIABLE);
SAME(UNUSED_VARIABLE);
SAME(BOUND_TWICE);
SAME(TOO_MANY_TO_SEARCH);
SAME(NO_SOUND_ORDER);
SAME(PLAN_COUNTS);
SAME(OUT_OUT_EAVT);
SAME(NO_SUCH_SLOT);
SAME(WRITES_SET_SLOT);
SAME(READS_UNSET_SLOT);
SAME(SLOT_NEVER_SET);
SAME(NO_SUCH_SELECT);
SAME(COST_TOO_LARGE);
SAME(NO_SCANS);
SAME(CONSTANT_SELECTED);
SAME(NAME_ENDS);
SAME(TEXT_TOO_SHORT);
SAME(TOO_MANY_ELEMENTS);
SAME(TYPE_TABLE);
SAME(NO_SUCH_ATTRIBUTE);
SAME(TYPE_CLASH);
SAME(BITS_RUN_OUT);
SAME(NO_SUCH_CODE);
SAME(PAD_NOT_ZERO);
SAME(BYTE_TOO_MANY);
SAME(NO_ROOM_FOR_IMAGE);
SAME(HEAP_LENGTH);
SAME(BUFFER_TOO_SHORT);

SAME(AEVT);
SAME(AVET);
SAME(EAVT);
SAME(OUT_OUT);
SAME(IN_OUT);
SAME(IN_IN);

/* The longest image, from the widths of its fields. */
_Static_assert(COUNTS_BITS == SCAN_COUNT_BITS + SLOT_COUNT_BITS + SELECT_COUNT_BITS, "the counts of an image");
_Static_assert(SCAN_BITS == 2 * CODE_BITS + 2 * SLOT_BITS + WORD_BITS, "a scan of an image");
_Static_assert(LOADER_MAX_IMAGE == (COUNTS_BITS + (MARK_BITS + WORD_BITS) * MAX_SLOTS + SCAN_BITS * MAX_SCANS + SLOT_BITS * MAX_SELECTS + 7) / 8, "MAX_IMAGE");

/* Each struct's words, and the place of each of its fields. The code names no place for a record's first word. */
#define IS(words, size) _Static_assert((words) * sizeof(uint64_t) == (size), #words)
#define AT(place, of, field) _Static_assert((place) * sizeof(uint64_t) == offsetof(struct loader_##of, field), #of ": " #field)
#define FIRST(of, field) AT(0, of, field)

IS(ANSWER_WORDS, sizeof(struct loader_answer));
AT(ANSWER_NUMBER, answer, number);
AT(ANSWER_PLACE, answer, place);
AT(ANSWER_FIRST, answer, first);
AT(ANSWER_SECOND, answer, second);

IS(STATEMENT_WORDS, sizeof(struct loader_statement));
FIRST(statement, entity);
AT(STATEMENT_ATTRIBUTE, statement, attribute);
AT(STATEMENT_IS_CONSTANT, statement, is_constant);
AT(STATEMENT_VALUE, statement, value);

IS(QUERY_WORDS, sizeof(struct loader_query));
AT(VARIABLE_COUNT_AT, query, variable_count);
AT(STATEMENT_COUNT_AT, query, statement_count);
AT(SELECT_COUNT_AT, query, select_count);
AT(STATEMENTS_AT, query, statements);
AT(VARIABLES_AT, query, select);

IS(SCAN_WORDS, sizeof(struct loader_scan));
FIRST(scan, index);
AT(SCAN_FLOW, scan, flow);
AT(SCAN_ENTITY, scan, entity);
AT(SCAN_ATTRIBUTE, scan, attribute);
AT(SCAN_VALUE, scan, value);

IS(SLOT_WORDS, sizeof(struct loader_slot));
FIRST(slot, is_constant);
AT(SLOT_VALUE, slot, value);

IS(PLAN_WORDS, sizeof(struct loader_plan));
AT(SCAN_COUNT_AT, plan, scan_count);
AT(SLOT_COUNT_AT, plan, slot_count);
AT(SELECT_COUNT_AT, plan, select_count);
AT(SCANS_AT, plan, scans);
AT(SLOTS_AT, plan, slots);
AT(SELECT_AT, plan, select);

IS(STATE_WORDS, sizeof(struct loader_swaps));
AT(ELEMENT_COUNT_AT, swaps, element_count);
AT(POSITION_AT, swaps, position);
AT(COUNTERS_AT, swaps, counters);

IS(SWAP_WORDS, sizeof(uint64_t[2]));
