/* How much stack each call takes: runs it on a stack that was filled with a pattern, and looks how much of it is left. Fails where a
   call takes more than LOADER_STACK. Each call is given what takes it furthest: a full query, a full plan, a search of six statements. */
#define _GNU_SOURCE
#include "loader.h"
#include <pthread.h>
#include <stdio.h>
#include <string.h>

enum { ROOM = 1 << 20, PATTERN = 0x5a, HEAP_ROWS = 1 << 16 };

static struct loader_query query, small;
static struct loader_plan plan, stepped;
static struct loader_answer answer;
static struct loader_swaps swaps;
static uint64_t order[LOADER_MAX_SEARCHED], swap[2], rows[64], ends[LOADER_MAX_SLOTS], types[LOADER_MAX_SLOTS];
static size_t image_length;
static const uint64_t table[] = { 1, 1, 1 }, attributes[] = { 0, 9, 1, 9, 2, 9 };
static uint64_t heap[3 * HEAP_ROWS], aevt[3 * HEAP_ROWS], avet[3 * HEAP_ROWS], eavt[3 * HEAP_ROWS];
static uint8_t text[1 << 16], image[LOADER_MAX_IMAGE], stack[ROOM] __attribute__((aligned(4096)));

static void plan_it(void) { loader_plan(&query, &plan, &answer); }
static void search_it(void) { loader_search(&small, order, &stepped, &answer); }
static void types_it(void) { loader_types(&query, attributes, 6, types, &answer); }
static void next_it(void) { loader_next(&stepped, &answer); }
static void check_it(void) { loader_check(&plan, &answer); }
static void cost_it(void) { loader_cost(&stepped, &answer); } /* the full plan costs too much: 27 */
static void tables_it(void) { loader_tables(table, 3, table, 3, table, 3, &answer); }
static void build_it(void) { loader_build(heap, 3 * HEAP_ROWS, aevt, 3 * HEAP_ROWS, avet, 3 * HEAP_ROWS, eavt, 3 * HEAP_ROWS, &answer); }
static void evaluate_it(void) { loader_evaluate(&plan, table, 3, table, 3, table, 3, 0, rows, 64, &answer); }
static void text_it(void) { loader_text(&plan, (const uint8_t *)"", 0, ends, plan.slot_count, text, sizeof text, &answer); }
static void name_it(void) { loader_select_name(&plan, (const uint8_t *)"", 0, ends, plan.slot_count, 0, &answer); }
static void store_it(void) { loader_store(&plan, image, sizeof image, &answer); image_length = answer.first; }
static void restore_it(void) { loader_restore(image, image_length, &stepped, &answer); }
static void permutations_it(void) { loader_permutations(LOADER_MAX_ELEMENTS, &swaps, &answer); }
static void swap_it(void) { loader_next_swap(&swaps, swap, &answer); }

static void (*call)(void);
static uint8_t *top;

static void *run(void *p)
{
    top = __builtin_frame_address(0);
    call();
    return p;
}

static size_t used(void)
{
    pthread_attr_t attributes;
    pthread_t thread;
    size_t left = 0;
    memset(stack, PATTERN, sizeof stack);
    pthread_attr_init(&attributes);
    if (pthread_attr_setstack(&attributes, stack, sizeof stack) != 0 || pthread_create(&thread, &attributes, run, NULL) != 0)
        return ROOM;
    pthread_join(thread, NULL);
    while (left < sizeof stack && stack[left] == PATTERN)
        left++;
    return (size_t)(top - stack) - left;
}

int main(void)
{
    static const struct { const char *name; void (*call)(void); } calls[] = {
        { "plan", plan_it }, { "search", search_it }, { "types", types_it }, { "next", next_it }, { "check", check_it },
        { "cost", cost_it }, { "tables", tables_it }, { "build", build_it }, { "evaluate", evaluate_it }, { "text", text_it },
        { "select_name", name_it }, { "store", store_it }, { "restore", restore_it },
        { "permutations", permutations_it }, { "next_swap", swap_it },
    };
    size_t most = 0;
    /* as many statements as fit (variable i, attribute 1, constant 1), so that each scan finds the one fact, and each attribute has a type; six of them for the search. */
    query.variable_count = LOADER_MAX_STATEMENTS;
    query.statement_count = LOADER_MAX_STATEMENTS;
    query.select_count = LOADER_MAX_SELECTS;
    for (uint64_t i = 0; i < LOADER_MAX_STATEMENTS; i++)
        query.statements[i] = (struct loader_statement){ .entity = i, .attribute = 1, .is_constant = 1, .value = 1 };
    /* A heap of many rows, the last first: building calls itself on halves. */
    for (uint64_t i = 0; i < 3 * HEAP_ROWS; i++)
        heap[i] = 3 * HEAP_ROWS - i;
    small = query;
    small.variable_count = small.statement_count = LOADER_MAX_SEARCHED;
    small.select_count = 1;
    for (size_t i = 0; i < sizeof calls / sizeof calls[0]; i++) {
        size_t bytes;
        call = calls[i].call;
        bytes = used();
        if (answer.number != 0) {
            printf("%s refused: number %llu, place %llu\n", calls[i].name, (unsigned long long)answer.number, (unsigned long long)answer.place);
            return 1;
        }
        printf("stack of loader_%s: %zu bytes\n", calls[i].name, bytes);
        most = bytes > most ? bytes : most;
    }
    printf("the deepest takes %zu of %d bytes\n", most, LOADER_STACK);
    return most > LOADER_STACK;
}
