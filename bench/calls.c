/* What the calls from C take: each is run over and over for about a tenth of a second, and the least time of five such turns is shown. The
   tables hold FACTS facts (i, 1, i + FACTS) and the question is which entities have attribute 1, so that there are as many rows as facts.
   Then, for three questions, what planning and the search take, and what storing the plan and restoring it: document 01's E, a chain of six
   statements, and a question of as many statements as there may be, each with a constant. */
#include "../loader/loader.h"
#include <stdio.h>
#include <time.h>

enum { FACTS = 10000, ROOM = 64 };

static uint64_t aevt[3 * FACTS], avet[3 * FACTS], eavt[3 * FACTS], rows[ROOM], order[LOADER_MAX_SEARCHED];
static struct loader_query query;
static struct loader_plan plan, found;
static struct loader_answer answer;
static uint64_t from;
static uint8_t image[LOADER_MAX_IMAGE];
static size_t image_length;

static void plan_it(void) { loader_plan(&query, &plan, &answer); }
static void search_it(void) { loader_search(&query, order, &found, &answer); }
static void check_it(void) { loader_check(&plan, &answer); }
static void tables_it(void) { loader_tables(aevt, 3 * FACTS, avet, 3 * FACTS, eavt, 3 * FACTS, &answer); }
static void evaluate_it(void) { loader_evaluate(&plan, aevt, 3 * FACTS, avet, 3 * FACTS, eavt, 3 * FACTS, from, rows, ROOM, &answer); }

static void store_it(void)
{
    loader_store(&plan, image, sizeof image, &answer);
    image_length = answer.first;
}
static void restore_it(void) { loader_restore(image, image_length, &found, &answer); }

static double now(void)
{
    struct timespec t;
    clock_gettime(CLOCK_MONOTONIC, &t);
    return t.tv_sec * 1e6 + t.tv_nsec / 1e3;
}

static void timed(const char *name, void (*call)(void))
{
    double least = 1e30;
    for (int turn = 0; turn < 5; turn++) {
        double began = now(), took;
        int calls = 0;
        do {
            call();
            calls++;
            took = now() - began;
        } while (took < 1e5);
        least = took / calls < least ? took / calls : least;
    }
    printf("%-44s %9.1f us%s\n", name, least, answer.number ? "  (refused)" : "");
}

int main(void)
{
    for (uint64_t i = 0; i < FACTS; i++) {
        aevt[3 * i] = avet[3 * i] = eavt[3 * i + 1] = 1;
        aevt[3 * i + 1] = avet[3 * i + 2] = eavt[3 * i] = i;
        aevt[3 * i + 2] = avet[3 * i + 1] = eavt[3 * i + 2] = i + FACTS;
    }
    query.variable_count = 2;
    query.statement_count = 1;
    query.select_count = 1;
    query.statements[0] = (struct loader_statement){ .entity = 0, .attribute = 1, .is_constant = 0, .value = 1 };
    timed("loader_plan", plan_it);
    timed("loader_search", search_it);
    timed("loader_check", check_it);
    timed("loader_tables, 10,000 facts", tables_it);
    timed("loader_evaluate, 10,000 facts, from row 0", evaluate_it);
    from = FACTS - ROOM;
    timed("loader_evaluate, the last 64 of 10,000 rows", evaluate_it);

    static const char *questions[] = { "E", "a chain of six", "as many statements as fit" };
    for (int question = 0; question < 3; question++) {
        query = (struct loader_query){ .variable_count = 2, .statement_count = 2, .select_count = 1, .select = { 1 } };
        query.statements[0] = (struct loader_statement){ .entity = 0, .attribute = 5, .is_constant = 0, .value = 1 };
        query.statements[1] = (struct loader_statement){ .entity = 1, .attribute = 9, .is_constant = 1, .value = 7 };
        if (question > 0) {
            query.statement_count = question == 1 ? LOADER_MAX_SEARCHED : LOADER_MAX_STATEMENTS;
            query.variable_count = query.statement_count + (question == 1);
            for (uint64_t i = 0; i < query.statement_count; i++)
                query.statements[i] = (struct loader_statement){ .entity = i, .attribute = i, .is_constant = question == 2, .value = i + 1 };
        }
        printf("%s\n", questions[question]);
        timed("  loader_plan", plan_it);
        if (question < 2)
            timed("  loader_search", search_it);
        timed("  loader_store", store_it);
        timed("  loader_restore", restore_it);
        printf("  its image has %zu bytes\n", image_length);
    }
    return 0;
}
