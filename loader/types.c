/* A valve number compared with a litre count: loader_types answers 52 at the statement that compares them. A question without the slip gets
   its types; a table that is none, an attribute without a type and a query that cannot be planned are refused; a refused call leaves the
   types as they were. */
#include "loader.h"
#include <stdio.h>

/* Attributes: a tank's valve, a valve's number, a tank's litres, a valve's neighbour; types of numbers: a valve number, a litre count. */
enum { VALVE = 1, NUMBER = 2, LITRES = 3, BESIDE = 4 };
enum { REFERENCE = 0, VALVE_NUMBER = 10, LITRE_COUNT = 11, AS_IT_WAS = 77 };

#define ROWS VALVE, REFERENCE, NUMBER, VALVE_NUMBER, LITRES, LITRE_COUNT
static const uint64_t table[] = { ROWS }, odd[] = { ROWS, BESIDE }, twice[] = { ROWS, LITRES, LITRE_COUNT }, falling[] = { ROWS, VALVE, REFERENCE };
#define WORDS(table) (sizeof (table) / sizeof (uint64_t))

/* (tank, VALVE, valve), (valve, NUMBER, n), (tank, LITRES, m): variables 0 to 3 are tank, valve, n, m. */
static struct loader_query query = {
    .variable_count = 4, .statement_count = 3, .select_count = 1,
    .statements = {
        { .entity = 0, .attribute = VALVE, .is_constant = 0, .value = 1 },
        { .entity = 1, .attribute = NUMBER, .is_constant = 0, .value = 2 },
        { .entity = 0, .attribute = LITRES, .is_constant = 0, .value = 3 },
    },
    .select = { 0 },
};
static uint64_t types[LOADER_MAX_SLOTS];
static int wrong;

static void fill(void)
{
    for (int i = 0; i < LOADER_MAX_SLOTS; i++)
        types[i] = AS_IT_WAS;
}

/* The call on a table, the number and place it must answer, and the first four types that must stand there; past them all are `past`. */
static void says(const char *what, const uint64_t *rows, size_t length, uint64_t number, uint64_t place, const uint64_t first[4], uint64_t past)
{
    struct loader_answer answer = { AS_IT_WAS, AS_IT_WAS, AS_IT_WAS, AS_IT_WAS };
    uint64_t result;
    int written = 1;
    fill();
    result = loader_types(&query, rows, length, types, &answer);
    for (int i = 0; i < LOADER_MAX_SLOTS; i++)
        written = written && types[i] == (i < 4 ? first[i] : past);
    if (result != number || answer.number != number || answer.place != place || answer.first != 0 || answer.second != 0 || !written) {
        printf("%s: %llu at %llu%s\n", what, (unsigned long long)answer.number, (unsigned long long)answer.place,
               written ? "" : ", types not as they must be");
        wrong = 1;
    }
}

int main(void)
{
    static const uint64_t good[4] = { REFERENCE, REFERENCE, VALVE_NUMBER, LITRE_COUNT };
    static const uint64_t kept[4] = { AS_IT_WAS, AS_IT_WAS, AS_IT_WAS, AS_IT_WAS };
    says("a good question", table, WORDS(table), LOADER_FINE, 0, good, 0);
    says("a table of odd length", odd, WORDS(odd), LOADER_TYPE_TABLE, 0, kept, AS_IT_WAS);
    says("an attribute twice", twice, WORDS(twice), LOADER_TYPE_TABLE, 0, kept, AS_IT_WAS);
    says("a table that falls", falling, WORDS(falling), LOADER_TYPE_TABLE, 0, kept, AS_IT_WAS);
    says("no table", table, 0, LOADER_NO_SUCH_ATTRIBUTE, 0, kept, AS_IT_WAS);
    says("no litres in the table", table, WORDS(table) - 2, LOADER_NO_SUCH_ATTRIBUTE, 2, kept, AS_IT_WAS);

    /* The slip: the tank's litres are the valve's number. */
    query.variable_count = 3;
    query.statements[2].value = 2;
    says("a valve number and a litre count", table, WORDS(table), LOADER_TYPE_CLASH, 2, kept, AS_IT_WAS);

    /* A valve number is no tank; the missing attribute comes after. */
    query.statements[2] = (struct loader_statement){ .entity = 2, .attribute = BESIDE, .is_constant = 1, .value = 7 };
    says("a number as an entity", table, WORDS(table), LOADER_TYPE_CLASH, 2, kept, AS_IT_WAS);

    /* A constant is skipped, but its attribute must be there. */
    query.statements[2].entity = 0;
    says("a constant without a type", table, WORDS(table), LOADER_NO_SUCH_ATTRIBUTE, 2, kept, AS_IT_WAS);
    query.statements[2].attribute = LITRES;
    says("a constant", table, WORDS(table), LOADER_FINE, 0, (const uint64_t[4]){ REFERENCE, REFERENCE, VALVE_NUMBER, 0 }, 0);

    /* Planning's refusals come before the table's. */
    query.variable_count = 4;
    says("a variable in no statement", odd, WORDS(odd), LOADER_UNUSED_VARIABLE, 3, kept, AS_IT_WAS);
    return wrong;
}
