/* Which heater has its level switch bridged? Builds the tables of the facts, plans the question, prints the plan's text and cost, and keeps the plan; at the next start
   reads it again and evaluates it, several rows a call; then lists the orders in which the heaters may be tried. Attribute 1: a heater's level switch. Attribute 2: a switch's
   state, 9 is bridged. */
#include "loader.h"
#include <stdio.h>

enum { LEVEL_SWITCH = 1, STATE = 2, BRIDGED = 9 };

/* The facts as the office gives them, three words each (entity, attribute, value), in no order and one of them twice: heaters 10, 11, 12 have
   switches 20, 21, 22, of which 20 and 22 are bridged. */
static const uint64_t facts[] = { 22, 2, 9,  11, 1, 21,  20, 2, 9,  12, 1, 22,  11, 1, 21,  10, 1, 20,  21, 2, 8 };
#define WORDS(table) (sizeof (table) / sizeof (uint64_t))

/* The tables, each with room for all facts. */
static uint64_t aevt[WORDS(facts)], avet[WORDS(facts)], eavt[WORDS(facts)];

static int refused(const char *call, const struct loader_answer *answer)
{
    printf("%s refused: number %llu, place %llu\n", call, (unsigned long long)answer->number, (unsigned long long)answer->place);
    return 1;
}

int main(void)
{
    /* Variable 0 is the heater, variable 1 its switch: (heater, LEVEL_SWITCH, switch), (switch, STATE, BRIDGED); select the heater. */
    static struct loader_query query = {
        .variable_count = 2, .statement_count = 2, .select_count = 1,
        .statements = {
            { .entity = 0, .attribute = LEVEL_SWITCH, .is_constant = 0, .value = 1 },
            { .entity = 1, .attribute = STATE, .is_constant = 1, .value = BRIDGED },
        },
        .select = { 0 },
    };
    static struct loader_plan plan, kept;
    static struct loader_answer answer;
    static struct loader_swaps swaps;
    static uint64_t order[LOADER_MAX_SEARCHED];
    static uint8_t text[1024], image[LOADER_MAX_IMAGE];
    static const uint8_t names[] = "heaterswitch";
    static const uint64_t ends[] = { 6, 12, 12 }; /* a slot for each variable and each constant: the constant's name is not read */
    const uint8_t *name;
    uint64_t rows[32], from = 0, heaters[] = { 10, 11, 12 }, swap[2], heater;
    size_t image_length, length_of_tables;
    int length;

    if (loader_build(facts, WORDS(facts), aevt, WORDS(aevt), avet, WORDS(avet), eavt, WORDS(eavt), &answer) != 0)
        return refused("build", &answer);
    length_of_tables = 3 * answer.first;
    printf("%llu facts\n", (unsigned long long)answer.first);

    if (loader_search(&query, order, &plan, &answer) != 0)
        return refused("search", &answer);
    printf("cost %llu\n", (unsigned long long)answer.first);

    if (loader_text(&plan, names, sizeof names - 1, ends, 3, text, sizeof text, &answer) != 0)
        return refused("text", &answer);
    printf("%.*s\n", (int)answer.first, (const char *)text);

    if (loader_select_name(&plan, names, sizeof names - 1, ends, 3, 0, &answer) != 0)
        return refused("select_name", &answer);
    length = (int)answer.first;
    name = names + ends[plan.select[0]] - answer.first;

    /* The plan as bytes, to be kept with their number in the project archive. */
    if (loader_store(&plan, image, sizeof image, &answer) != 0)
        return refused("store", &answer);
    image_length = answer.first;
    printf("kept in %zu bytes\n", image_length);

    /* The next start: no search. What was only half written is refused, and the question is planned anew. */
    if (loader_restore(image, image_length - 1, &kept, &answer) != 0)
        refused("restore", &answer);
    if (loader_restore(image, image_length, &kept, &answer) != 0)
        return refused("restore", &answer);

    do {
        if (loader_evaluate(&kept, aevt, length_of_tables, avet, length_of_tables, eavt, length_of_tables, from, rows, WORDS(rows), &answer) != 0)
            return refused("evaluate", &answer);
        for (uint64_t i = 0; i < answer.first; i++)
            printf("%.*s %llu\n", length, (const char *)name, (unsigned long long)rows[i * kept.select_count]);
        from += answer.first;
    } while (answer.second == 1);

    if (loader_permutations(WORDS(heaters), &swaps, &answer) != 0)
        return refused("permutations", &answer);
    do {
        printf("try %llu %llu %llu\n", (unsigned long long)heaters[0], (unsigned long long)heaters[1], (unsigned long long)heaters[2]);
        if (loader_next_swap(&swaps, swap, &answer) != 0)
            return refused("next_swap", &answer);
        heater = heaters[swap[0]];
        heaters[swap[0]] = heaters[swap[1]];
        heaters[swap[1]] = heater;
    } while (answer.first == 1);

    /* What is wrong is refused with a number, and the plan stays as it was. */
    query.statements[1].entity = 7;
    if (loader_plan(&query, &plan, &answer) != 0)
        refused("plan", &answer);
    plan.scans[1].flow = 3;
    if (loader_cost(&plan, &answer) != 0)
        refused("cost", &answer);
    if (loader_permutations(LOADER_MAX_ELEMENTS + 1, &swaps, &answer) != 0)
        refused("permutations", &answer);
    return 0;
}
