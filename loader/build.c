/* The tables of a heap of triples: loader_build sorts them and drops repeats, whatever the order of the heap; loader_tables has nothing against
   them, and words past the rows stay. A heap that is no whole number of triples and a buffer that is shorter than the heap are refused, the
   first before the second, and leave the buffers as they were. */
#include "loader.h"
#include <stdio.h>

enum { AS_IT_WAS = 77, ROOM = 64 };

/* Heaters 10, 11, 12 have switches 20, 21, 22, of which 20 and 22 are bridged, as in example.c: (entity, attribute, value), two of them twice. */
static const uint64_t heap[] = { 22, 2, 9,  11, 1, 21,  20, 2, 9,  12, 1, 22,  11, 1, 21,  10, 1, 20,  21, 2, 8,  22, 2, 9 };
static const uint64_t sorted_aevt[] = { 1, 10, 20,  1, 11, 21,  1, 12, 22,  2, 20, 9,  2, 21, 8,  2, 22, 9 };
static const uint64_t sorted_avet[] = { 1, 20, 10,  1, 21, 11,  1, 22, 12,  2, 8, 21,  2, 9, 20,  2, 9, 22 };
static const uint64_t sorted_eavt[] = { 10, 1, 20,  11, 1, 21,  12, 1, 22,  20, 2, 9,  21, 2, 8,  22, 2, 9 };
#define WORDS(table) (sizeof (table) / sizeof (uint64_t))

static uint64_t aevt[ROOM], avet[ROOM], eavt[ROOM];
static int wrong;

/* The table has these words in front, and past them the buffer is as it was. */
static int holds(const uint64_t *buffer, const uint64_t *words, size_t count)
{
    for (size_t i = 0; i < ROOM; i++)
        if (buffer[i] != (i < count ? words[i] : (uint64_t)AS_IT_WAS))
            return 0;
    return 1;
}

/* The call on so many words of the heap, with a length for each buffer; the number it must answer, and how many rows. */
static void says(const char *what, size_t words, size_t a, size_t b, size_t c, uint64_t number, uint64_t rows)
{
    struct loader_answer answer = { AS_IT_WAS, AS_IT_WAS, AS_IT_WAS, AS_IT_WAS };
    uint64_t result;
    int written;
    for (int i = 0; i < ROOM; i++)
        aevt[i] = avet[i] = eavt[i] = AS_IT_WAS;
    result = loader_build(heap, words, aevt, a, avet, b, eavt, c, &answer);
    written = holds(aevt, sorted_aevt, 3 * rows) && holds(avet, sorted_avet, 3 * rows) && holds(eavt, sorted_eavt, 3 * rows);
    if (result != number || answer.number != number || answer.place != 0 || answer.first != rows || answer.second != 0 || !written) {
        printf("%s: %llu at %llu, %llu rows%s\n", what, (unsigned long long)answer.number, (unsigned long long)answer.place,
               (unsigned long long)answer.first, written ? "" : ", buffers not as they must be");
        wrong = 1;
    }
}

int main(void)
{
    struct loader_answer answer;
    says("no triples", 0, 0, 0, 0, LOADER_FINE, 0);
    says("a heap that is cut", WORDS(heap) - 1, ROOM, ROOM, ROOM, LOADER_HEAP_LENGTH, 0);
    says("a heap that is cut, and no room", WORDS(heap) - 1, 0, 0, 0, LOADER_HEAP_LENGTH, 0);
    says("aevt too short", WORDS(heap), WORDS(heap) - 1, ROOM, ROOM, LOADER_BUFFER_TOO_SHORT, 0);
    says("avet too short", WORDS(heap), ROOM, WORDS(heap) - 1, ROOM, LOADER_BUFFER_TOO_SHORT, 0);
    says("eavt too short, though the rows would fit", WORDS(heap), ROOM, ROOM, WORDS(heap) - 3, LOADER_BUFFER_TOO_SHORT, 0);
    says("buffers as long as the heap", WORDS(heap), WORDS(heap), WORDS(heap), WORDS(heap), LOADER_FINE, 6);
    says("longer buffers", WORDS(heap), ROOM, ROOM, ROOM, LOADER_FINE, 6);
    if (loader_tables(aevt, 18, avet, 18, eavt, 18, &answer) != LOADER_FINE) {
        printf("the tables are refused: %llu at %llu\n", (unsigned long long)answer.number, (unsigned long long)answer.place);
        wrong = 1;
    }
    return wrong;
}
