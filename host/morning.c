/* A morning check: the patterns of a sheet are looked for in the day's programme, all in one call, and each has its line: how often it
   was found and where, or why it was refused. One of them is faulty, and the others are answered all the same. Symbols: 0 and 1 are
   clips, 2 a part with one child, 3 a block of two, 4 a block of three.
   The machine is little-endian, so that arrays of 16-bit numbers are lent as they stand. docs/MORNING-CHECK.md goes through it. */
#include <stddef.h>
#include <stdint.h>
#include <stdio.h>
#include <sparrowhem.h>

#define COUNT(list) (sizeof(list) / sizeof(list)[0])
#define S SPARROWHEM_ANY
#define X0 SPARROWHEM_VARIABLE(0)

/* What is asked: in words, and as a pattern. */
typedef struct {
    const char *words;
    uint16_t length;
    uint16_t pattern[8];
} question;

static const question questions[] = {
    {"blocks of two equal parts", 3, {3, X0, X0}},
    {"blocks that begin and end alike", 4, {4, X0, S, X0}},
    {"parts that hold clip 5", 2, {2, 5}}, /* a slip: the alphabet ends with symbol 4 */
    {"parts in parts", 3, {2, 2, S}},
    {"clip 1, anywhere", 1, {1}},
};
enum { PATTERNS = COUNT(questions) };

static const uint16_t alphabet[] = {0, 0, 1, 2, 3};
static const uint16_t row[] = {4, 3, 0, 0, 2, 1, 3, 0, 0};
enum { SYMBOLS = COUNT(row) };

/* What is kept beside the row; the sheet; and its two outputs, with room for all that the call can write. */
static uint16_t table[SYMBOLS], classes[SYMBOLS];
static uint16_t patterns[PATTERNS * COUNT(questions[0].pattern)], lengths[PATTERNS];
static uint16_t positions[PATTERNS * SYMBOLS], results[PATTERNS * SPARROWHEM_RESULT_NUMBERS];

/* Lays the patterns end to end, and notes their lengths. How many numbers they take. */
static size_t lay_patterns(void) {
    size_t laid = 0;
    for (size_t i = 0; i < PATTERNS; i++) {
        for (size_t k = 0; k < questions[i].length; k++) {
            patterns[laid++] = questions[i].pattern[k];
        }
        lengths[i] = questions[i].length;
    }
    return laid;
}

/* One line for each pattern. Its positions stand behind those of the patterns before it. */
static void show_results(void) {
    size_t from = 0, refused = 0;
    for (size_t i = 0; i < PATTERNS; i++) {
        const uint16_t *result = results + SPARROWHEM_RESULT_NUMBERS * i;
        unsigned refusal = result[0], place = result[1], count = result[2];
        if (refusal != SPARROWHEM_ANSWERED) {
            refused++;
            printf("REFUSED  %-32s %u at place %u: %s\n", questions[i].words, refusal, place, sparrowhem_refusal_text(refusal));
            continue;
        }
        printf("%-8s %-32s %u", count ? "found" : "none", questions[i].words, count);
        for (size_t k = 0; k < count; k++) {
            printf("%s %u", k ? "" : ", at", (unsigned)positions[from + k]);
        }
        printf("\n");
        from += count;
    }
    printf("%u patterns, %u refused, %u positions\n", (unsigned)PATTERNS, (unsigned)refused, (unsigned)from);
}

/* Says why a call as a whole was refused, if it was. */
static int refused(const char *call, sparrowhem_answer a) {
    if (a.refusal != SPARROWHEM_ANSWERED) {
        printf("%s refused: %u at place %llu: %s\n", call, (unsigned)a.refusal, (unsigned long long)a.place, sparrowhem_refusal_text(a.refusal));
    }
    return a.refusal != SPARROWHEM_ANSWERED;
}

int main(void) {
    sparrowhem_answer a = sparrowhem_build((const uint8_t *)alphabet, sizeof alphabet, (const uint8_t *)row, sizeof row,
        (uint8_t *)table, sizeof table, (uint8_t *)classes, sizeof classes);
    if (refused("build", a)) return 1;

    size_t laid = lay_patterns();
    a = sparrowhem_sheet((const uint8_t *)alphabet, sizeof alphabet, (const uint8_t *)row, sizeof row,
        (const uint8_t *)table, sizeof table, (const uint8_t *)classes, sizeof classes,
        (const uint8_t *)patterns, 2 * laid, (const uint8_t *)lengths, sizeof lengths,
        (uint8_t *)positions, sizeof positions, (uint8_t *)results, sizeof results);
    if (refused("the sheet", a)) return 1;
    show_results();
    return 0;
}
