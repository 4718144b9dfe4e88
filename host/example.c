/* An evening's programme: its table and classes are built, a pattern is looked for, a clip gives way to a block, and the pattern
   is looked for again. Symbols: 0 and 1 are clips, 2 a part with one child, 3 a block of two, 4 a block of three.
   The machine is little-endian, so that arrays of 16-bit numbers are lent as they stand. */
#include <stddef.h>
#include <stdint.h>
#include <stdio.h>
#include <sparrowhem.h>

enum { ROOM = 16 }; /* places in each buffer */

/* A row in its buffer, and what is kept beside it, which a host lends and never has to read. */
typedef struct {
    uint64_t length;
    uint16_t row[ROOM], table[ROOM], classes[ROOM];
} programme;

static void show(const char *what, const uint16_t *numbers, uint64_t count) {
    printf("%s", what);
    for (uint64_t i = 0; i < count; i++) {
        printf(" %u", (unsigned)numbers[i]);
    }
    printf("\n");
}

/* Says why a call refused, if it did. */
static int refused(const char *call, sparrowhem_answer a) {
    if (a.refusal != SPARROWHEM_ANSWERED) {
        printf("%s refused: %s (%llu)\n", call, sparrowhem_refusal_text(a.refusal), (unsigned long long)a.place);
    }
    return a.refusal != SPARROWHEM_ANSWERED;
}

static void show_programme(const programme *p) {
    show("row:    ", p->row, p->length);
    show("table:  ", p->table, p->length);
    show("classes:", p->classes, p->length);
}

/* Looks for a pattern in the programme, and shows where it stands. */
static int look(const uint16_t *alphabet, size_t symbols, const programme *p) {
    static const uint16_t twins[] = {3, SPARROWHEM_VARIABLE(0), SPARROWHEM_VARIABLE(0)};
    uint16_t out[ROOM];
    sparrowhem_answer a = sparrowhem_find((const uint8_t *)alphabet, 2 * symbols, (const uint8_t *)p->row, (size_t)(2 * p->length),
        (const uint8_t *)p->table, sizeof p->table, (const uint8_t *)p->classes, sizeof p->classes,
        (const uint8_t *)twins, sizeof twins, (uint8_t *)out, sizeof out);
    if (refused("find", a)) return 1;
    show("blocks of two equal parts, at:", out, a.count);
    return 0;
}

int main(void) {
    static const uint16_t alphabet[] = {0, 0, 1, 2, 3};
    static const uint16_t block[] = {3, 0, 1};
    programme p = {9, {4, 3, 0, 0, 2, 1, 3, 0, 0}, {0}, {0}};

    sparrowhem_answer a = sparrowhem_build((const uint8_t *)alphabet, sizeof alphabet, (const uint8_t *)p.row, (size_t)(2 * p.length),
        (uint8_t *)p.table, sizeof p.table, (uint8_t *)p.classes, sizeof p.classes);
    if (refused("build", a)) return 1;
    show_programme(&p);
    if (look(alphabet, 5, &p)) return 1;

    a = sparrowhem_replace((const uint8_t *)alphabet, sizeof alphabet, (uint8_t *)p.row, sizeof p.row,
        (uint8_t *)p.table, sizeof p.table, (uint8_t *)p.classes, sizeof p.classes,
        p.length, (const uint8_t *)block, sizeof block, 4);
    if (refused("replace", a)) return 1;
    p.length = a.count;
    printf("the part at 4 gives way to a block; the row is longer by %d\n", (int)a.change);
    show_programme(&p);
    return look(alphabet, 5, &p);
}
