/* Trees that are printed in the literature on tree matching, with what stands there about them: bar forms, tables of subtree ends, equal
   subtrees, matches. Each row is written as a bar form, which is read back, built and searched. Where a document prints a bar form that
   lacks a bar, that one is refused. The documents count positions from 1 and have letters where a row has numbers; here a letter with so
   many children is a symbol of its own. What is worked out from a document and not printed there is marked so.

   Janousek       J. Janousek, String Suffix Automata and Subtree Pushdown Automata, 2009
   Travnicek      J. Travnicek, J. Janousek, B. Melichar, Indexing Ordered Trees for (Nonlinear) Tree Pattern Matching by Pushdown
                  Automata, 2012
   Poliak         M. Poliak, On Indexes of Ordered Trees for Subtrees and Tree Patterns and Their Space Complexities, thesis, 2017
   Sestakova      E. Sestakova, A String Automata Approach to Tree Pattern Matching and Indexing, thesis, 2022

   The machine is little-endian, so that arrays of 16-bit numbers are lent as they stand. */
#include <stddef.h>
#include <stdint.h>
#include <stdio.h>
#include <string.h>
#include <sparrowhem.h>

#define BAR SPARROWHEM_BAR
#define S SPARROWHEM_ANY
#define X0 SPARROWHEM_VARIABLE(0)

enum { ROOM = 64, SEARCHES = 7 };

/* Numbers, and how many: empty where a document has nothing to say. */
typedef struct {
    const uint16_t *at;
    size_t n;
} list;
#define LIST(...) {(const uint16_t[]){__VA_ARGS__}, sizeof((const uint16_t[]){__VA_ARGS__}) / sizeof(uint16_t)}
#define NOTHING {0, 0}

typedef struct {
    list pattern, positions;
} search;

/* A bar form that lacks a bar, and how it is refused. */
typedef struct {
    list bars;
    unsigned refusal;
    uint64_t place;
} misprint;

/* The jumps are a table over the bar form, with positions from 1: a symbol has the position behind its bar, and a bar the one before its
   symbol. */
typedef struct {
    const char *from;
    list arities, row, bars, table, classes, jumps;
    search searches[SEARCHES];
    misprint printed;
} vector;

static const vector VECTORS[] = {
    {
        "Janousek, Examples 1, 8 and 13; Travnicek, Examples 1, 2, 4 and 10; Sestakova, tree T1 of Figure 2.2 and section 2.4.1",
        .arities = LIST(0, 1, 2),
        .row = LIST(2, 2, 0, 1, 0, 1, 0),
        .bars = LIST(2, 2, 0, BAR, 1, 0, BAR, BAR, BAR, 1, 0, BAR, BAR, BAR),
        .table = LIST(7, 5, 3, 5, 5, 7, 7),
        .classes = LIST(0, 1, 2, 3, 2, 3, 2), /* worked out */
        .searches = {
            {LIST(1, 0), LIST(3, 5)},
            {LIST(0), LIST(2, 4, 6)},
            {LIST(2, 0, 1, 0), LIST(1)},
            {LIST(2, 2, 0, 1, 0, 1, 0), LIST(0)},
            {LIST(2, S, 1, S), LIST(0, 1)},
            {LIST(2, X0, 1, X0), LIST(1)},
        },
        .printed = {LIST(2, 2, 0, BAR, 1, 0, BAR, BAR, 1, 0, BAR, BAR, BAR), SPARROWHEM_BARS_CHILDREN, 8}, /* section 2.4.1 */
    },
    {
        "Poliak, tree t1 of Examples 4.1 to 4.26; its bar form, and which subtrees are equal, in Example 4.5",
        .arities = LIST(0, 1, 2),
        .row = LIST(2, 2, 0, 1, 0, 2, 0, 1, 0),
        .bars = LIST(2, 2, 0, BAR, 1, 0, BAR, BAR, BAR, 2, 0, BAR, 1, 0, BAR, BAR, BAR, BAR),
        .table = LIST(9, 5, 3, 5, 5, 9, 7, 9, 9), /* worked out */
        .classes = LIST(0, 1, 2, 3, 2, 1, 2, 3, 2),
        .searches = {
            {LIST(2, X0, X0), LIST(0)},
            {LIST(2, 0, 1, 0), LIST(1, 5)},
            {LIST(1, 0), LIST(3, 7)},
            {LIST(0), LIST(2, 4, 6, 8)},
        },
        .printed = {LIST(2, 2, 0, BAR, 1, 0, BAR, BAR, BAR, 2, 0, BAR, 1, 0, BAR, BAR, BAR), SPARROWHEM_BARS_UNCLOSED, 17},
    },
    {
        "Sestakova, tree T2 of Figure 2.2, section 2.4.1 and Figure 4.11; a and b with no child, with one, with two",
        .arities = LIST(0, 0, 1, 1, 2, 2),
        .row = LIST(4, 5, 0, 3, 0, 2, 1),
        .bars = LIST(4, 5, 0, BAR, 3, 0, BAR, BAR, BAR, 2, 1, BAR, BAR, BAR),
        .table = LIST(7, 5, 3, 5, 5, 7, 7),
        .jumps = LIST(15, 10, 5, 2, 9, 8, 5, 4, 1, 14, 13, 10, 9, 0),
        .printed = {LIST(4, 5, 0, BAR, 3, 0, BAR, BAR, 2, 1, BAR, BAR, BAR), SPARROWHEM_BARS_CHILDREN, 8}, /* section 2.4.1 */
    },
    {
        "Sestakova, pattern tree of Figures 5.1a, 5.12 and 5.14; b and c with no child, a and b with one, a with two, three and none",
        .arities = LIST(0, 0, 1, 1, 2, 3, 0),
        .row = LIST(5, 0, 0, 2, 1),
        .bars = LIST(5, 0, BAR, 0, BAR, 2, 1, BAR, BAR, BAR),
        .table = LIST(5, 2, 3, 5, 5), /* worked out */
        .jumps = LIST(11, 4, 1, 6, 3, 10, 9, 6, 5, 0),
    },
    {
        "Sestakova, input tree of Figures 5.1b and 5.12, in which the pattern tree does not occur",
        .arities = LIST(0, 0, 1, 1, 2, 3, 0),
        .row = LIST(4, 2, 2, 1, 5, 0, 3, 2, 1, 2, 1),
        .bars = LIST(4, 2, 2, 1, BAR, BAR, BAR, 5, 0, BAR, 3, 2, 1, BAR, BAR, BAR, 2, 1, BAR, BAR, BAR, BAR),
        .table = LIST(11, 4, 4, 4, 11, 6, 9, 9, 9, 11, 11), /* worked out, and so are the classes */
        .classes = LIST(0, 1, 2, 3, 4, 5, 6, 2, 3, 2, 3),
        .searches = {
            {LIST(5, 0, 0, 2, 1), NOTHING},
            {LIST(2, 1), LIST(2, 7, 9)}, /* worked out */
            {LIST(5, 0, 3, 2, 1, 2, 1), LIST(4)},
        },
    },
    {
        "Sestakova, tree T1 of Figure 2.3 and Example 5.20; a and c with no child, a with one and with two, b with four, c with two",
        .arities = LIST(0, 0, 1, 2, 4, 2),
        .row = LIST(3, 4, 1, 1, 1, 0, 2, 0),
        .bars = LIST(3, 4, 1, BAR, 1, BAR, 1, BAR, 0, BAR, BAR, 2, 0, BAR, BAR, BAR),
        .table = LIST(8, 6, 3, 4, 5, 6, 8, 8), /* worked out */
    },
    {
        "Sestakova, tree T2 of Figure 2.3 and Example 5.20, with the symbols of T1",
        .arities = LIST(0, 0, 1, 2, 4, 2),
        .row = LIST(5, 2, 0, 4, 1, 1, 1, 0),
        .bars = LIST(5, 2, 0, BAR, BAR, 4, 1, BAR, 1, BAR, 1, BAR, 0, BAR, BAR, BAR),
        .table = LIST(8, 3, 3, 8, 5, 6, 7, 8), /* worked out */
    },
};

static unsigned passed, failed;

static void check(const vector *v, const char *what, int holds) {
    if (holds) {
        passed++;
    } else {
        failed++;
        printf("FAILED %s: %s\n", v->from, what);
    }
}

static uint16_t row[ROOM], table[ROOM], classes[ROOM], out[2 * ROOM];

#define LENT(l) (const uint8_t *)(l).at, 2 * (l).n
#define ROOM_IN(buffer) (uint8_t *)(buffer), sizeof(buffer)

/* Was it answered, with a count of these numbers, and are they at the front of the buffer? */
static int told(sparrowhem_answer a, const uint16_t *buffer, list numbers) {
    return a.refusal == SPARROWHEM_ANSWERED && a.count == numbers.n && (!numbers.n || memcmp(buffer, numbers.at, 2 * numbers.n) == 0);
}

/* The built table and the printed jumps say the same: a subtree of so many symbols takes twice as many numbers of the bar form. */
static void check_jumps(const vector *v) {
    size_t open[ROOM], depth = 0, k = 0;
    int same = v->jumps.n == v->bars.n;
    for (size_t i = 0; i < v->jumps.n; i++) {
        if (v->bars.at[i] == BAR) {
            same &= v->jumps.at[i] == open[--depth];
        } else {
            open[depth++] = i;
            same &= v->jumps.at[i] == i + 1 + 2 * (table[k] - k);
            k++;
        }
    }
    check(v, "the table is that of the printed jumps", same);
}

static void check_vector(const vector *v) {
    check(v, "its bar form is written", told(sparrowhem_bars_write(LENT(v->arities), LENT(v->row), ROOM_IN(out)), out, v->bars));
    list written = {out, v->bars.n};
    check(v, "and read back", told(sparrowhem_bars_read(LENT(v->arities), LENT(written), ROOM_IN(row)), row, v->row));
    list read = {row, v->row.n};
    sparrowhem_answer a = sparrowhem_build(LENT(v->arities), LENT(read), ROOM_IN(table), ROOM_IN(classes));
    check(v, "the table is built", told(a, table, v->table));
    if (v->classes.n) check(v, "and the classes", told(a, classes, v->classes));
    if (v->jumps.n) check_jumps(v);
    for (const search *s = v->searches; s < v->searches + SEARCHES && s->pattern.n; s++) {
        list ends = {table, v->row.n}, firsts = {classes, v->row.n};
        a = sparrowhem_find(LENT(v->arities), LENT(read), LENT(ends), LENT(firsts), LENT(s->pattern), ROOM_IN(out));
        check(v, "a search finds what is there", told(a, out, s->positions));
    }
    if (!v->printed.bars.n) return;
    memcpy(out, row, sizeof row);
    a = sparrowhem_bars_read(LENT(v->arities), LENT(v->printed.bars), ROOM_IN(row));
    check(v, "the form that lacks a bar is refused", a.refusal == v->printed.refusal && a.place == v->printed.place && a.count == 0);
    check(v, "and nothing written", memcmp(out, row, sizeof row) == 0);
}

int main(void) {
    for (size_t i = 0; i < sizeof VECTORS / sizeof VECTORS[0]; i++) check_vector(&VECTORS[i]);
    printf("%u passed, %u failed\n", passed, failed);
    return failed != 0;
}
