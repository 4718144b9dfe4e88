/* Bar forms of a post house: one comes in and is read, and its row is built at once and searched; one part of it is replaced, and the
   changed programme goes back as a bar form. Then one comes with a bar missing, and one that was cut off, and both are refused. Symbols:
   0 and 1 are clips, 2 a part with one child, 3 a block of two, 4 a block of three.
   The machine is little-endian, so that arrays of 16-bit numbers are lent as they stand. docs/POST-HOUSE.md goes through it. */
#include <stddef.h>
#include <stdint.h>
#include <stdio.h>
#include <sparrowhem.h>

#define COUNT(list) (sizeof(list) / sizeof(list)[0])
#define BAR SPARROWHEM_BAR
#define X0 SPARROWHEM_VARIABLE(0)

static const uint16_t alphabet[] = {0, 0, 1, 2, 3};

/* What comes: a programme; the same with the bar of its first block missing; the same without its last number. */
static const uint16_t came[] = {4, 3, 0, BAR, 0, BAR, BAR, 2, 1, BAR, BAR, 3, 0, BAR, 0, BAR, BAR, BAR};
static const uint16_t one_short[] = {4, 3, 0, BAR, 0, BAR, 2, 1, BAR, BAR, 3, 0, BAR, 0, BAR, BAR, BAR};
enum { CUT = COUNT(came) - 1 };

/* What the station keeps: the row with its table and classes, the matches, and the bar form that goes back. Each has room for the
   largest. */
static uint16_t row[SPARROWHEM_MOST_ROW], table[SPARROWHEM_MOST_ROW], classes[SPARROWHEM_MOST_ROW], out[SPARROWHEM_MOST_ROW];
static uint16_t sent[SPARROWHEM_MOST_BARS];

#define LENT(list) (const uint8_t *)(list), sizeof(list)
#define LENT_TO_WRITE(list) (uint8_t *)(list), sizeof(list)

static int refused(const char *call, sparrowhem_answer a) {
    if (a.refusal == SPARROWHEM_ANSWERED) return 0;
    printf("%s refused: %u at place %llu: %s\n", call, (unsigned)a.refusal, (unsigned long long)a.place,
        sparrowhem_refusal_text(a.refusal));
    return 1;
}

static void print_list(const uint16_t *list, size_t n) {
    for (size_t i = 0; i < n; i++) {
        if (list[i] == BAR) {
            printf(" |");
        } else {
            printf(" %u", (unsigned)list[i]);
        }
    }
    printf("\n");
}

/* Reads so many numbers of a bar form into the station's row. */
static sparrowhem_answer read_bars(const uint16_t *bars, size_t numbers) {
    return sparrowhem_bars_read(LENT(alphabet), (const uint8_t *)bars, 2 * numbers, LENT_TO_WRITE(row));
}

int main(void) {
    static const uint16_t twins[] = {3, X0, X0}, clip[] = {1};
    sparrowhem_answer a = read_bars(came, COUNT(came));
    if (refused("read", a)) return 1;
    size_t n = (size_t)a.count; /* the row's length, which the other calls take in bytes */
    printf("read %u numbers, a row of %u:", (unsigned)COUNT(came), (unsigned)n);
    print_list(row, n);

    a = sparrowhem_build(LENT(alphabet), (const uint8_t *)row, 2 * n, LENT_TO_WRITE(table), LENT_TO_WRITE(classes));
    if (refused("build", a)) return 1;
    a = sparrowhem_find(LENT(alphabet), (const uint8_t *)row, 2 * n, LENT(table), LENT(classes), LENT(twins), LENT_TO_WRITE(out));
    if (refused("find", a)) return 1;
    printf("blocks of two equal parts, at:");
    print_list(out, (size_t)a.count);

    a = sparrowhem_replace(LENT(alphabet), LENT_TO_WRITE(row), LENT_TO_WRITE(table), LENT_TO_WRITE(classes), n, LENT(clip), 4);
    if (refused("replace", a)) return 1;
    n = (size_t)a.count;
    printf("the part at 4 replaced by clip 1, a row of %u:", (unsigned)n);
    print_list(row, n);

    a = sparrowhem_bars_write(LENT(alphabet), (const uint8_t *)row, 2 * n, LENT_TO_WRITE(sent));
    if (refused("write", a)) return 1;
    printf("written, %u numbers:", (unsigned)a.count); /* so many are sent, and no others */
    print_list(sent, (size_t)a.count);

    int unread = refused("read", read_bars(one_short, COUNT(one_short))); /* the row is still the one that was written */
    return !(unread && refused("read", read_bars(came, CUT)));
}
