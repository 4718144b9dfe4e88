/* An exchange of catalogues: one station writes three programmes as a file; the other reads it, takes up one programme where it stands in
   the file, builds its table and classes and searches it. Then the file comes again with its last byte missing, and is refused. Symbols:
   0 and 1 are clips, 2 a part with one child, 3 a block of two, 4 a block of three.
   The machine is little-endian, so that arrays of 16-bit numbers are lent as they stand. docs/EXCHANGE.md goes through it. */
#include <stddef.h>
#include <stdint.h>
#include <stdio.h>
#include <sparrowhem.h>

#define COUNT(list) (sizeof(list) / sizeof(list)[0])
#define X0 SPARROWHEM_VARIABLE(0)

/* What is sent: the alphabet; each programme's number and the length of its row; the rows, end to end. */
static const uint16_t alphabet[] = {0, 0, 1, 2, 3};
static const uint32_t numbers[] = {7, 40, 900};
static const uint32_t lengths[] = {9, 3, 1};
static const uint16_t rows[] = {4, 3, 0, 0, 2, 1, 3, 0, 0, /**/ 3, 1, 1, /**/ 1};

/* The file, and what the station that reads it keeps: the records, the alphabet, and table, classes and matches of one row. Each has room
   for the largest. */
static uint8_t file[SPARROWHEM_MOST_FILE];
static sparrowhem_entry entries[SPARROWHEM_MOST_PROGRAMMES];
static uint8_t arities[2 * SPARROWHEM_MOST_SYMBOLS];
static uint8_t table[2 * SPARROWHEM_MOST_ROW], classes[2 * SPARROWHEM_MOST_ROW], out[2 * SPARROWHEM_MOST_ROW];

/* Says why a call on a file was refused, if it was; the programme, if the fault is in a row. */
static int file_refused(const char *call, sparrowhem_catalogue c) {
    if (c.refusal == SPARROWHEM_ANSWERED) return 0;
    printf("%s refused: %u at place %llu", call, (unsigned)c.refusal, (unsigned long long)c.place);
    if (c.refusal >= SPARROWHEM_ROW_EMPTY && c.refusal <= SPARROWHEM_ROW_EXTRA) {
        printf(" of the row of programme %lu", (unsigned long)c.programme);
    }
    printf(": %s\n", sparrowhem_refusal_text(c.refusal));
    return 1;
}

static int refused(const char *call, sparrowhem_answer a) {
    if (a.refusal == SPARROWHEM_ANSWERED) return 0;
    printf("%s refused: %u at place %llu: %s\n", call, (unsigned)a.refusal, (unsigned long long)a.place, sparrowhem_refusal_text(a.refusal));
    return 1;
}

/* The alphabet of a file that was read, two bytes a symbol as the other calls take it. How many bytes these are. */
static size_t widen_arities(void) {
    size_t programmes = sparrowhem_get(file, 0), symbols = sparrowhem_get(file, 1);
    for (size_t k = 0; k < symbols; k++) {
        sparrowhem_put(arities, k, file[4 + 12 * programmes + k]);
    }
    return 2 * symbols;
}

/* Builds table and classes of a programme of the file, and looks for blocks of two equal parts. Its row is lent where it stands. */
static int search(sparrowhem_entry e) {
    static const uint16_t twins[] = {3, X0, X0};
    const uint8_t *row = file + e.start;
    size_t bytes = 2 * (size_t)e.length, alphabet_bytes = widen_arities();
    sparrowhem_answer a = sparrowhem_build(arities, alphabet_bytes, row, bytes, table, bytes, classes, bytes);
    if (refused("build", a)) return 1;
    a = sparrowhem_find(arities, alphabet_bytes, row, bytes, table, bytes, classes, bytes, (const uint8_t *)twins, sizeof twins, out, bytes);
    if (refused("find", a)) return 1;
    printf("programme %lu: blocks of two equal parts, at:", (unsigned long)e.programme);
    for (size_t i = 0; i < a.count; i++) {
        printf(" %u", (unsigned)sparrowhem_get(out, i));
    }
    printf("\n");
    return 0;
}

int main(void) {
    sparrowhem_catalogue sent = sparrowhem_catalogue_write((const uint8_t *)alphabet, sizeof alphabet, numbers, COUNT(numbers),
        lengths, COUNT(lengths), (const uint8_t *)rows, sizeof rows, file, sizeof file);
    if (file_refused("write", sent)) return 1;
    size_t bytes = (size_t)sent.count; /* so many bytes are stored or sent, and so many are read */
    printf("written: %u programmes, %lu bytes\n", (unsigned)COUNT(numbers), (unsigned long)bytes);

    sparrowhem_catalogue got = sparrowhem_catalogue_read(file, bytes, entries, COUNT(entries));
    if (file_refused("read", got)) return 1;
    printf("read:    %lu programmes, %u symbols\n", (unsigned long)got.count, (unsigned)sparrowhem_get(file, 1));
    for (size_t i = 0; i < got.count; i++) {
        printf("programme %lu: its row starts at byte %lu, its length is %lu\n", (unsigned long)entries[i].programme,
            (unsigned long)entries[i].start, (unsigned long)entries[i].length);
    }
    if (search(entries[0])) return 1;

    got = sparrowhem_catalogue_read(file, bytes - 1, entries, COUNT(entries)); /* cut off on its way: refused, and no record is changed */
    return !file_refused("read", got);
}
