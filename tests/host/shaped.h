/* Build on the rows of the benchmark, read from standard input as shapes.rs writes them. */
#include <stddef.h>
#include <stdint.h>
#include <stdio.h>
#include <string.h>
#include <unistd.h>
#include <sparrowhem.h>

enum { BIG = 16384, ALPHABET = 1024 };

/* What the header says that build takes of the stack. */
enum { BUILD_BYTES = 6 * 1024 };

/* An alphabet and a row, with a place more each, and what is kept beside the row. */
static uint8_t arities[2 * ALPHABET + 2], row[2 * BIG + 2], table[2 * BIG], classes[2 * BIG];
static size_t symbols, n;

/* What is lent of each, in bytes, and what the build of it answered. */
static struct {
    size_t arities, row, table, classes;
} lent;
static sparrowhem_answer answer;

static void run_nothing(void) {}
static void run_build(void) {
    answer = sparrowhem_build(arities, lent.arities, row, lent.row, table, lent.table, classes, lent.classes);
}

static int take(void *to, size_t bytes) {
    for (size_t done = 0; done < bytes;) {
        ssize_t got = read(0, (uint8_t *)to + done, bytes - done);
        if (got <= 0) return 0;
        done += (size_t)got;
    }
    return 1;
}

/* The next row, lent whole. */
static int next_row(void) {
    uint32_t many[2];
    if (!take(many, sizeof many) || !take(arities, 2 * many[0]) || !take(row, 2 * many[1])) return 0;
    symbols = many[0];
    n = many[1];
    lent.arities = 2 * symbols;
    lent.row = lent.table = lent.classes = 2 * n;
    return 1;
}

static unsigned passed, failed;

static void check_that(const char *what, int holds) {
    passed += holds != 0;
    failed += holds == 0;
    if (!holds) printf("FAILED: %s, %zu symbols\n", what, n);
}
