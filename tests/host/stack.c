/* What build takes of the stack, answered and refused, on each row of the benchmark. */
#include "painted.h"
#include "shaped.h"

static size_t most;

/* The build of what is lent: what it answers, and that it takes no more than the header says. */
static void build(const char *what, unsigned refusal) {
    size_t took = stack_of(run_build) - stack_of(run_nothing);
    most = took > most ? took : most;
    check_that(what, answer.refusal == refusal);
    check_that("build takes no more stack than the header says", took < BUILD_BYTES);
}

/* Every kind of refusal, each by a change that is taken back; so long a row as the longest has no room for one symbol more. */
static void refused(void) {
    uint8_t kept[2 * ALPHABET + 2];
    memcpy(kept, arities, sizeof kept);
    lent.arities = 0;
    build("no alphabet", SPARROWHEM_ALPHABET_SIZE);
    lent.arities = 2 * ALPHABET + 2;
    build("a long alphabet", SPARROWHEM_ALPHABET_SIZE);
    lent.arities = 2 * symbols;
    sparrowhem_put(arities, symbols - 1, 65535);
    build("an arity too large", SPARROWHEM_ARITY_OVER);
    for (size_t s = 0; s < symbols; s++) sparrowhem_put(arities, s, 1);
    build("no leaf", SPARROWHEM_NO_LEAF);
    memcpy(arities, kept, sizeof kept);
    lent.row = 0;
    build("no row", SPARROWHEM_ROW_EMPTY);
    lent.row = sizeof row;
    build("a long row", SPARROWHEM_ROW_LONG);
    lent.row = 2 * n, lent.table = 2 * n - 1;
    build("a short table", SPARROWHEM_BUFFER_SHORT);
    lent.table = 2 * n, lent.classes = 2 * n - 1;
    build("short classes", SPARROWHEM_BUFFER_SHORT);
    lent.classes = 2 * n;
    uint16_t last = sparrowhem_get(row, n - 1);
    sparrowhem_put(row, n - 1, 65535);
    build("no symbol", SPARROWHEM_ROW_STRAY);
    sparrowhem_put(row, n - 1, last);
    lent.row = 2 * n - 2;
    build("ends early", n > 1 ? SPARROWHEM_ROW_EARLY : SPARROWHEM_ROW_EMPTY);
    sparrowhem_put(row, n, 0);
    lent.row = lent.table = lent.classes = 2 * n + 2;
    if (n < BIG) build("goes on", SPARROWHEM_ROW_EXTRA);
}

int main(void) {
    while (next_row()) {
        build("a row", SPARROWHEM_ANSWERED);
        refused();
    }
    printf("stack: build takes %zu bytes at most\n", most);
    printf("%u passed, %u failed\n", passed, failed);
    return failed != 0 || passed == 0;
}
