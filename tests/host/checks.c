/* The archive from the host's side: worked programmes, odd bytes, odd addresses, null with 0, limits, every refusal, and the stack
   that each call takes. All lists of a case stand in one arena, each at an odd address with guard bytes round it; a call must
   leave the arena as it was but for what the case expects. */
#include <stddef.h>
#include <stdint.h>
#include <stdio.h>
#include <string.h>
#include <sparrowhem.h>
#include "painted.h"

enum { GUARD = 33, BIG = 16384, SHEET = SPARROWHEM_MOST_SHEET };

/* Most cases have room in a part of the arena; `reach` is how much of it the case takes. */
enum { SMALL = 1 << 18, MIDDLE = 1 << 19, WIDE = 1 << 22 };
static uint8_t arena[WIDE] __attribute__((aligned(4))), expected[WIDE];
static size_t used, reach;
static unsigned passed, failed;

typedef struct {
    uint8_t *at;
    size_t bytes;
} lent;

static const lent none = {0, 0};

/* Lends `bytes` bytes: the numbers first, then whatever stood there. */
static lent lend_bytes(const unsigned *numbers, size_t count, size_t bytes) {
    lent list = {arena + used + GUARD, bytes};
    memset(arena + used, 0xC3, GUARD);
    for (size_t i = 0; i < bytes; i++) {
        list.at[i] = (uint8_t)(0x40 + i % 61);
    }
    for (size_t i = 0; i < count; i++) {
        list.at[2 * i] = (uint8_t)(numbers[i] & 255u);
        list.at[2 * i + 1] = (uint8_t)(numbers[i] >> 8);
    }
    memset(list.at + bytes, 0x3C, GUARD);
    used += bytes + 2 * GUARD;
    used += used & 1; /* so that every list begins at an odd address */
    return list;
}

static lent lend(const unsigned *numbers, size_t count) {
    return lend_bytes(numbers, count, 2 * count);
}

/* The case begins: nothing is lent. */
static void start_in(size_t bytes) {
    used = 0;
    reach = bytes;
    memset(arena, 0x99, reach);
}

static void start(void) {
    start_in(SMALL);
}

/* The lists are lent; what stands in the arena now is expected afterwards, but for the numbers below. */
static void ready(void) {
    memcpy(expected, arena, reach);
}

static void expect(lent list, size_t from, const unsigned *numbers, size_t count) {
    uint8_t *at = expected + (list.at - arena) + 2 * from;
    for (size_t i = 0; i < count; i++) {
        at[2 * i] = (uint8_t)(numbers[i] & 255u);
        at[2 * i + 1] = (uint8_t)(numbers[i] >> 8);
    }
}

static void check(const char *name, sparrowhem_answer a, unsigned refusal, int change, uint64_t place, uint64_t count) {
    int right = a.refusal == refusal && a.change == change && a.place == place && a.count == count;
    int same = memcmp(arena, expected, reach) == 0;
    if (right && same) {
        passed++;
        return;
    }
    failed++;
    printf("FAILED %s: refusal %u change %d place %llu count %llu%s\n", name, (unsigned)a.refusal, (int)a.change,
        (unsigned long long)a.place, (unsigned long long)a.count, same ? "" : ", and other bytes than expected");
}

static void check_refused(const char *name, sparrowhem_answer a, unsigned refusal, uint64_t place) {
    check(name, a, refusal, 0, place, 0);
}

static void check_that(const char *name, int holds) {
    if (holds) {
        passed++;
    } else {
        failed++;
        printf("FAILED %s\n", name);
    }
}

static sparrowhem_answer build(lent a, lent w, lent t, lent c) {
    return sparrowhem_build(a.at, a.bytes, w.at, w.bytes, t.at, t.bytes, c.at, c.bytes);
}

static sparrowhem_answer find(lent a, lent w, lent t, lent c, lent q, lent o) {
    return sparrowhem_find(a.at, a.bytes, w.at, w.bytes, t.at, t.bytes, c.at, c.bytes, q.at, q.bytes, o.at, o.bytes);
}

static sparrowhem_answer replace(lent a, lent w, lent t, lent c, uint64_t n, lent v, uint64_t p) {
    return sparrowhem_replace(a.at, a.bytes, w.at, w.bytes, t.at, t.bytes, c.at, c.bytes, n, v.at, v.bytes, p);
}

static sparrowhem_answer sheet(lent a, lent w, lent t, lent c, lent q, lent l, lent o, lent r) {
    return sparrowhem_sheet(a.at, a.bytes, w.at, w.bytes, t.at, t.bytes, c.at, c.bytes, q.at, q.bytes, l.at, l.bytes, o.at, o.bytes, r.at, r.bytes);
}

/* The worked alphabet, row, table and classes. */
#define COUNT(list) (sizeof(list) / sizeof(list)[0])
#define X0 SPARROWHEM_VARIABLE(0u)
#define X1 SPARROWHEM_VARIABLE(1u)
#define S SPARROWHEM_ANY
static const unsigned A[] = {0, 0, 1, 2, 3};
static const unsigned T[] = {4, 3, 0, 0, 2, 1, 3, 0, 0};
static const unsigned ENDS[] = {9, 4, 3, 4, 6, 6, 9, 8, 9};
static const unsigned CLASSES[] = {0, 1, 2, 2, 4, 5, 1, 2, 2};

/* A long row: a chain of 2s over a leaf; its table; and its classes, which are each position's own. */
static unsigned chain[BIG + 1], chain_ends[BIG + 1], own[BIG + 1], thousand[1025], wide[257], zeros[BIG + 1];

static void fill_lists(void) {
    for (size_t i = 0; i <= BIG; i++) {
        chain[i] = 2;
        chain_ends[i] = BIG;
        own[i] = (unsigned)i;
    }
    chain[BIG - 1] = 0;
    for (size_t i = 0; i < 257; i++) {
        wide[i] = i < 255 ? 2 : 0;
    }
}

static void build_case(const char *name, const unsigned *row, size_t n, unsigned refusal, uint64_t place) {
    start();
    lent a = lend(A, COUNT(A)), w = lend(row, n), t = lend_bytes(0, 0, 2 * n + 6), c = lend_bytes(0, 0, 2 * n + 4);
    ready();
    check_refused(name, build(a, w, t, c), refusal, place);
}

static void builds(void) {
    static const unsigned r1[] = {3, 0}, r2[] = {0, 0}, r3[] = {0, 9}, r4[] = {3, 9, 0}, r5[] = {3, 0, 65535};
    static const unsigned over[] = {0, 16, 17}, no_leaf[] = {1};
    build_case("build 8", r1, 2, SPARROWHEM_ROW_EARLY, 2);
    build_case("build 9", r2, 2, SPARROWHEM_ROW_EXTRA, 1);
    build_case("build 9 before 7", r3, 2, SPARROWHEM_ROW_EXTRA, 1);
    build_case("build 7", r4, 3, SPARROWHEM_ROW_STRAY, 1);
    build_case("build, a blank in a row", r5, 3, SPARROWHEM_ROW_STRAY, 2);
    build_case("build 4", r1, 0, SPARROWHEM_ROW_EMPTY, 0);
    build_case("build 5", chain, BIG + 1, SPARROWHEM_ROW_LONG, BIG + 1);

    for (size_t more = 0; more < 36; more++) { /* lists with just room, and with more, odd bytes too */
        start();
        lent a = lend_bytes(A, 5, 10 + (more & 1)), w = lend_bytes(T, 9, 18 + (more & 1));
        lent t = lend_bytes(0, 0, 18 + more % 6), c = lend_bytes(0, 0, 18 + more / 6);
        ready();
        expect(t, 0, ENDS, 9);
        expect(c, 0, CLASSES, 9);
        check("build", build(a, w, t, c), 0, 0, 0, 9);
        check("build, over what stands there", build(a, w, t, c), 0, 0, 0, 9);
    }
    start();
    lent a = lend(A, 5), w = lend(T, 9), t = lend_bytes(0, 0, 18), c = lend_bytes(0, 0, 18), short_t = {t.at, 17}, short_c = {c.at, 17};
    ready();
    check_refused("build 6, an odd byte of the table", build(a, w, short_t, c), SPARROWHEM_BUFFER_SHORT, 9);
    check_refused("build 6, an odd byte of the classes", build(a, w, t, short_c), SPARROWHEM_BUFFER_SHORT, 9);
    check_refused("build 6, no table", build(a, w, none, c), SPARROWHEM_BUFFER_SHORT, 9);
    check_refused("build 6, no classes", build(a, w, t, none), SPARROWHEM_BUFFER_SHORT, 9);
    check_refused("build 4, no row", build(a, none, t, c), SPARROWHEM_ROW_EMPTY, 0);
    check_refused("build 1, nothing at all", build(none, none, none, none), SPARROWHEM_ALPHABET_SIZE, 0);
    w.at[0] = 9;
    ready();
    check_refused("build 6 before 7", build(a, w, t, short_c), SPARROWHEM_BUFFER_SHORT, 9);

    start();
    lent bad = lend(over, 3), leafless = lend(no_leaf, 1), long_row = lend(chain, BIG + 1), many = lend(thousand, 1025);
    t = lend_bytes(0, 0, 2 * BIG + 2), c = lend_bytes(0, 0, 2 * BIG + 2);
    ready();
    check_refused("build 2 before 5", build(bad, long_row, t, c), SPARROWHEM_ARITY_OVER, 1);
    check_refused("build 3 before 4", build(leafless, none, t, c), SPARROWHEM_NO_LEAF, 0);
    check_refused("build 1 before 5", build(many, long_row, t, c), SPARROWHEM_ALPHABET_SIZE, 1025);
    many.bytes = 2 * 1024 + 1;
    lent leaf = {many.at, 2};
    static const unsigned one[] = {1};
    expect(t, 0, one, 1);
    expect(c, 0, zeros, 1);
    check("build with 1,024 symbols", build(many, leaf, t, c), 0, 0, 0, 1);

    start();
    lent longest = lend(chain, BIG), deep = lend(A, 5);
    t = lend_bytes(0, 0, 2 * BIG), c = lend_bytes(0, 0, 2 * BIG);
    ready();
    expect(t, 0, chain_ends, BIG);
    expect(c, 0, own, BIG);
    check("build of 16,384", build(deep, longest, t, c), 0, 0, 0, BIG);
    start();
    unsigned fifteen[2] = {15, 0}, fan[16] = {0}, fan_ends[16], fan_classes[16] = {0};
    for (unsigned i = 1; i < 16; i++) {
        fan[i] = 1;
        fan_ends[i] = i + 1;
        fan_classes[i] = 1;
    }
    fan_ends[0] = 16;
    a = lend(fifteen, 2), w = lend(fan, 16), t = lend_bytes(0, 0, 32), c = lend_bytes(0, 0, 32);
    ready();
    expect(t, 0, fan_ends, 16);
    expect(c, 0, fan_classes, 16);
    check("build with arity 15", build(a, w, t, c), 0, 0, 0, 16);
}

/* A row with what is kept beside it. */
typedef struct {
    size_t n;
    const unsigned *row, *table, *classes;
} kept;

static void find_case(const char *name, kept k, const unsigned *pattern, size_t m, size_t out_bytes, const unsigned *positions,
    size_t count, unsigned refusal, uint64_t place) {
    start();
    lent a = lend(A, 5), w = lend_bytes(k.row, k.n, 2 * k.n + 1), t = lend_bytes(k.table, k.n, 2 * k.n + 7);
    lent c = lend_bytes(k.classes, k.n, 2 * k.n + 5), q = lend_bytes(pattern, m, 2 * m + 1), o = lend_bytes(0, 0, out_bytes);
    ready();
    expect(o, 0, positions, count);
    check(name, find(a, w, t, c, q, o), refusal, 0, place, count);
}

static void finds(void) {
    static const unsigned twins[] = {3, X0, X0}, ends[] = {4, X0, S, X0}, same[] = {4, X0, X0, S}, any[] = {S}, all[] = {0, 1, 2, 3, 4, 5, 6, 7, 8};
    static const unsigned at1[] = {1, 6}, at2[] = {0}, far_row[] = {4, 3, 0, 0, 0, 3, 0, 1}, far_ends[] = {8, 4, 3, 4, 5, 8, 7, 8};
    static const unsigned far_classes[] = {0, 1, 2, 2, 2, 5, 2, 7}, stale_ends[] = {9, 4, 3, 4, 5, 6, 9, 8, 9};
    static const unsigned apart[] = {3, S, S}, odd[] = {5}, early[] = {3, X0}, extra[] = {X1, 0}, low[] = {65279}, high[] = {65296};
    static const kept worked = {9, T, ENDS, CLASSES}, far = {8, far_row, far_ends, far_classes}, stale = {9, T, stale_ends, CLASSES};
    find_case("find 3 X0 X0", worked, twins, 3, 18, at1, 2, 0, 0);
    find_case("find with just room", worked, twins, 3, 5, at1, 2, 0, 0);
    find_case("find 19", worked, twins, 3, 3, 0, 0, SPARROWHEM_OUTPUT_SHORT, 2);
    find_case("find 4 X0 S X0", worked, ends, 4, 18, at2, 1, 0, 0);
    find_case("find 4 X0 X0 S", worked, same, 4, 0, 0, 0, 0, 0);
    find_case("find S", worked, any, 1, 19, all, 9, 0, 0);
    find_case("find S, one place short", worked, any, 1, 17, 0, 0, SPARROWHEM_OUTPUT_SHORT, 9);
    find_case("find, equal in length and root only", far, ends, 4, 16, 0, 0, 0, 0);
    find_case("find 3 S S", far, apart, 3, 16, (const unsigned[]){1, 5}, 2, 0, 0);
    find_case("find 10", stale, any, 1, 18, 0, 0, SPARROWHEM_STALE, 4);
    find_case("find 10 before 11", stale, any, 0, 18, 0, 0, SPARROWHEM_STALE, 4);
    find_case("find 10 before 12", stale, wide, 257, 18, 0, 0, SPARROWHEM_STALE, 4);
    find_case("find 11", worked, any, 0, 18, 0, 0, SPARROWHEM_PATTERN_EMPTY, 0);
    find_case("find 12", worked, wide, 257, 18, 0, 0, SPARROWHEM_PATTERN_LONG, 257);
    find_case("find with a pattern of 256", worked, wide, 256, 0, 0, 0, 0, 0);
    find_case("find 13", worked, odd, 1, 18, 0, 0, SPARROWHEM_PATTERN_STRAY, 0);
    find_case("find 13 below the variables", worked, low, 1, 18, 0, 0, SPARROWHEM_PATTERN_STRAY, 0);
    find_case("find 13 above the variables", worked, high, 1, 18, 0, 0, SPARROWHEM_PATTERN_STRAY, 0);
    find_case("find 14", worked, early, 2, 18, 0, 0, SPARROWHEM_PATTERN_EARLY, 2);
    find_case("find 15", worked, extra, 2, 18, 0, 0, SPARROWHEM_PATTERN_EXTRA, 1);

    for (size_t places = 0; places < 2; places++) { /* the longest row, in an output with more places than it can fill, and one short */
        start();
        lent a = lend(A, 5), w = lend(chain, BIG), t = lend(chain_ends, BIG), c = lend(own, BIG), q = lend(any, 1);
        lent o = lend_bytes(0, 0, places ? 2 * BIG + 5 : 2 * BIG - 1);
        ready();
        for (unsigned i = 0; places && i < BIG; i++) {
            expect(o, i, &i, 1);
        }
        check("find in 16,384", find(a, w, t, c, q, o), places ? 0 : SPARROWHEM_OUTPUT_SHORT, 0, places ? 0 : BIG, places ? BIG : 0);
    }
    start();
    lent a = lend(A, 5), w = lend(T, 9), t = lend(ENDS, 9), c = lend(CLASSES, 9), q = lend(twins, 3), many = lend(thousand, 1025);
    lent over = lend(chain, BIG + 1), short_c = {c.at, 17};
    ready();
    check_refused("find 19, no output", find(a, w, t, c, q, none), SPARROWHEM_OUTPUT_SHORT, 2);
    check_refused("find 11, no pattern", find(a, w, t, c, none, none), SPARROWHEM_PATTERN_EMPTY, 0);
    check_refused("find 6, no table", find(a, w, none, c, q, none), SPARROWHEM_BUFFER_SHORT, 9);
    check_refused("find 6, no classes", find(a, w, t, none, q, none), SPARROWHEM_BUFFER_SHORT, 9);
    check_refused("find 6, an odd byte of the classes", find(a, w, t, short_c, q, none), SPARROWHEM_BUFFER_SHORT, 9);
    check_refused("find 4, no row", find(a, none, t, c, q, none), SPARROWHEM_ROW_EMPTY, 0);
    check_refused("find 1, nothing at all", find(none, none, none, none, none, none), SPARROWHEM_ALPHABET_SIZE, 0);
    check_refused("find 1", find(many, over, t, c, q, none), SPARROWHEM_ALPHABET_SIZE, 1025);
    check_refused("find 5", find(a, over, t, c, q, none), SPARROWHEM_ROW_LONG, BIG + 1);
    check_refused("find, row for pattern and pattern for row", find(a, q, t, c, w, none), SPARROWHEM_ROW_STRAY, 1);
    check_refused("find, classes for table and table for classes", find(a, w, c, t, q, none), SPARROWHEM_STALE, 0);
    static const unsigned root[] = {0};
    lent o = lend_bytes(0, 0, 4);
    ready();
    expect(o, 0, root, 1);
    check("find, the same list as row and pattern", find(a, w, t, c, w, o), 0, 0, 0, 1);
}

/* A sheet over the worked programme: its patterns and lengths, what is expected in its two outputs, and how many bytes each has. */
typedef struct {
    const unsigned *patterns, *lengths, *positions, *results;
    size_t m, k, count; /* numbers of the patterns, how many there are, and how many positions */
} page;

static void sheet_case(const char *name, page s, size_t positions_bytes, size_t results_bytes, unsigned refusal, uint64_t place) {
    start();
    lent a = lend(A, 5), w = lend_bytes(T, 9, 19), t = lend_bytes(ENDS, 9, 21), c = lend_bytes(CLASSES, 9, 25);
    lent q = lend_bytes(s.patterns, s.m, 2 * s.m + 1), l = lend_bytes(s.lengths, s.k, 2 * s.k + 1);
    lent o = lend_bytes(0, 0, positions_bytes), r = lend_bytes(0, 0, results_bytes);
    ready();
    if (refusal == SPARROWHEM_ANSWERED) {
        expect(o, 0, s.positions, s.count);
        expect(r, 0, s.results, 3 * s.k);
    }
    check(name, sheet(a, w, t, c, q, l, o, r), refusal, 0, place, refusal == SPARROWHEM_ANSWERED ? s.count : 0);
}

/* The outputs with just room, with more and with an odd byte are answered, and with a byte less refused: the results first. */
static void sheet_cases(const char *name, page s) {
    size_t o = 2 * s.count, r = 6 * s.k;
    for (size_t more = 0; more < 12; more++) {
        sheet_case(name, s, o + more % 3, r + more / 3, SPARROWHEM_ANSWERED, 0);
    }
    for (size_t less = 1; less < 3; less++) {
        sheet_case("sheet 19, the results", s, o, r - less, SPARROWHEM_OUTPUT_SHORT, 3 * s.k);
        sheet_case("sheet 19, the results before the positions", s, 0, r - less, SPARROWHEM_OUTPUT_SHORT, 3 * s.k);
        if (o) sheet_case("sheet 19, the positions", s, o - less, r + 1, SPARROWHEM_OUTPUT_SHORT, s.count);
    }
}

static void sheets(void) {
    static const unsigned p1[] = {3, X0, X0, 1, 2, 9, 4, X0, S, X0}, l1[] = {3, 1, 2, 4}, o1[] = {1, 6, 5, 0};
    static const unsigned r1[] = {0, 0, 2, 0, 0, 1, SPARROWHEM_PATTERN_STRAY, 1, 0, 0, 0, 1};
    static const page worked = {p1, l1, o1, r1, COUNT(p1), COUNT(l1), COUNT(o1)};
    sheet_cases("sheet, four patterns", worked);

    /* every refusal of a pattern, each with a place that counts from the pattern's own begin; matches before, between and behind */
    static unsigned p2[3 + 3 + 257 + 3 + 2 + 3 + 256 + 1] = {2, X1, 65296, 2, 2, S}, o2[] = {4, 2, 3, 7, 8};
    static const unsigned l2[] = {3, 0, 3, 257, 3, 2, 3, 256, 1, 0};
    static const unsigned r2[] = {SPARROWHEM_PATTERN_EXTRA, 2, 0, SPARROWHEM_PATTERN_EMPTY, 0, 0, 0, 0, 0, SPARROWHEM_PATTERN_LONG, 257, 0,
        SPARROWHEM_PATTERN_EARLY, 3, 0, 0, 0, 1, SPARROWHEM_PATTERN_STRAY, 2, 0, 0, 0, 0, 0, 0, 4, SPARROWHEM_PATTERN_EMPTY, 0, 0};
    static const unsigned tail[] = {3, 2, 1, 2, S, 3, 0, 65279};
    unsigned *at = p2 + 6;
    for (size_t i = 0; i < 257; i++) *at++ = wide[i];
    for (size_t i = 0; i < COUNT(tail); i++) *at++ = tail[i];
    for (size_t i = 0; i < 256; i++) *at++ = wide[i];
    *at = 0;
    page all_kinds = {p2, l2, o2, r2, COUNT(p2), COUNT(l2), COUNT(o2)};
    sheet_cases("sheet, refused patterns among others", all_kinds);

    /* no pattern is found, or none is lent at all */
    static const unsigned p3[] = {4, X0, X0, S}, l3[] = {4}, r3[] = {0, 0, 0};
    static const page unfound = {p3, l3, 0, r3, 4, 1, 0};
    sheet_cases("sheet, nothing is found", unfound);
    static unsigned r4[3 * SHEET];
    for (size_t i = 0; i < SHEET; i++) r4[3 * i] = SPARROWHEM_PATTERN_EMPTY;
    page empty = {0, zeros, 0, r4, 0, 1, 0};
    sheet_cases("sheet, one empty pattern", empty);
    empty.k = SHEET;
    sheet_cases("sheet, 64 empty patterns", empty);

    /* 63, and 64 by a number more or less */
    page s = worked;
    s.k = 0;
    sheet_case("sheet 63, no length", s, 18, 18, SPARROWHEM_SHEET_SIZE, 0);
    empty.k = SHEET + 1;
    sheet_case("sheet 63, 65 lengths", empty, 18, 6 * SHEET + 6, SPARROWHEM_SHEET_SIZE, SHEET + 1);
    s = worked, s.m--;
    sheet_case("sheet 64, a number less", s, 18, 24, SPARROWHEM_SHEET_SUM, 9);
    s = worked, s.k--;
    sheet_case("sheet 64, a length less", s, 18, 24, SPARROWHEM_SHEET_SUM, 10);
    s = worked, s.m = 0;
    sheet_case("sheet 64, no patterns", s, 18, 24, SPARROWHEM_SHEET_SUM, 0);
    s = empty, s.k = SHEET, s.patterns = p1, s.m = 1;
    sheet_case("sheet 64, 64 empty patterns and a number", s, 0, 6 * SHEET, SPARROWHEM_SHEET_SUM, 1);
    sheet_case("sheet 64 before 19", s, 0, 0, SPARROWHEM_SHEET_SUM, 1);
    s.k = SHEET + 1;
    sheet_case("sheet 63 before 64", s, 0, 6 * SHEET + 6, SPARROWHEM_SHEET_SIZE, SHEET + 1);
    sheet_case("sheet 63 before 19", s, 0, 0, SPARROWHEM_SHEET_SIZE, SHEET + 1);
}

/* What is lent is null, short, too long, stale, or one list twice; and the order of it all. */
static void sheets_in_order(void) {
    static const unsigned q1[] = {3, X0, X0}, three[] = {3}, one[] = {1}, found[] = {1, 6}, two_found[] = {0, 0, 2}, five[] = {5}, one_found[] = {0, 0, 1};
    static const unsigned over[] = {0, 16, 17}, no_leaf[] = {1}, stray[] = {3, 9, 0}, stale_ends[] = {9, 4, 3, 4, 6, 6, 9, 8, 8};
    static const unsigned stale_classes[] = {0, 1, 2, 2, 4, 5, 1, 2, 3};
    start();
    lent a = lend(A, 5), w = lend(T, 9), t = lend(ENDS, 9), c = lend(CLASSES, 9), q = lend(q1, 3), l = lend(three, 1);
    lent o = lend_bytes(0, 0, 4), r = lend_bytes(0, 0, 6), many = lend(thousand, 1025), high = lend(over, 3), leafless = lend(no_leaf, 1);
    lent long_w = lend(chain, BIG + 1), bad_w = lend(stray, 3), bad_t = lend(stale_ends, 9), bad_c = lend(stale_classes, 9), i = lend(one, 1);
    lent short_t = {t.at, 17}, short_c = {c.at, 17}, early = {w.at, 16}, extra = {w.at + 2, 16};
    ready();
    check_refused("sheet 1, nothing at all", sheet(none, none, none, none, none, none, none, none), SPARROWHEM_ALPHABET_SIZE, 0);
    check_refused("sheet 1", sheet(many, long_w, t, c, q, l, o, r), SPARROWHEM_ALPHABET_SIZE, 1025);
    check_refused("sheet 2", sheet(high, long_w, t, c, q, l, o, r), SPARROWHEM_ARITY_OVER, 1);
    check_refused("sheet 3", sheet(leafless, long_w, t, c, q, l, o, r), SPARROWHEM_NO_LEAF, 0);
    check_refused("sheet 4, no row", sheet(a, none, t, c, q, l, o, r), SPARROWHEM_ROW_EMPTY, 0);
    check_refused("sheet 5", sheet(a, long_w, t, c, q, l, o, r), SPARROWHEM_ROW_LONG, BIG + 1);
    check_refused("sheet 6, the table", sheet(a, w, short_t, c, q, l, o, r), SPARROWHEM_BUFFER_SHORT, 9);
    check_refused("sheet 6, the classes", sheet(a, w, t, short_c, q, l, o, r), SPARROWHEM_BUFFER_SHORT, 9);
    check_refused("sheet 7", sheet(a, bad_w, t, c, q, l, o, r), SPARROWHEM_ROW_STRAY, 1);
    check_refused("sheet 8", sheet(a, early, t, c, q, l, o, r), SPARROWHEM_ROW_EARLY, 8);
    check_refused("sheet 9", sheet(a, extra, t, c, q, l, o, r), SPARROWHEM_ROW_EXTRA, 3);
    check_refused("sheet 10", sheet(a, w, bad_t, c, q, l, o, r), SPARROWHEM_STALE, 8);
    check_refused("sheet 10 before 62", sheet(a, w, bad_t, bad_c, q, l, o, r), SPARROWHEM_STALE, 8);
    check_refused("sheet 62", sheet(a, w, t, bad_c, q, l, o, r), SPARROWHEM_STALE_CLASS, 8);
    check_refused("sheet 10 before 63", sheet(a, w, bad_t, c, q, none, o, r), SPARROWHEM_STALE, 8);
    check_refused("sheet 62 before 63", sheet(a, w, t, bad_c, q, none, o, r), SPARROWHEM_STALE_CLASS, 8);
    check_refused("sheet 62 before 64", sheet(a, w, t, bad_c, none, l, o, r), SPARROWHEM_STALE_CLASS, 8);
    check_refused("sheet 62 before 19", sheet(a, w, t, bad_c, q, l, none, none), SPARROWHEM_STALE_CLASS, 8);
    check_refused("sheet 63, no lengths", sheet(a, w, t, c, q, none, o, r), SPARROWHEM_SHEET_SIZE, 0);
    check_refused("sheet 63, neither patterns nor lengths", sheet(a, w, t, c, none, none, none, none), SPARROWHEM_SHEET_SIZE, 0);
    check_refused("sheet 64, no patterns", sheet(a, w, t, c, none, l, none, none), SPARROWHEM_SHEET_SUM, 0);
    check_refused("sheet 64, patterns for lengths and lengths for patterns", sheet(a, w, t, c, l, q, o, r), SPARROWHEM_SHEET_SUM, 1);
    check_refused("sheet 19, no results", sheet(a, w, t, c, q, l, o, none), SPARROWHEM_OUTPUT_SHORT, 3);
    check_refused("sheet 19, no outputs", sheet(a, w, t, c, q, l, none, none), SPARROWHEM_OUTPUT_SHORT, 3);
    check_refused("sheet 19, no positions", sheet(a, w, t, c, q, l, none, r), SPARROWHEM_OUTPUT_SHORT, 2);
    check_refused("sheet 19, results for positions and positions for results", sheet(a, w, t, c, q, l, r, o), SPARROWHEM_OUTPUT_SHORT, 3);
    expect(o, 0, found, 2);
    expect(r, 0, two_found, 3);
    check("sheet of one pattern", sheet(a, w, t, c, q, l, o, r), 0, 0, 0, 2);
    expect(o, 0, five, 1);
    expect(r, 0, one_found, 3);
    check("sheet, the same list as patterns and lengths", sheet(a, w, t, c, i, i, o, r), 0, 0, 0, 1);
}

/* Sums of lengths that 16 bits do not hold. What is lent as patterns is all zeros, too much for the arena. */
static void long_sums(void) {
    static uint8_t nothing[2 * 65535 * SHEET];
    static unsigned lengths[SHEET], results[3 * SHEET];
    for (size_t i = 0; i < SHEET; i++) {
        lengths[i] = 65535;
        results[3 * i] = SPARROWHEM_PATTERN_LONG;
        results[3 * i + 1] = 65535;
    }
    start();
    lent a = lend(A, 5), w = lend(T, 9), t = lend(ENDS, 9), c = lend(CLASSES, 9), l = lend(lengths, SHEET), r = lend_bytes(0, 0, 6 * SHEET);
    lent q = {nothing, sizeof nothing}, less = {nothing, sizeof nothing - 1}, cut = {nothing, 2 * (65535 * SHEET % 65536)};
    ready();
    check_refused("sheet 64, 4,194,239 numbers", sheet(a, w, t, c, less, l, none, r), SPARROWHEM_SHEET_SUM, 65535 * SHEET - 1);
    check_refused("sheet 64, what 16 bits leave of the sum", sheet(a, w, t, c, cut, l, none, r), SPARROWHEM_SHEET_SUM, 65535 * SHEET % 65536);
    expect(r, 0, results, 3 * SHEET);
    check("sheet, 64 patterns of 65,535", sheet(a, w, t, c, q, l, none, r), 0, 0, 0, 0);

    static const unsigned halves[] = {32768, 32768, 1}, leaf_at[] = {2, 3, 7, 8};
    static const unsigned of_halves[] = {SPARROWHEM_PATTERN_LONG, 32768, 0, SPARROWHEM_PATTERN_LONG, 32768, 0, 0, 0, 4};
    start();
    a = lend(A, 5), w = lend(T, 9), t = lend(ENDS, 9), c = lend(CLASSES, 9), l = lend(halves, 3), r = lend_bytes(0, 0, 18);
    lent o = lend_bytes(0, 0, 8), leaf = {nothing, 2}, all = {nothing, 2 * 65537}, short_l = {l.at, 4};
    ready();
    check_refused("sheet 64, 65,537 for 1", sheet(a, w, t, c, leaf, l, o, r), SPARROWHEM_SHEET_SUM, 1);
    check_refused("sheet 64, 65,536 for 0", sheet(a, w, t, c, none, short_l, o, r), SPARROWHEM_SHEET_SUM, 0);
    check_refused("sheet 64, 65,536 for 65,537", sheet(a, w, t, c, all, short_l, o, r), SPARROWHEM_SHEET_SUM, 65537);
    expect(o, 0, leaf_at, 4);
    expect(r, 0, of_halves, 9);
    check("sheet, a pattern behind 65,536 numbers", sheet(a, w, t, c, all, l, o, r), 0, 0, 0, 4);
}

/* The fullest sheet: 64 times S over 16,384 symbols, with just room, and with a place too few for it. */
static void fullest_sheet(void) {
    static unsigned any[SHEET], ones[SHEET], results[3 * SHEET];
    for (size_t i = 0; i < SHEET; i++) {
        any[i] = S;
        ones[i] = 1;
        results[3 * i + 2] = BIG;
    }
    for (size_t just = 0; just < 2; just++) {
        start_in(WIDE);
        lent a = lend(A, 5), w = lend(chain, BIG), t = lend(chain_ends, BIG), c = lend(own, BIG), q = lend(any, SHEET), l = lend(ones, SHEET);
        lent o = lend_bytes(0, 0, 2 * SHEET * BIG - !just), r = lend_bytes(0, 0, 6 * SHEET);
        ready();
        for (size_t i = 0; just && i < SHEET; i++) {
            expect(o, i * BIG, own, BIG);
        }
        if (just) expect(r, 0, results, 3 * SHEET);
        check("sheet, 1,048,576 positions", sheet(a, w, t, c, q, l, o, r), just ? 0 : SPARROWHEM_OUTPUT_SHORT, 0, just ? 0 : 1048576, just ? 1048576 : 0);
    }
}

/* The worked programme with other classes: find and replace refuse with 62, at the first that is not the row's. */
static void misclassed(const char *name, const unsigned *classes, uint64_t place) {
    static const unsigned any[] = {S}, leaf[] = {1};
    static const kept worked = {9, T, ENDS, 0};
    kept k = worked;
    k.classes = classes;
    find_case(name, k, any, 1, 18, 0, 0, SPARROWHEM_STALE_CLASS, place);
    start();
    lent a = lend(A, 5), w = lend_bytes(T, 9, 21), t = lend_bytes(ENDS, 9, 20), c = lend_bytes(classes, 9, 19), v = lend(leaf, 1);
    ready();
    check_refused(name, replace(a, w, t, c, 9, v, 4), SPARROWHEM_STALE_CLASS, place);
}

static void wrong_classes(void) {
    static const unsigned off[] = {0, 1, 2, 2, 4, 5, 0, 2, 2}, last[] = {0, 1, 2, 2, 4, 5, 1, 2, 3}, two[] = {0, 1, 2, 2, 3, 5, 1, 2, 7};
    static const unsigned later[] = {0, 6, 2, 2, 4, 5, 6, 2, 2}, itself[] = {0, 1, 2, 2, 4, 5, 6, 2, 2}, copy[] = {0, 1, 2, 2, 4, 5, 6, 7, 7};
    static const unsigned second[] = {0, 1, 3, 3, 4, 5, 1, 3, 3}, between[] = {0, 1, 2, 2, 4, 5, 1, 3, 2}, root[] = {1, 1, 2, 2, 4, 5, 1, 2, 2};
    static const unsigned behind[] = {0, 1, 2, 2, 9, 5, 1, 2, 2}, marked[] = {0, 1, 2, 2, 4, 0x8005, 1, 2, 2}, most[] = {0, 1, 2, 65535, 4, 5, 1, 2, 2};
    misclassed("a class of an ancestor", off, 6);
    misclassed("the last class", last, 8);
    misclassed("two wrong classes, the first counts", two, 4);
    misclassed("the first of two equal ones names the later", later, 1);
    misclassed("the later of two equal ones names itself", itself, 6);
    misclassed("the later of two equal ones names itself, and so do those in it", copy, 6);
    misclassed("all of a kind name the second", second, 2);
    misclassed("one names an equal one that is not the first", between, 7);
    misclassed("the root is not its own", root, 0);
    misclassed("a class behind the row", behind, 4);
    misclassed("a class with a high bit", marked, 5);
    misclassed("a class of 65535", most, 3);
    misclassed("all are 0", zeros, 1);
    misclassed("each is its own", own, 3);

    static const unsigned twins[] = {3, X0, X0}, at[] = {1, 6}, stray[] = {9}, odd_end[] = {9, 4, 3, 4, 6, 6, 9, 8, 8};
    start(); /* what stands behind the row is not looked at, and a byte is enough to make a class wrong */
    lent a = lend(A, 5), w = lend(T, 9), t = lend(ENDS, 9), c = lend_bytes(CLASSES, 9, 23), q = lend(twins, 3), o = lend_bytes(0, 0, 8);
    memset(c.at + 18, 0xFF, 5);
    ready();
    expect(o, 0, at, 2);
    check("classes behind the row", find(a, w, t, c, q, o), 0, 0, 0, 2);
    c.at[17] ^= 1;
    lent no_symbol = lend(stray, 1), wrong_end = lend(odd_end, 9), over = lend(zeros, BIG + 1), w2 = lend_bytes(T, 9, 20), t2 = lend_bytes(ENDS, 9, 20);
    ready();
    check_refused("find 62, a high byte", find(a, w, t, c, q, o), SPARROWHEM_STALE_CLASS, 8);
    check_refused("find 62 before 11", find(a, w, t, c, none, o), SPARROWHEM_STALE_CLASS, 8);
    check_refused("find 62 before 12", find(a, w, t, c, over, o), SPARROWHEM_STALE_CLASS, 8);
    check_refused("find 62 before 13", find(a, w, t, c, no_symbol, o), SPARROWHEM_STALE_CLASS, 8);
    check_refused("find 62 before 19", find(a, w, t, c, q, none), SPARROWHEM_STALE_CLASS, 8);
    check_refused("find 10 before 62", find(a, w, wrong_end, c, q, o), SPARROWHEM_STALE, 8);
    check_refused("replace 62 before 24", replace(a, w2, t2, c, 9, none, 0), SPARROWHEM_STALE_CLASS, 8);
    check_refused("replace 62 before 25", replace(a, w2, t2, c, 9, over, 0), SPARROWHEM_STALE_CLASS, 8);
    check_refused("replace 62 before 27", replace(a, w2, t2, c, 9, no_symbol, 0), SPARROWHEM_STALE_CLASS, 8);
    check_refused("replace 62 before 17", replace(a, w2, t2, c, 9, q, 9), SPARROWHEM_STALE_CLASS, 8);
    check_refused("replace 10 before 62", replace(a, w2, wrong_end, c, 9, q, 0), SPARROWHEM_STALE, 8);
    c.at[0] ^= 1;
    ready();
    check_refused("all of 10 before any 62", find(a, w, wrong_end, c, q, o), SPARROWHEM_STALE, 8);
    w.at[0] = 9;
    ready();
    check_refused("find 7 before 62", find(a, w, t, c, q, o), SPARROWHEM_ROW_STRAY, 0);
}

static void replaces(void) {
    static const unsigned longer[] = {3, 0, 1}, shorter[] = {1}, freed[] = {65535, 65535}, blank[] = {X0}, early[] = {2}, extra[] = {0, 0};
    static const unsigned w1[] = {4, 3, 0, 0, 3, 0, 1, 3, 0, 0}, t1[] = {10, 4, 3, 4, 7, 6, 7, 10, 9, 10}, c1[] = {0, 1, 2, 2, 4, 2, 6, 1, 2, 2};
    static const unsigned w2[] = {4, 1, 2, 1, 3, 0, 0}, t2[] = {7, 2, 4, 4, 7, 6, 7}, c2[] = {0, 1, 2, 1, 4, 5, 5};
    for (size_t more = 0; more < 5; more++) {
        start();
        lent a = lend(A, 5), w = lend_bytes(T, 9, 20 + more), t = lend_bytes(ENDS, 9, 20 + (more + 2) % 5), c = lend_bytes(CLASSES, 9, 20 + (more + 4) % 5);
        lent v = lend_bytes(longer, 3, 6 + (more & 1));
        ready();
        expect(w, 0, w1, 10);
        expect(t, 0, t1, 10);
        expect(c, 0, c1, 10);
        check("replace by a longer one", replace(a, w, t, c, 9, v, 4), 0, 1, 0, 10);
    }
    start();
    lent a = lend(A, 5), w = lend_bytes(T, 9, 23), t = lend_bytes(ENDS, 9, 21), c = lend_bytes(CLASSES, 9, 25), v = lend(shorter, 1);
    lent long_v = lend(longer, 3), old = lend(T + 1, 3), bad = lend(blank, 1), cut = lend(early, 1), two = lend(extra, 2), over = lend(zeros, BIG + 1);
    lent short_c = {c.at, 21};
    ready();
    check_refused("replace 17", replace(a, w, t, c, 9, v, 9), SPARROWHEM_POSITION, 9);
    check_refused("replace 17, far", replace(a, w, t, c, 9, v, UINT64_C(1) << 40), SPARROWHEM_POSITION, UINT64_C(1) << 40);
    check_refused("replace 27 before 17", replace(a, w, t, c, 9, bad, 9), SPARROWHEM_REPLACEMENT_STRAY, 0);
    check_refused("replace 24", replace(a, w, t, c, 9, none, 0), SPARROWHEM_REPLACEMENT_EMPTY, 0);
    check_refused("replace 25", replace(a, w, t, c, 9, over, 0), SPARROWHEM_REPLACEMENT_LONG, BIG + 1);
    check_refused("replace 28", replace(a, w, t, c, 9, cut, 0), SPARROWHEM_REPLACEMENT_EARLY, 1);
    check_refused("replace 29", replace(a, w, t, c, 9, two, 0), SPARROWHEM_REPLACEMENT_EXTRA, 1);
    check_refused("replace 4", replace(a, w, t, c, 0, v, 0), SPARROWHEM_ROW_EMPTY, 0);
    check_refused("replace 5", replace(a, w, t, c, 20000, v, 0), SPARROWHEM_ROW_LONG, 20000);
    check_refused("replace 5, far", replace(a, w, t, c, UINT64_MAX, v, 0), SPARROWHEM_ROW_LONG, UINT64_MAX);
    check_refused("replace 6, the row's buffer", replace(a, w, over, over, 12, v, 0), SPARROWHEM_BUFFER_SHORT, 12);
    check_refused("replace 6, the table", replace(a, w, t, c, 11, v, 0), SPARROWHEM_BUFFER_SHORT, 11);
    check_refused("replace 6, the classes", replace(a, w, over, short_c, 11, v, 0), SPARROWHEM_BUFFER_SHORT, 11);
    check_refused("replace 6, no classes", replace(a, w, t, none, 9, v, 0), SPARROWHEM_BUFFER_SHORT, 9);
    check_refused("replace 9", replace(a, w, t, c, 10, v, 0), SPARROWHEM_ROW_EXTRA, 9);
    check_refused("replace 8", replace(a, w, t, c, 8, v, 0), SPARROWHEM_ROW_EARLY, 8);
    check_refused("replace 1, nothing at all", replace(none, none, none, none, 0, none, 0), SPARROWHEM_ALPHABET_SIZE, 0);
    expect(w, 0, w2, 7);
    expect(w, 7, freed, 2);
    expect(t, 0, t2, 7);
    expect(t, 7, zeros, 2);
    expect(c, 0, c2, 7);
    expect(c, 7, zeros, 2);
    check("replace by a shorter one", replace(a, w, t, c, 9, v, 1), 0, -2, 0, 7);
    check_refused("replace 9, the new row with the old length", replace(a, w, t, c, 9, v, 1), SPARROWHEM_ROW_EXTRA, 7);
    expect(w, 0, T, 9);
    expect(t, 0, ENDS, 9);
    expect(c, 0, CLASSES, 9);
    check("putting back", replace(a, w, t, c, 7, old, 1), 0, 2, 0, 9);
    ready();
    check("the same again changes nothing", replace(a, w, t, c, 9, old, 1), 0, 0, 0, 9);
    lent tight_w = {w.at, 19}, tight_t = {t.at, 19}, tight_c = {c.at, 19};
    check_refused("replace 18, the row's buffer", replace(a, tight_w, t, c, 9, long_v, 4), SPARROWHEM_TOO_LONG, 10);
    check_refused("replace 18, the table", replace(a, w, tight_t, c, 9, long_v, 4), SPARROWHEM_TOO_LONG, 10);
    check_refused("replace 18, the classes", replace(a, w, t, tight_c, 9, long_v, 4), SPARROWHEM_TOO_LONG, 10);
    t.at[9] ^= 1;
    ready();
    check_refused("replace 10", replace(a, w, t, c, 9, v, 0), SPARROWHEM_STALE, 4);
    check_refused("replace 10 before 25", replace(a, w, t, c, 9, over, 0), SPARROWHEM_STALE, 4);

    /* the longest row, in buffers that are longer still */
    static const unsigned pair[] = {2, 0};
    start();
    a = lend(A, 5), w = lend_bytes(chain, BIG, 2 * BIG + 9), t = lend_bytes(chain_ends, BIG, 2 * BIG + 11), c = lend_bytes(own, BIG, 2 * BIG + 7);
    v = lend(zeros, 1), long_v = lend(pair, 2);
    ready();
    check_refused("replace 18, over 16,384", replace(a, w, t, c, BIG, long_v, BIG - 1), SPARROWHEM_TOO_LONG, BIG + 1);
    for (size_t i = 0; i < BIG; i++) {
        unsigned free_row = SPARROWHEM_FREED_ROW, free_table = SPARROWHEM_FREED_TABLE, free_class = SPARROWHEM_FREED_CLASS;
        expect(w, i, &free_row, 1);
        expect(t, i, &free_table, 1);
        expect(c, i, &free_class, 1);
    }
    static const unsigned one[] = {1};
    expect(w, 0, zeros, 1);
    expect(t, 0, one, 1);
    check("replace the root of 16,384", replace(a, w, t, c, BIG, v, 0), 0, 1 - BIG, 0, 1);
}

/* Where the first of a kind goes, or an earlier one comes, classes change far from the replaced place; of the nodes above it too. */
static void classes_far_away(void) {
    static const unsigned row[] = {4, 3, 0, 1, 0, 3, 0, 1}, table[] = {8, 4, 3, 4, 5, 8, 7, 8}, classes[] = {0, 1, 2, 3, 2, 1, 2, 3};
    static const unsigned gone[] = {4, 0, 0, 3, 0, 1}, gone_ends[] = {6, 2, 3, 6, 5, 6}, gone_classes[] = {0, 1, 1, 3, 1, 5};
    static const unsigned come[] = {4, 3, 0, 1, 3, 0, 1, 3, 0, 1}, come_ends[] = {10, 4, 3, 4, 7, 6, 7, 10, 9, 10};
    static const unsigned come_classes[] = {0, 1, 2, 3, 1, 2, 3, 1, 2, 3}, leaf[] = {0}, freed[] = {65535, 65535};
    start();
    lent a = lend(A, 5), w = lend_bytes(row, 8, 20), t = lend_bytes(table, 8, 20), c = lend_bytes(classes, 8, 20), v = lend(leaf, 1), u = lend(row + 1, 3);
    ready();
    expect(w, 0, come, 10);
    expect(t, 0, come_ends, 10);
    expect(c, 0, come_classes, 10);
    check("one more of a kind", replace(a, w, t, c, 8, u, 4), 0, 2, 0, 10);
    expect(w, 0, row, 8);
    expect(w, 8, freed, 2);
    expect(t, 0, table, 8);
    expect(t, 8, zeros, 2);
    expect(c, 0, classes, 8);
    expect(c, 8, zeros, 2);
    check("and put back", replace(a, w, t, c, 10, v, 4), 0, -2, 0, 8);
    expect(w, 0, gone, 6);
    expect(w, 6, freed, 2);
    expect(t, 0, gone_ends, 6);
    expect(t, 6, zeros, 2);
    expect(c, 0, gone_classes, 6);
    expect(c, 6, zeros, 2);
    check("the first of a kind is gone", replace(a, w, t, c, 8, v, 1), 0, -2, 0, 6);
}

/* ---- catalogue files ---- */

enum { PROGRAMMES = SPARROWHEM_MOST_PROGRAMMES, FILE_MOST = SPARROWHEM_MOST_FILE };

/* Numbers of 32 bits, or records, which stand aligned, with guard bytes round them as round all that is lent. */
typedef struct {
    uint32_t *at;
    size_t count;
} words;
typedef struct {
    sparrowhem_entry *at;
    size_t count;
} records;

static const words no_words = {0, 0};
static const records no_records = {0, 0};

/* Lends `bytes` bytes at an address that is a multiple of 4: those that are given first. */
static uint8_t *lend_aligned(const void *given, size_t count, size_t bytes) {
    used += (4 - (used + GUARD) % 4) % 4;
    lent list = lend_bytes(0, 0, bytes);
    if (count) memcpy(list.at, given, count);
    used += used & 1;
    return list.at;
}

static words lend_words(const uint32_t *numbers, size_t count) {
    words list = {(uint32_t *)(void *)lend_aligned(numbers, 4 * count, 4 * count), count};
    return list;
}

static records lend_records(size_t count) {
    records list = {(sparrowhem_entry *)(void *)lend_aligned(0, 0, 12 * count), count};
    return list;
}

/* A file, or a buffer for one, at an odd address. */
static lent lend_file(const uint8_t *file, size_t count, size_t bytes) {
    lent list = lend_bytes(0, 0, bytes);
    if (count) memcpy(list.at, file, count);
    return list;
}

static void expect_bytes(const void *at, const void *bytes, size_t count) {
    if (count) memcpy(expected + ((const uint8_t *)at - arena), bytes, count);
}

static void check_catalogue(const char *name, sparrowhem_catalogue c, unsigned refusal, uint32_t programme, uint64_t place, uint64_t count) {
    int right = c.refusal == refusal && c.programme == programme && c.place == place && c.count == count;
    int same = memcmp(arena, expected, reach) == 0;
    check_that(name, right && same);
    if (right && same) return;
    printf("  refusal %u programme %u place %llu count %llu%s\n", (unsigned)c.refusal, (unsigned)c.programme, (unsigned long long)c.place,
        (unsigned long long)c.count, same ? "" : ", and other bytes than expected");
}

static sparrowhem_catalogue catalogue_read(lent f, records e) {
    return sparrowhem_catalogue_read(f.at, f.bytes, e.at, e.count);
}

static sparrowhem_catalogue catalogue_write(lent a, words n, words l, lent w, lent f) {
    return sparrowhem_catalogue_write(a.at, a.bytes, n.at, n.count, l.at, l.count, w.at, w.bytes, f.at, f.bytes);
}

/* The worked catalogue, and its file as docs/CATALOGUE-FILE.md has it. */
static const uint32_t NUMBERS[] = {7, 900}, LENGTHS[] = {9, 1};
static const unsigned ROWS[] = {4, 3, 0, 0, 2, 1, 3, 0, 0, 1};
static const sparrowhem_entry ENTRIES[] = {{7, 33, 9}, {900, 51, 1}};
static const uint8_t WORKED[] = {2, 0, 5, 0, 7, 0, 0, 0, 33, 0, 0, 0, 9, 0, 0, 0, 0x84, 3, 0, 0, 51, 0, 0, 0, 1, 0, 0, 0, 0, 0, 1, 2, 3,
    4, 0, 3, 0, 0, 0, 0, 0, 2, 0, 1, 0, 3, 0, 0, 0, 0, 0, 1, 0};
enum { ENTRY_0 = 4, ENTRY_1 = 16, ARITIES_AT = 28, ROW_0 = 33, ROW_1 = 51, WORKED_BYTES = sizeof WORKED };

/* Where an entry has its three numbers. */
enum { NUMBER = 0, START = 4, LENGTH = 8 };

static void put_word(uint8_t *at, uint32_t number) {
    for (int i = 0; i < 4; i++) at[i] = (uint8_t)(number >> 8 * i);
}

/* Reads a file with more room for records than it needs: it is refused. */
static void unread(const char *name, const uint8_t *file, size_t bytes, unsigned refusal, uint32_t programme, uint64_t place) {
    start();
    lent f = lend_file(file, bytes, bytes);
    records e = lend_records(3);
    ready();
    check_catalogue(name, catalogue_read(f, e), refusal, programme, place, 0);
    check_catalogue(name, catalogue_read(f, no_records), refusal, programme, place, 0);
}

/* The worked file, `bytes` of it, with two other numbers of 32 bits in it; or with one, and another as it is. */
#define AS_IS ENTRY_0, 7
static void unread_worked(const char *name, size_t bytes, size_t at, uint32_t number, size_t also, uint32_t other, unsigned refusal,
    uint32_t programme, uint64_t place) {
    uint8_t file[WORKED_BYTES + 8];
    memset(file, 0, sizeof file);
    memcpy(file, WORKED, WORKED_BYTES);
    put_word(file + at, number);
    put_word(file + also, other);
    unread(name, file, bytes, refusal, programme, place);
}

/* The same with one other byte. */
static void unread_byte(const char *name, size_t bytes, size_t at, uint8_t byte, unsigned refusal, uint32_t programme, uint64_t place) {
    uint8_t file[WORKED_BYTES + 8];
    memset(file, 0, sizeof file);
    memcpy(file, WORKED, WORKED_BYTES);
    file[at] = byte;
    unread(name, file, bytes, refusal, programme, place);
}

/* The worked file in records with just room, with more, and with too little; cut at every byte; with each of its numbers wrong. */
static void catalogue_reads(void) {
    for (size_t more = 0; more < 4; more++) {
        start();
        lent f = lend_file(WORKED, WORKED_BYTES, WORKED_BYTES);
        records e = lend_records(2 + more);
        ready();
        expect_bytes(e.at, ENTRIES, sizeof ENTRIES);
        check_catalogue("read", catalogue_read(f, e), 0, 0, 0, 2);
        check_catalogue("read, over what stands there", catalogue_read(f, e), 0, 0, 0, 2);
        static const sparrowhem_entry widest[] = {{0, 33, 9}, {0xFFFFFFFF, 51, 1}};
        put_word(f.at + ENTRY_0, 0);
        put_word(f.at + ENTRY_1, 0xFFFFFFFF);
        ready();
        expect_bytes(e.at, widest, sizeof widest);
        check_catalogue("read, the least number and the greatest", catalogue_read(f, e), 0, 0, 0, 2);
    }
    start();
    lent f = lend_file(WORKED, WORKED_BYTES, WORKED_BYTES);
    records e = lend_records(1);
    ready();
    check_catalogue("read 19, one record", catalogue_read(f, e), SPARROWHEM_OUTPUT_SHORT, 0, 2, 0);
    check_catalogue("read 19, no record", catalogue_read(f, no_records), SPARROWHEM_OUTPUT_SHORT, 0, 2, 0);
    check_catalogue("read 65, nothing at all", catalogue_read(none, no_records), SPARROWHEM_FILE_SHORT, 0, 0, 0);

    for (size_t bytes = 0; bytes < WORKED_BYTES; bytes++) {
        unsigned refusal = bytes < ROW_0 ? SPARROWHEM_FILE_SHORT : SPARROWHEM_ROW_BOUNDS;
        unread("read, cut", WORKED, bytes, refusal, 0, bytes < ROW_0 ? bytes : bytes < ROW_1 ? ENTRY_0 : ENTRY_1);
    }
    unread_byte("read 65 before 88", WORKED_BYTES, 1, 1, SPARROWHEM_FILE_SHORT, 0, WORKED_BYTES);
    unread_byte("read 65 before 1", WORKED_BYTES, 3, 5, SPARROWHEM_FILE_SHORT, 0, WORKED_BYTES);

    unread_byte("read 2", WORKED_BYTES, ARITIES_AT + 3, 16, SPARROWHEM_ARITY_OVER, 0, 3);
    unread_byte("read 2, an arity of 255", WORKED_BYTES, ARITIES_AT, 255, SPARROWHEM_ARITY_OVER, 0, 0);
    unread_worked("read 3", WORKED_BYTES, ARITIES_AT, 0x01010101, ARITIES_AT + 1, 0x01010101, SPARROWHEM_NO_LEAF, 0, 0);
    unread_worked("read 2 before 3", WORKED_BYTES, ARITIES_AT, 0x01010101, ARITIES_AT + 1, 0x10100101, SPARROWHEM_ARITY_OVER, 0, 3);
    unread_worked("read 2 before 67", WORKED_BYTES, ARITIES_AT, 0x80010000, ENTRY_1, 7, SPARROWHEM_ARITY_OVER, 0, 3);
    unread_worked("read 3 before 68", WORKED_BYTES, ARITIES_AT, 0x01010101, ENTRY_0 + START, 0, SPARROWHEM_NO_LEAF, 0, 0);

    unread_worked("read 67, below", WORKED_BYTES, ENTRY_1, 6, AS_IS, SPARROWHEM_NUMBER_ORDER, 0, ENTRY_1);
    unread_worked("read 67, equal", WORKED_BYTES, ENTRY_1, 7, AS_IS, SPARROWHEM_NUMBER_ORDER, 0, ENTRY_1);
    unread_worked("read 67, both 0", WORKED_BYTES, ENTRY_0, 0, ENTRY_1, 0, SPARROWHEM_NUMBER_ORDER, 0, ENTRY_1);
    unread_worked("read 67, high bytes", WORKED_BYTES, ENTRY_0, 0x01000000, ENTRY_1, 0x00FFFFFF, SPARROWHEM_NUMBER_ORDER, 0, ENTRY_1);
    unread_worked("read 67, the greatest first", WORKED_BYTES, ENTRY_0, 0xFFFFFFFF, ENTRY_1, 0, SPARROWHEM_NUMBER_ORDER, 0, ENTRY_1);
    unread_worked("read 67 before 68 of an earlier entry", WORKED_BYTES, ENTRY_1, 7, ENTRY_0 + START, 0, SPARROWHEM_NUMBER_ORDER, 0, ENTRY_1);
    unread_worked("read 67 before 69", WORKED_BYTES + 1, ENTRY_1, 7, AS_IS, SPARROWHEM_NUMBER_ORDER, 0, ENTRY_1);

    static const uint32_t starts[] = {0, 32, 34, 35, 33 + 256, 33 + 65536, 33 + 0x80000000u, 0xFFFFFFFF};
    for (size_t i = 0; i < COUNT(starts); i++) {
        unread_worked("read 68, the first start", WORKED_BYTES, ENTRY_0 + START, starts[i], AS_IS, SPARROWHEM_ROW_BOUNDS, 0, ENTRY_0);
        unread_worked("read 68, a later start", WORKED_BYTES, ENTRY_1 + START, starts[i] + 18, AS_IS, SPARROWHEM_ROW_BOUNDS, 0, ENTRY_1);
    }
    /* a row past the end; twice these lengths, or with the start to it, is above 2^32 */
    static const uint32_t lengths[] = {11, 9 + 0x80000000u, 0x7FFFFFFF, 0x7FFFFFF0, 0x80000000u, 0xFFFFFFFF, 0x10000, 0x8009};
    for (size_t i = 0; i < COUNT(lengths); i++) {
        unread_worked("read 68, the first length", WORKED_BYTES, ENTRY_0 + LENGTH, lengths[i], AS_IS, SPARROWHEM_ROW_BOUNDS, 0, ENTRY_0);
        unread_worked("read 68, a later length", WORKED_BYTES, ENTRY_1 + LENGTH, lengths[i] - (i < 2 ? 8 : 0), AS_IS, SPARROWHEM_ROW_BOUNDS, 0, ENTRY_1);
        unread_worked("read 68 before that of a later entry", WORKED_BYTES, ENTRY_0 + LENGTH, lengths[i], ENTRY_1 + START, 0, SPARROWHEM_ROW_BOUNDS, 0, ENTRY_0);
    }
    unread_worked("read 68, a row that ends within the next", WORKED_BYTES, ENTRY_0 + LENGTH, 10, AS_IS, SPARROWHEM_ROW_BOUNDS, 0, ENTRY_1);
    unread_worked("read 68 before 69", WORKED_BYTES + 2, ENTRY_0 + LENGTH, 8, AS_IS, SPARROWHEM_ROW_BOUNDS, 0, ENTRY_1);
    unread_worked("read 68 before 4", WORKED_BYTES, ENTRY_0 + LENGTH, 0, AS_IS, SPARROWHEM_ROW_BOUNDS, 0, ENTRY_1);

    unread_worked("read 69, one byte", WORKED_BYTES + 1, AS_IS, AS_IS, SPARROWHEM_FILE_EXTRA, 0, WORKED_BYTES);
    unread_worked("read 69, eight", WORKED_BYTES + 8, AS_IS, AS_IS, SPARROWHEM_FILE_EXTRA, 0, WORKED_BYTES);
    unread_worked("read 69 before 4", WORKED_BYTES, ENTRY_1 + LENGTH, 0, AS_IS, SPARROWHEM_FILE_EXTRA, 0, ROW_1);
    unread_worked("read 69 before 7", WORKED_BYTES + 1, ROW_0, 0x00050005, AS_IS, SPARROWHEM_FILE_EXTRA, 0, WORKED_BYTES);

    unread_worked("read 4", ROW_1, ENTRY_1 + LENGTH, 0, AS_IS, SPARROWHEM_ROW_EMPTY, 900, 0);
    unread_worked("read 4, of the programme with the greatest number", ROW_1, ENTRY_1 + LENGTH, 0, ENTRY_1, 0xFFFFFFFF, SPARROWHEM_ROW_EMPTY, 0xFFFFFFFF, 0);
    unread_byte("read 7", WORKED_BYTES, ROW_0, 5, SPARROWHEM_ROW_STRAY, 7, 0);
    unread_byte("read 7, a high byte", WORKED_BYTES, ROW_0 + 17, 1, SPARROWHEM_ROW_STRAY, 7, 8);
    unread_byte("read 7, the last row", WORKED_BYTES, ROW_1, 5, SPARROWHEM_ROW_STRAY, 900, 0);
    unread_worked("read 7, of programme 0", WORKED_BYTES, ROW_0, 0x00050003, ENTRY_0, 0, SPARROWHEM_ROW_STRAY, 0, 1);
    unread_byte("read 8", WORKED_BYTES, ROW_1, 2, SPARROWHEM_ROW_EARLY, 900, 1);
    unread_byte("read 9", WORKED_BYTES, ROW_0, 0, SPARROWHEM_ROW_EXTRA, 7, 1);
    unread_worked("read 9 before 7 at one position", WORKED_BYTES, ROW_0, 0x00090000, AS_IS, SPARROWHEM_ROW_EXTRA, 7, 1);
    unread_worked("read, the first faulty row", WORKED_BYTES, ROW_0, 0x00090003, ROW_1 - 2, 0x00090000, SPARROWHEM_ROW_STRAY, 7, 1);
    unread_worked("read 69, rows cut at another place", WORKED_BYTES, ENTRY_0 + LENGTH, 8, ENTRY_1 + START, 49, SPARROWHEM_FILE_EXTRA, 0, ROW_1);
    uint8_t moved[WORKED_BYTES];
    memcpy(moved, WORKED, WORKED_BYTES);
    put_word(moved + ENTRY_0 + LENGTH, 8);
    put_word(moved + ENTRY_1 + START, 49);
    put_word(moved + ENTRY_1 + LENGTH, 2);
    unread("read 8, rows cut at another place", moved, WORKED_BYTES, SPARROWHEM_ROW_EARLY, 7, 8);
}

/* Files of other sizes: no programmes, too many, the longest alphabet, the longest row, the longest file. */
static uint8_t big_file[1 << 17];

/* The head, and the arities of a chain: symbol 0 a leaf, the others with one child. Where the rows start. */
static size_t begin_file(size_t programmes, size_t symbols) {
    memset(big_file, 0, sizeof big_file);
    sparrowhem_put(big_file, 0, (uint16_t)programmes);
    sparrowhem_put(big_file, 1, (uint16_t)symbols);
    size_t arities = 4 + 12 * programmes;
    if (symbols > 1) memset(big_file + arities + 1, 1, symbols - 1);
    return arities + symbols;
}

/* Entry i, with a chain of so many symbols as its row. Where the next starts. */
static size_t put_chain(size_t i, uint32_t number, size_t at, size_t length) {
    uint8_t *entry = big_file + 4 + 12 * i;
    put_word(entry + NUMBER, number);
    put_word(entry + START, (uint32_t)at);
    put_word(entry + LENGTH, (uint32_t)length);
    for (size_t k = 0; k < length; k++) {
        sparrowhem_put(big_file + at, k, k + 1 < length);
    }
    return at + 2 * length;
}

/* The big file is read, with just room for its programmes; and refused with a record too few. */
static void read_big(const char *name, size_t bytes, size_t programmes) {
    start();
    lent f = lend_file(big_file, bytes, bytes);
    records e = lend_records(programmes), few = {e.at, programmes ? programmes - 1 : 0};
    ready();
    if (programmes) check_catalogue(name, catalogue_read(f, few), SPARROWHEM_OUTPUT_SHORT, 0, programmes, 0);
    for (size_t i = 0; i < programmes; i++) {
        sparrowhem_entry entry;
        uint32_t *field[] = {&entry.programme, &entry.start, &entry.length};
        for (size_t k = 0; k < 3; k++) {
            const uint8_t *at = big_file + 4 + 12 * i + 4 * k;
            *field[k] = at[0] + 256u * at[1] + 65536u * at[2] + ((uint32_t)at[3] << 24);
        }
        expect_bytes(e.at + i, &entry, 12);
    }
    check_catalogue(name, catalogue_read(f, e), 0, 0, 0, programmes);
    if (!programmes) check_catalogue(name, catalogue_read(f, no_records), 0, 0, 0, 0);
}

static void big_reads(void) {
    size_t at = begin_file(0, 5);
    read_big("read, no programmes", at, 0);
    unread("read 69, no programmes", big_file, at + 1, SPARROWHEM_FILE_EXTRA, 0, at);
    unread("read 69, no programmes, far", big_file, FILE_MOST, SPARROWHEM_FILE_EXTRA, 0, at);
    at = begin_file(0, 0);
    unread("read 1, no symbols", big_file, at, SPARROWHEM_ALPHABET_SIZE, 0, 0);
    unread("read 1 before 69", big_file, at + 1, SPARROWHEM_ALPHABET_SIZE, 0, 0);
    at = begin_file(0, 1024);
    read_big("read, 1,024 symbols", at, 0);
    big_file[at - 1] = 16;
    unread("read 2, the last of 1,024", big_file, at, SPARROWHEM_ARITY_OVER, 0, 1023);
    at = begin_file(0, 1025);
    unread("read 1, 1,025 symbols", big_file, at, SPARROWHEM_ALPHABET_SIZE, 0, 1025);
    big_file[4] = 16;
    unread("read 1 before 2", big_file, at, SPARROWHEM_ALPHABET_SIZE, 0, 1025);
    unread("read 65 before 1, 1,025 symbols", big_file, at - 1, SPARROWHEM_FILE_SHORT, 0, at - 1);
    at = begin_file(0, 65532);
    unread("read 1, 65,532 symbols", big_file, at, SPARROWHEM_ALPHABET_SIZE, 0, 65532);
    at = begin_file(1, 65520);
    unread("read 1, before 68", big_file, at, SPARROWHEM_ALPHABET_SIZE, 0, 65520);

    at = begin_file(PROGRAMMES, 1);
    for (size_t i = 0; i < PROGRAMMES; i++) at = put_chain(i, (uint32_t)(3 * i), at, 1);
    read_big("read, 256 programmes", at, PROGRAMMES);
    put_word(big_file + 4 + 12 * 255, 0);
    unread("read 67, the last of 256", big_file, at, SPARROWHEM_NUMBER_ORDER, 0, 4 + 12 * 255);
    put_word(big_file + 4 + 12 * 255, 765);
    big_file[at - 2] = 1;
    unread("read 7, the last of 256", big_file, at, SPARROWHEM_ROW_STRAY, 765, 0);
    at = begin_file(PROGRAMMES + 1, 1);
    for (size_t i = 0; i < PROGRAMMES + 1; i++) at = put_chain(i, (uint32_t)i, at, 1);
    unread("read 88", big_file, at, SPARROWHEM_PROGRAMMES_OVER, 0, PROGRAMMES + 1);
    at = begin_file(PROGRAMMES + 1, 0);
    unread("read 88 before 1", big_file, at, SPARROWHEM_PROGRAMMES_OVER, 0, PROGRAMMES + 1);
    unread("read 65 before 88, 257 programmes", big_file, at - 1, SPARROWHEM_FILE_SHORT, 0, at - 1);
    at = begin_file(5461, 0);
    unread("read 88, the most that fit", big_file, at, SPARROWHEM_PROGRAMMES_OVER, 0, 5461);
    begin_file(65535, 65535);
    unread("read 65, the greatest head", big_file, FILE_MOST, SPARROWHEM_FILE_SHORT, 0, FILE_MOST);
    unread("read 66 before 65", big_file, FILE_MOST + 1, SPARROWHEM_FILE_LONG, 0, FILE_MOST + 1);
    unread("read 66, far", big_file, sizeof big_file, SPARROWHEM_FILE_LONG, 0, sizeof big_file);

    at = put_chain(0, 1, begin_file(1, 2), BIG);
    read_big("read, a row of 16,384", at, 1);
    at = put_chain(0, 0x80000001u, begin_file(1, 2), BIG + 1);
    unread("read 5", big_file, at, SPARROWHEM_ROW_LONG, 0x80000001u, BIG + 1);
    big_file[18] = 0;
    unread("read 5 before 9", big_file, at, SPARROWHEM_ROW_LONG, 0x80000001u, BIG + 1);
    at = begin_file(2, 2);
    at = put_chain(0, 1, at, BIG);
    at = put_chain(1, 2, at, (FILE_MOST - at) / 2);
    check_that("a file of 65,536 bytes", at == FILE_MOST);
    read_big("read, 65,536 bytes", at, 2);
    unread("read 66 before 69", big_file, at + 1, SPARROWHEM_FILE_LONG, 0, at + 1);
    unread("read 68, at 65,535", big_file, at - 1, SPARROWHEM_ROW_BOUNDS, 0, 16);
    put_word(big_file + 16 + LENGTH, (FILE_MOST - 30) / 2 - BIG - 1);
    unread("read 69, the last two bytes of the longest", big_file, at, SPARROWHEM_FILE_EXTRA, 0, FILE_MOST - 2);
}

/* What is given to write; the worked catalogue, if nothing else. */
typedef struct {
    const unsigned *arities, *rows;
    const uint32_t *numbers, *lengths;
    size_t s, m, n, k; /* symbols of the alphabet and of the rows, how many numbers and how many lengths */
} given;

static const given worked_catalogue = {A, ROWS, NUMBERS, LENGTHS, 5, 10, 2, 2};

/* It is refused, with odd bytes behind arities and rows and without, with a buffer and with none. */
static void unwritten(const char *name, given g, unsigned refusal, uint32_t programme, uint64_t place) {
    for (size_t odd = 0; odd < 2; odd++) {
        start_in(MIDDLE);
        lent a = lend_bytes(g.arities, g.s, 2 * g.s + odd), w = lend_bytes(g.rows, g.m, 2 * g.m + odd), f = lend_bytes(0, 0, 70000);
        words n = lend_words(g.numbers, g.n), l = lend_words(g.lengths, g.k);
        ready();
        check_catalogue(name, catalogue_write(a, n, l, w, odd ? none : f), refusal, programme, place, 0);
    }
}

/* It is written, with just room and with more; and refused with a byte too few. What was written is read again. */
static void written(const char *name, given g, const uint8_t *file, size_t bytes) {
    for (size_t more = 0; more < 4; more++) {
        start();
        lent a = lend_bytes(g.arities, g.s, 2 * g.s + more % 2), w = lend_bytes(g.rows, g.m, 2 * g.m + more / 2);
        lent f = lend_bytes(0, 0, bytes + 5 * more), few = {f.at, bytes - 1}, just = {f.at, bytes};
        words n = lend_words(g.numbers, g.n), l = lend_words(g.lengths, g.k);
        records e = lend_records(g.n);
        ready();
        check_catalogue(name, catalogue_write(a, n, l, w, few), SPARROWHEM_OUTPUT_SHORT, 0, bytes, 0);
        expect_bytes(f.at, file, bytes);
        check_catalogue(name, catalogue_write(a, n, l, w, f), 0, 0, 0, bytes);
        size_t at = 4 + 12 * g.n + g.s;
        for (size_t i = 0; i < g.n; i++) {
            sparrowhem_entry entry = {g.numbers[i], (uint32_t)at, g.lengths[i]};
            expect_bytes(e.at + i, &entry, 12);
            at += 2 * (size_t)g.lengths[i];
        }
        check_catalogue(name, catalogue_read(just, e), 0, 0, 0, g.n);
    }
}

static void catalogue_writes(void) {
    written("write", worked_catalogue, WORKED, WORKED_BYTES);
    given g = worked_catalogue;
    g.n = g.k = g.m = 0;
    begin_file(0, 5);
    memcpy(big_file + 4, "\0\0\1\2\3", 5);
    written("write, no programmes", g, big_file, 9);
    start();
    lent a = lend(A, 5), w = lend(ROWS, 10);
    words n = lend_words(NUMBERS, 2), l = lend_words(LENGTHS, 2);
    ready();
    check_catalogue("write 1, nothing at all", catalogue_write(none, no_words, no_words, none, none), SPARROWHEM_ALPHABET_SIZE, 0, 0, 0);
    check_catalogue("write 1, no alphabet", catalogue_write(none, n, l, w, none), SPARROWHEM_ALPHABET_SIZE, 0, 0, 0);
    check_catalogue("write 19, an alphabet alone", catalogue_write(a, no_words, no_words, none, none), SPARROWHEM_OUTPUT_SHORT, 0, 9, 0);
    check_catalogue("write 68, no numbers", catalogue_write(a, no_words, l, w, none), SPARROWHEM_ROW_BOUNDS, 0, 10, 0);
    check_catalogue("write 68, no lengths", catalogue_write(a, n, no_words, w, none), SPARROWHEM_ROW_BOUNDS, 0, 10, 0);
    check_catalogue("write 68, no rows", catalogue_write(a, n, l, none, none), SPARROWHEM_ROW_BOUNDS, 0, 0, 0);
    check_catalogue("write 68, rows alone", catalogue_write(a, no_words, no_words, w, none), SPARROWHEM_ROW_BOUNDS, 0, 10, 0);
    check_catalogue("write 67, lengths for numbers and numbers for lengths", catalogue_write(a, l, n, w, none), SPARROWHEM_NUMBER_ORDER, 0, 1, 0);
    check_catalogue("write 19, no buffer", catalogue_write(a, n, l, w, none), SPARROWHEM_OUTPUT_SHORT, 0, WORKED_BYTES, 0);
    lent f = lend_bytes(0, 0, 60);
    ready();
    expect_bytes(f.at, WORKED, WORKED_BYTES);
    memcpy(f.at, WORKED, WORKED_BYTES);
    check_catalogue("write, over the same file", catalogue_write(a, n, l, w, f), 0, 0, 0, WORKED_BYTES);

    /* the alphabet */
    static const unsigned over[] = {0, 16, 17, 0, 0}, high[] = {0, 0, 0, 256, 0}, top[] = {65535, 0, 0, 0, 0}, leafless[] = {1, 2, 3, 4, 5};
    static const uint32_t equal[] = {7, 7};
    g = worked_catalogue, g.arities = over;
    unwritten("write 2", g, SPARROWHEM_ARITY_OVER, 0, 1);
    g.arities = high;
    unwritten("write 2, an arity of 256", g, SPARROWHEM_ARITY_OVER, 0, 3);
    g.arities = top;
    unwritten("write 2, an arity of 65,535", g, SPARROWHEM_ARITY_OVER, 0, 0);
    g.numbers = equal;
    unwritten("write 2 before 67", g, SPARROWHEM_ARITY_OVER, 0, 0);
    g.arities = leafless;
    unwritten("write 3 before 67", g, SPARROWHEM_NO_LEAF, 0, 0);
    g.arities = thousand, g.s = 1025;
    unwritten("write 1 before 67", g, SPARROWHEM_ALPHABET_SIZE, 0, 1025);

    /* the numbers, then the lengths */
    static const uint32_t falling[] = {0xFFFFFFFF, 0}, bytewise[] = {0x01000000, 0x00FFFFFF}, three[] = {9, 1, 0}, early[] = {8, 2}, swapped[] = {1, 9};
    static const uint32_t one_less[] = {9, 0}, one_more[] = {9, 2}, wraps[] = {9 + 0x80000000u, 1 + 0x80000000u}, longest[] = {0xFFFFFFFF, 11};
    g = worked_catalogue, g.numbers = equal;
    unwritten("write 67, equal", g, SPARROWHEM_NUMBER_ORDER, 0, 1);
    g.numbers = falling;
    unwritten("write 67, falling", g, SPARROWHEM_NUMBER_ORDER, 0, 1);
    g.numbers = bytewise, g.k = 1;
    unwritten("write 67 before 68", g, SPARROWHEM_NUMBER_ORDER, 0, 1);
    g = worked_catalogue, g.lengths = three, g.k = 3;
    unwritten("write 68, a length more, with the right sum", g, SPARROWHEM_ROW_BOUNDS, 0, 10);
    g.k = 1, g.m = 9;
    unwritten("write 68, a length less, with the right sum", g, SPARROWHEM_ROW_BOUNDS, 0, 9);
    g = worked_catalogue, g.lengths = one_less;
    unwritten("write 68, one less", g, SPARROWHEM_ROW_BOUNDS, 0, 10);
    g.lengths = one_more;
    unwritten("write 68, one more", g, SPARROWHEM_ROW_BOUNDS, 0, 10);
    g.lengths = wraps;
    unwritten("write 68, a sum of 2^32 and 10", g, SPARROWHEM_ROW_BOUNDS, 0, 10);
    g.lengths = longest;
    unwritten("write 68, 2^32 - 1 and 11", g, SPARROWHEM_ROW_BOUNDS, 0, 10);
    g.lengths = wraps, g.n = g.k = 1, g.m = 9;
    unwritten("write 68, 2^31 and 9", g, SPARROWHEM_ROW_BOUNDS, 0, 9);

    /* the rows */
    g = worked_catalogue, g.lengths = early;
    unwritten("write 8", g, SPARROWHEM_ROW_EARLY, 7, 8);
    g.lengths = swapped;
    unwritten("write 8, the first symbol alone", g, SPARROWHEM_ROW_EARLY, 7, 1);
    static const unsigned stray[] = {4, 3, 0, 0, 2, 1, 3, 0, 5, 1}, extra[] = {3, 0, 0, 9, 2, 1, 3, 0, 0, 1}, last[] = {4, 3, 0, 0, 2, 1, 3, 0, 0, 65535};
    g = worked_catalogue, g.rows = stray;
    unwritten("write 7", g, SPARROWHEM_ROW_STRAY, 7, 8);
    g.rows = extra;
    unwritten("write 9 before 7", g, SPARROWHEM_ROW_EXTRA, 7, 3);
    g.rows = last;
    unwritten("write 7, the last row", g, SPARROWHEM_ROW_STRAY, 900, 0);
    g.rows = ROWS, g.m = 9, g.lengths = one_less;
    unwritten("write 4", g, SPARROWHEM_ROW_EMPTY, 900, 0);
    static const uint32_t least_first[] = {0, 0xFFFFFFFF}, none_first[] = {0, 9};
    g.numbers = least_first, g.lengths = none_first;
    unwritten("write 4, of programme 0", g, SPARROWHEM_ROW_EMPTY, 0, 0);
}

/* Rows that are chains of ones over a leaf 0. */
static unsigned chains[4 * BIG];
static uint32_t rising[70000], sizes[70000];

/* Chains of these lengths, end to end; how many symbols they have. */
static size_t lay_chains(const uint32_t *lengths, size_t count) {
    size_t m = 0;
    for (size_t i = 0; i < count; i++) {
        for (uint32_t k = 0; k < lengths[i]; k++) chains[m++] = k + 1 < lengths[i];
    }
    return m;
}

static void big_writes(void) {
    static const unsigned two[] = {0, 1};
    given g = {two, chains, rising, sizes, 2, 0, 0, 0};
    for (size_t i = 0; i < COUNT(rising); i++) {
        rising[i] = (uint32_t)i;
        sizes[i] = 1;
    }
    g.n = g.k = PROGRAMMES, g.m = lay_chains(sizes, PROGRAMMES);
    size_t at = begin_file(PROGRAMMES, 2);
    for (size_t i = 0; i < PROGRAMMES; i++) at = put_chain(i, rising[i], at, 1);
    written("write, 256 programmes", g, big_file, at);
    g.n = PROGRAMMES + 1, g.s = 0;
    unwritten("write 88 before 1", g, SPARROWHEM_PROGRAMMES_OVER, 0, PROGRAMMES + 1);
    g.n = COUNT(rising), g.s = 2;
    unwritten("write 88, 70,000 programmes", g, SPARROWHEM_PROGRAMMES_OVER, 0, COUNT(rising));
    g.n = 1, g.k = COUNT(sizes);
    unwritten("write 68, 70,000 lengths", g, SPARROWHEM_ROW_BOUNDS, 0, g.m);
    g.k = 1, g.m = COUNT(chains);
    unwritten("write 68, 65,536 symbols", g, SPARROWHEM_ROW_BOUNDS, 0, COUNT(chains));
    sizes[0] = COUNT(chains);
    unwritten("write 66, 65,536 symbols", g, SPARROWHEM_FILE_LONG, 0, 4 + 12 + 2 + 2 * COUNT(chains));
    static unsigned many[70000];
    g.arities = many, g.s = COUNT(many);
    unwritten("write 1, 70,000 symbols", g, SPARROWHEM_ALPHABET_SIZE, 0, COUNT(many));
    for (size_t i = 0; i < PROGRAMMES; i++) sizes[i] = 0xFFFFFFFF;
    g.arities = two, g.s = 2, g.n = g.k = PROGRAMMES, g.m = COUNT(chains) - PROGRAMMES;
    unwritten("write 68, the greatest sum", g, SPARROWHEM_ROW_BOUNDS, 0, g.m);
    for (size_t i = 0; i < PROGRAMMES; i++) sizes[i] = 0x01000000;
    g.m = 0;
    unwritten("write 68, 256 lengths with a sum of 2^32", g, SPARROWHEM_ROW_BOUNDS, 0, 0);

    /* the longest file, and one that is two bytes, or one, too long */
    sizes[0] = BIG, sizes[1] = (FILE_MOST - 30) / 2 - BIG;
    g.n = g.k = 2, g.m = lay_chains(sizes, 2);
    put_chain(1, 1, put_chain(0, 0, begin_file(2, 2), BIG), sizes[1]);
    written("write, 65,536 bytes", g, big_file, FILE_MOST);
    sizes[1]++, g.m = lay_chains(sizes, 2);
    unwritten("write 66, 65,538 bytes", g, SPARROWHEM_FILE_LONG, 0, FILE_MOST + 2);
    chains[0] = 9;
    unwritten("write 66 before 7", g, SPARROWHEM_FILE_LONG, 0, FILE_MOST + 2);
    static const unsigned odd[] = {0, 1, 1};
    g.arities = odd, g.s = 3, sizes[1]--, g.m = lay_chains(sizes, 2);
    unwritten("write 66, 65,537 bytes", g, SPARROWHEM_FILE_LONG, 0, FILE_MOST + 1);
    g.arities = two, g.s = 2, sizes[0]++, sizes[1]--, g.m = lay_chains(sizes, 2);
    unwritten("write 5", g, SPARROWHEM_ROW_LONG, 0, BIG + 1);
    chains[0] = 9;
    unwritten("write 5 before 7", g, SPARROWHEM_ROW_LONG, 0, BIG + 1);
    g.arities = thousand, g.s = 1024, g.n = g.k = 1, g.m = 1, sizes[0] = 1, chains[0] = 1023;
    begin_file(1, 1024);
    memset(big_file + 16, 0, 1024);
    put_chain(0, 0, 16 + 1024, 1);
    sparrowhem_put(big_file + 16 + 1024, 0, 1023);
    written("write, 1,024 symbols", g, big_file, 16 + 1024 + 2);
}

/* ---- bar forms ---- */

#define BAR SPARROWHEM_BAR
enum { BARS_MOST = SPARROWHEM_MOST_BARS };

static sparrowhem_answer bars_read(lent a, lent b, lent w) {
    return sparrowhem_bars_read(a.at, a.bytes, b.at, b.bytes, w.at, w.bytes);
}

static sparrowhem_answer bars_write(lent a, lent w, lent b) {
    return sparrowhem_bars_write(a.at, a.bytes, w.at, w.bytes, b.at, b.bytes);
}

/* The worked alphabet, row and bar form of docs/SCOPE.md. Symbol 3 is none. */
static const unsigned POST[] = {0, 1, 2}, POST_ROW[] = {2, 2, 0, 1, 0, 1, 0};
static const unsigned POST_BARS[] = {2, 2, 0, BAR, 1, 0, BAR, BAR, BAR, 1, 0, BAR, BAR, BAR};

/* A bar form, over the worked alphabet, is refused: with a buffer that is long enough for it, with none, and with odd bytes. */
static void unread_bars(const char *name, const unsigned *bars, size_t n, unsigned refusal, uint64_t place) {
    for (size_t odd = 0; odd < 2; odd++) {
        start_in(MIDDLE);
        lent a = lend_bytes(POST, 3, 6 + odd), b = lend_bytes(bars, n, 2 * n + odd), w = lend_bytes(0, 0, n + 8 + odd);
        ready();
        check_refused(name, bars_read(a, b, w), refusal, place);
        check_refused(name, bars_read(a, b, none), refusal, place);
    }
}
#define UNREAD(refusal, place, ...) \
    unread_bars("read " #__VA_ARGS__, (const unsigned[]){__VA_ARGS__}, COUNT(((const unsigned[]){__VA_ARGS__})), refusal, place)

static void faulty_bars(void) {
    /* a bar with nothing open; anything behind the root's bar */
    UNREAD(SPARROWHEM_BARS_NOTHING_OPEN, 0, BAR);
    UNREAD(SPARROWHEM_BARS_NOTHING_OPEN, 0, BAR, BAR, 9);
    UNREAD(SPARROWHEM_BARS_NOTHING_OPEN, 2, 0, BAR, BAR);
    UNREAD(SPARROWHEM_BARS_NOTHING_OPEN, 2, 0, BAR, 0);
    UNREAD(SPARROWHEM_BARS_NOTHING_OPEN, 2, 0, BAR, 0, BAR);
    UNREAD(SPARROWHEM_BARS_NOTHING_OPEN, 4, 1, 0, BAR, BAR, 1, 0, BAR, BAR);
    /* fewer children than the arity; a child too many */
    UNREAD(SPARROWHEM_BARS_CHILDREN, 1, 2, BAR);
    UNREAD(SPARROWHEM_BARS_CHILDREN, 1, 1, BAR);
    UNREAD(SPARROWHEM_BARS_CHILDREN, 3, 2, 0, BAR, BAR);
    UNREAD(SPARROWHEM_BARS_CHILDREN, 3, 2, 0, BAR, BAR, 0, BAR, BAR);
    UNREAD(SPARROWHEM_BARS_CHILDREN, 2, 1, 1, BAR);
    UNREAD(SPARROWHEM_BARS_CHILDREN, 1, 0, 0);
    UNREAD(SPARROWHEM_BARS_CHILDREN, 3, 1, 0, BAR, 0);
    UNREAD(SPARROWHEM_BARS_CHILDREN, 5, 2, 0, BAR, 0, BAR, 0, BAR, BAR);
    UNREAD(SPARROWHEM_BARS_CHILDREN, 2, 1, 0, 0, BAR, BAR);
    /* no symbol: the first that is none, the greatest number, and those with a meaning in a pattern */
    UNREAD(SPARROWHEM_ROW_STRAY, 0, 3);
    UNREAD(SPARROWHEM_ROW_STRAY, 0, 3, BAR);
    UNREAD(SPARROWHEM_ROW_STRAY, 1, 1, 3, BAR, BAR);
    UNREAD(SPARROWHEM_ROW_STRAY, 3, 2, 0, BAR, 256);
    UNREAD(SPARROWHEM_ROW_STRAY, 1, 1, S);
    UNREAD(SPARROWHEM_ROW_STRAY, 1, 1, X0, BAR, BAR);
    UNREAD(SPARROWHEM_ROW_STRAY, 1, 1, 65533, BAR, BAR);
    /* it ends early */
    UNREAD(SPARROWHEM_BARS_UNCLOSED, 1, 0);
    UNREAD(SPARROWHEM_BARS_UNCLOSED, 1, 2);
    UNREAD(SPARROWHEM_BARS_UNCLOSED, 2, 1, 0);
    UNREAD(SPARROWHEM_BARS_UNCLOSED, 3, 1, 0, BAR);
    UNREAD(SPARROWHEM_BARS_UNCLOSED, 3, 2, 0, BAR);
    UNREAD(SPARROWHEM_BARS_UNCLOSED, 5, 2, 0, BAR, 0, BAR);
    /* at one position 70 before 7, 71 before 7 */
    UNREAD(SPARROWHEM_BARS_NOTHING_OPEN, 2, 0, BAR, 3);
    UNREAD(SPARROWHEM_BARS_NOTHING_OPEN, 2, 0, BAR, S);
    UNREAD(SPARROWHEM_BARS_CHILDREN, 1, 0, 3);
    UNREAD(SPARROWHEM_BARS_CHILDREN, 3, 1, 0, BAR, 3);
    UNREAD(SPARROWHEM_BARS_CHILDREN, 5, 2, 0, BAR, 0, BAR, S);
    /* of two positions the first counts, whatever stands at the second */
    UNREAD(SPARROWHEM_ROW_STRAY, 0, 3, 3);
    UNREAD(SPARROWHEM_ROW_STRAY, 1, 2, 3, BAR, BAR, BAR);
    UNREAD(SPARROWHEM_BARS_CHILDREN, 1, 0, 0, 3);
    UNREAD(SPARROWHEM_BARS_CHILDREN, 1, 2, BAR, BAR, BAR);
    UNREAD(SPARROWHEM_BARS_NOTHING_OPEN, 2, 0, BAR, 2, BAR);
    UNREAD(SPARROWHEM_BARS_NOTHING_OPEN, 2, 0, BAR, BAR, 3);
    /* as printed in the literature, one bar short; and with two bars too many */
    UNREAD(SPARROWHEM_BARS_CHILDREN, 8, 2, 2, 0, BAR, 1, 0, BAR, BAR, 1, 0, BAR, BAR, BAR);
    UNREAD(SPARROWHEM_BARS_UNCLOSED, 17, 2, 2, 0, BAR, 1, 0, BAR, BAR, BAR, 2, 0, BAR, 1, 0, BAR, BAR, BAR);
    UNREAD(SPARROWHEM_BARS_NOTHING_OPEN, 4, 1, 0, BAR, BAR, BAR, BAR);
    /* the worked one, cut everywhere; with a bar, and with the number that is no symbol, in the place of each number */
    for (size_t n = 0; n < COUNT(POST_BARS); n++) {
        unsigned other[COUNT(POST_BARS)];
        for (size_t i = 0; i < COUNT(other); i++) other[i] = POST_BARS[i];
        unread_bars("read, cut", other, n, n ? SPARROWHEM_BARS_UNCLOSED : SPARROWHEM_ROW_EMPTY, n);
        other[n] = 3;
        int full = POST_BARS[n] == BAR; /* each of its bars stands where all children do */
        unread_bars("read, no symbol at one place", other, COUNT(other), full ? SPARROWHEM_BARS_CHILDREN : SPARROWHEM_ROW_STRAY, n);
        other[n] = BAR;
        unsigned refusal = n ? SPARROWHEM_BARS_CHILDREN : SPARROWHEM_BARS_NOTHING_OPEN;
        if (!full) unread_bars("read, a bar at one place", other, COUNT(other), refusal, n);
    }
}

/* What is lent to read and to write is null, short, too long or one list twice; and the order of it all. */
static void bars_in_order(void) {
    static const unsigned over[] = {0, 16, 17}, high[] = {0, 256}, leafless[] = {1, 2}, both[] = {1, 16};
    static const unsigned leaf[] = {0}, leaf_bars[] = {0, BAR}, open[] = {2}, no_symbol[] = {3};
    static const unsigned stray[] = {2, 3, 0}, early[] = {2, 0}, extra[] = {0, 0}, extra_stray[] = {0, 3}, bar_in_row[] = {1, BAR};
    start_in(MIDDLE);
    lent a = lend(POST, 3), b = lend(POST_BARS, 14), w = lend(POST_ROW, 7), o = lend_bytes(0, 0, 40), l = lend(leaf, 1);
    lent many = lend(thousand, 1025), bad = lend(over, 3), wide_a = lend(high, 2), no_leaf = lend(leafless, 2), two_faults = lend(both, 2);
    lent long_b = lend_bytes(0, 0, 2 * BARS_MOST + 2), unclosed = lend(open, 1), bad_b = lend(no_symbol, 1);
    lent long_w = lend_bytes(0, 0, 2 * BIG + 2), bad_w = lend(stray, 3), early_w = lend(early, 2), extra_w = lend(extra, 2);
    lent last_w = lend(extra_stray, 2), bar_w = lend(bar_in_row, 2), behind_w = lend(leaf_bars, 2);
    lent one_byte = {b.at, 1}, short_row = {o.at, 13}, short_bars = {o.at, 27};
    ready();
    check_refused("read 1, nothing at all", bars_read(none, none, none), SPARROWHEM_ALPHABET_SIZE, 0);
    check_refused("read 1 before 4", bars_read(many, none, o), SPARROWHEM_ALPHABET_SIZE, 1025);
    check_refused("read 1 before 5", bars_read(many, long_b, o), SPARROWHEM_ALPHABET_SIZE, 1025);
    check_refused("read 2 before 4", bars_read(bad, none, o), SPARROWHEM_ARITY_OVER, 1);
    check_refused("read 2 before 5", bars_read(bad, long_b, o), SPARROWHEM_ARITY_OVER, 1);
    check_refused("read 2, an arity of 256", bars_read(wide_a, b, o), SPARROWHEM_ARITY_OVER, 1);
    check_refused("read 2 before 3", bars_read(two_faults, b, o), SPARROWHEM_ARITY_OVER, 1);
    check_refused("read 3 before 4", bars_read(no_leaf, none, o), SPARROWHEM_NO_LEAF, 0);
    check_refused("read 3 before 72", bars_read(no_leaf, unclosed, o), SPARROWHEM_NO_LEAF, 0);
    check_refused("read 4, no bar form", bars_read(a, none, o), SPARROWHEM_ROW_EMPTY, 0);
    check_refused("read 4, an odd byte", bars_read(a, one_byte, o), SPARROWHEM_ROW_EMPTY, 0);
    check_refused("read 4 before 19", bars_read(a, none, none), SPARROWHEM_ROW_EMPTY, 0);
    check_refused("read 5 before 7", bars_read(a, long_b, o), SPARROWHEM_ROW_LONG, BARS_MOST + 1);
    check_refused("read 72 before 19", bars_read(a, unclosed, none), SPARROWHEM_BARS_UNCLOSED, 1);
    check_refused("read 7 before 72", bars_read(a, bad_b, none), SPARROWHEM_ROW_STRAY, 0);
    check_refused("read 19, no buffer", bars_read(a, b, none), SPARROWHEM_OUTPUT_SHORT, 7);
    check_refused("read 19, an odd byte", bars_read(a, b, short_row), SPARROWHEM_OUTPUT_SHORT, 7);
    check_refused("read, row for bar form", bars_read(a, w, o), SPARROWHEM_BARS_CHILDREN, 3);
    check_refused("read, bar form for alphabet", bars_read(b, b, o), SPARROWHEM_ARITY_OVER, 3);
    check_refused("read, the same list as alphabet and bar form", bars_read(l, l, o), SPARROWHEM_BARS_UNCLOSED, 1);

    check_refused("write 1, nothing at all", bars_write(none, none, none), SPARROWHEM_ALPHABET_SIZE, 0);
    check_refused("write 1 before 4", bars_write(many, none, o), SPARROWHEM_ALPHABET_SIZE, 1025);
    check_refused("write 1 before 5", bars_write(many, long_w, o), SPARROWHEM_ALPHABET_SIZE, 1025);
    check_refused("write 2 before 4", bars_write(bad, none, o), SPARROWHEM_ARITY_OVER, 1);
    check_refused("write 2 before 5", bars_write(wide_a, long_w, o), SPARROWHEM_ARITY_OVER, 1);
    check_refused("write 2 before 3", bars_write(two_faults, w, o), SPARROWHEM_ARITY_OVER, 1);
    check_refused("write 3 before 4", bars_write(no_leaf, none, o), SPARROWHEM_NO_LEAF, 0);
    check_refused("write 3 before 7", bars_write(no_leaf, bad_w, o), SPARROWHEM_NO_LEAF, 0);
    check_refused("write 4, no row", bars_write(a, none, o), SPARROWHEM_ROW_EMPTY, 0);
    check_refused("write 4, an odd byte", bars_write(a, one_byte, o), SPARROWHEM_ROW_EMPTY, 0);
    check_refused("write 4 before 19", bars_write(a, none, none), SPARROWHEM_ROW_EMPTY, 0);
    check_refused("write 5 before 7", bars_write(a, long_w, o), SPARROWHEM_ROW_LONG, BIG + 1);
    check_refused("write 7", bars_write(a, bad_w, o), SPARROWHEM_ROW_STRAY, 1);
    check_refused("write 7 before 19", bars_write(a, bad_w, none), SPARROWHEM_ROW_STRAY, 1);
    check_refused("write 7, a bar in a row", bars_write(a, bar_w, o), SPARROWHEM_ROW_STRAY, 1);
    check_refused("write 8", bars_write(a, early_w, o), SPARROWHEM_ROW_EARLY, 2);
    check_refused("write 8 before 19", bars_write(a, early_w, none), SPARROWHEM_ROW_EARLY, 2);
    check_refused("write 9", bars_write(a, extra_w, o), SPARROWHEM_ROW_EXTRA, 1);
    check_refused("write 9 before 7", bars_write(a, last_w, o), SPARROWHEM_ROW_EXTRA, 1);
    check_refused("write 9, a bar behind a row", bars_write(a, behind_w, none), SPARROWHEM_ROW_EXTRA, 1);
    check_refused("write, bar form for row", bars_write(a, b, o), SPARROWHEM_ROW_STRAY, 3);
    check_refused("write 19, no buffer", bars_write(a, w, none), SPARROWHEM_OUTPUT_SHORT, 14);
    check_refused("write 19, an odd byte", bars_write(a, w, short_bars), SPARROWHEM_OUTPUT_SHORT, 14);
    check_refused("write 19, room for the row alone", bars_write(a, w, (lent){o.at, 14}), SPARROWHEM_OUTPUT_SHORT, 14);
    expect(o, 0, leaf_bars, 2);
    check("write, the same list as alphabet and row", bars_write(l, l, o), 0, 0, 0, 2);
    check("write, over what stands there", bars_write(l, l, o), 0, 0, 0, 2);
}

/* The bar form of a row, laid node by node. */
static unsigned laid[BARS_MOST + 2];
static size_t laid_many;

static size_t lay_node(const unsigned *arities, const unsigned *row, size_t at) {
    unsigned symbol = row[at++];
    laid[laid_many++] = symbol;
    for (unsigned k = 0; k < arities[symbol]; k++) at = lay_node(arities, row, at);
    laid[laid_many++] = BAR;
    return at;
}

static void lay_bars(const unsigned *arities, const unsigned *row) {
    laid_many = 0;
    lay_node(arities, row, 0);
}

/* A row is written and read back, and built at once; each with just room, with more, with odd bytes, and a byte short of room. */
static void there_and_back(const char *name, const unsigned *arities, size_t s, const unsigned *row, size_t n) {
    lay_bars(arities, row);
    check_that("a bar form is twice as long as its row", laid_many == 2 * n);
    for (size_t more = 0; more < 4; more++) {
        start_in(MIDDLE);
        lent a = lend_bytes(arities, s, 2 * s + more % 2), w = lend_bytes(row, n, 2 * n + more % 2), b = lend_bytes(0, 0, 4 * n + more);
        lent few = {b.at, 4 * n - 1};
        ready();
        check_refused(name, bars_write(a, w, few), SPARROWHEM_OUTPUT_SHORT, 2 * n);
        expect(b, 0, laid, 2 * n);
        check(name, bars_write(a, w, b), 0, 0, 0, 2 * n);

        lent form = {b.at, 4 * n + more % 2}, back = lend_bytes(0, 0, 2 * n + 5 * more);
        lent few_back = {back.at, 2 * n - 1}, got = {back.at, 2 * n}, t = lend_bytes(0, 0, 2 * n), c = lend_bytes(0, 0, 2 * n);
        ready();
        check_refused(name, bars_read(a, form, few_back), SPARROWHEM_OUTPUT_SHORT, n);
        expect(back, 0, row, n);
        check(name, bars_read(a, form, back), 0, 0, 0, n);
        check(name, bars_read(a, form, back), 0, 0, 0, n);
        check_that("what was read is built at once", build(a, got, t, c).count == n);
    }
}

/* Bar forms of other sizes and shapes: one symbol, the longest alphabet, every short chain, the longest rows, deep and flat. */
static unsigned shape[BIG];

static void shaped_bars(void) {
    static const unsigned leaf[] = {0}, last[] = {1023};
    there_and_back("bars, the worked row", POST, 3, POST_ROW, COUNT(POST_ROW));
    there_and_back("bars, the worked programme", A, 5, T, 9);
    there_and_back("bars, one symbol", leaf, 1, leaf, 1);
    there_and_back("bars, the last of 1,024 symbols", thousand, 1024, last, 1);
    static const size_t lengths[] = {2, 3, 127, 128, 129, 255, 256, 257, 258, 511, 512, 513, 2047, 2048, 2049, 4096, 4097, BIG - 1, BIG};
    for (size_t i = 0; i < COUNT(lengths); i++) { /* round the sizes of the rooms */
        size_t n = lengths[i];
        there_and_back("bars, a chain", A, 5, chain + BIG - n, n);
        for (size_t k = 0; k < n; k++) shape[k] = k % 2 ? 0 : 3;
        if (n % 2) {
            shape[n - 1] = 0;
        } else {
            shape[n - 2] = 2, shape[n - 1] = 0;
        }
        there_and_back("bars, a right comb", A, 5, shape, n);
        for (size_t k = 0; k < n; k++) shape[k] = k < n / 2 ? 3 : 0;
        if (n % 2 == 0) shape[0] = 2;
        there_and_back("bars, a left comb", A, 5, shape, n);
    }
    /* nodes of 15 children, each the last of the one before, under a chain of three */
    static const unsigned fans[] = {0, 1, 15};
    for (size_t k = 0; k < BIG; k++) shape[k] = k < 3 ? 1 : k % 15 == 3 && k + 1 < BIG ? 2 : 0;
    there_and_back("bars, 16,384 symbols in fans", fans, 3, shape, BIG);
}

/* The longest bar form, and one number more or other; a bar form with more open nodes than any row has symbols. Places over 16 bits. */
static void long_bars(void) {
    static unsigned list[70000];
    lay_bars(A, chain);
    start_in(MIDDLE);
    lent a = lend(A, 5), w = lend_bytes(0, 0, 2 * BIG + 2), short_w = {w.at, 2 * BIG - 1};
    lent b = lend_bytes(laid, BARS_MOST, 2 * BARS_MOST + 2);
    lent cut = {b.at, 2 * BARS_MOST - 1}, longest = {b.at, 2 * BARS_MOST + 1}, over = {b.at, 2 * BARS_MOST + 2};
    ready();
    check_refused("read 72, the longest but its last byte", bars_read(a, cut, w), SPARROWHEM_BARS_UNCLOSED, BARS_MOST - 1);
    check_refused("read 5, one number over", bars_read(a, over, w), SPARROWHEM_ROW_LONG, BARS_MOST + 1);
    check_refused("read 19, the longest", bars_read(a, longest, short_w), SPARROWHEM_OUTPUT_SHORT, BIG);
    expect(w, 0, chain, BIG);
    check("read, the longest", bars_read(a, longest, w), 0, 0, 0, BIG);
    sparrowhem_put(b.at, BARS_MOST - 1, 0);
    ready();
    check_refused("read 71, the last of the longest", bars_read(a, longest, w), SPARROWHEM_BARS_CHILDREN, BARS_MOST - 1);
    sparrowhem_put(b.at, BARS_MOST - 2, 9);
    ready();
    check_refused("read 71 before 7, the last but one", bars_read(a, longest, w), SPARROWHEM_BARS_CHILDREN, BARS_MOST - 2);

    for (size_t i = 0; i < COUNT(list); i++) list[i] = 1;
    unread_bars("read 72, all nodes open", list, BARS_MOST, SPARROWHEM_BARS_UNCLOSED, BARS_MOST);
    unread_bars("read 72, more open nodes than a row has symbols", list, BIG + 1, SPARROWHEM_BARS_UNCLOSED, BIG + 1);
    list[BARS_MOST - 1] = BAR;
    unread_bars("read 71, a bar under 32,767 open nodes", list, BARS_MOST, SPARROWHEM_BARS_CHILDREN, BARS_MOST - 1);
    list[BARS_MOST - 1] = 3;
    unread_bars("read 7, under 32,767 open nodes", list, BARS_MOST, SPARROWHEM_ROW_STRAY, BARS_MOST - 1);
    list[BARS_MOST - 2] = 0;
    unread_bars("read 71 before 7, under 32,767 open nodes", list, BARS_MOST, SPARROWHEM_BARS_CHILDREN, BARS_MOST - 1);
    unread_bars("read 5, 32,769 numbers", list, BARS_MOST + 1, SPARROWHEM_ROW_LONG, BARS_MOST + 1);
    unread_bars("read 5, 65,536 numbers", list, 65536, SPARROWHEM_ROW_LONG, 65536);
    unread_bars("read 5, 70,000 numbers", list, COUNT(list), SPARROWHEM_ROW_LONG, COUNT(list));
    list[0] = BAR;
    unread_bars("read 5 before 70", list, COUNT(list), SPARROWHEM_ROW_LONG, COUNT(list));
    unread_bars("read 70 of the longest", list, BARS_MOST, SPARROWHEM_BARS_NOTHING_OPEN, 0);
    list[0] = 0, list[1] = BAR;
    unread_bars("read 70 of the longest, behind a leaf", list, BARS_MOST, SPARROWHEM_BARS_NOTHING_OPEN, 2);

    static const size_t sizes_over[] = {BIG + 1, BARS_MOST, 65536, COUNT(list)};
    for (size_t i = 0; i < COUNT(sizes_over); i++) {
        size_t n = sizes_over[i];
        start_in(MIDDLE);
        a = lend(POST, 3), w = lend(list, n), b = lend_bytes(0, 0, 100);
        ready();
        check_refused("write 5", bars_write(a, w, b), SPARROWHEM_ROW_LONG, n);
        check_refused("write 5 before 19", bars_write(a, w, none), SPARROWHEM_ROW_LONG, n);
    }
}

/* What a call takes of the stack. */
static lent run_a, run_w, run_t, run_c, run_q, run_o, run_qs, run_ls, run_ps, run_rs;
static size_t run_n;

static void run_nothing(void) {}
static void run_build(void) { build(run_a, run_w, run_t, run_c); }
static void run_find(void) { find(run_a, run_w, run_t, run_c, run_q, run_o); }
static void run_sheet(void) { sheet(run_a, run_w, run_t, run_c, run_qs, run_ls, run_ps, run_rs); }
static void run_replace(void) { replace(run_a, run_w, run_t, run_c, run_n, run_o, 0); }

static void check_stack(const char *call, void (*run)(void), size_t kib) {
    size_t most = stack_of(run) - stack_of(run_nothing);
    printf("stack: %s of %zu symbols %zu bytes\n", call, run_n, most);
    check_that("a call takes no more stack than the header says", most < kib * 1024);
}

/* What the header says, in KiB: of the calls in a row of at most 256 symbols, and in the longest. */
typedef struct {
    size_t build, find, sheet, replace;
} kibs;

static const kibs SHORT = {6, 12, 16, 12}, LONG = {6, 192, 268, 228};

/* A row of n symbols; find with S alone; a full sheet, whose patterns are S but for one of 256 symbols and one too long; replace of the
   whole row by one as long; then find and the sheet once more, with a wrong last class; and find with a pattern that is too long and a
   sheet with too many lengths, which take the room of the longest row. */
static void stacks_of(const unsigned *row, size_t n, kibs under) {
    static const unsigned any[] = {S};
    static unsigned patterns[SHEET - 2 + 256 + 257], lengths[SHEET];
    for (size_t i = 0; i < SHEET; i++) {
        patterns[i] = S;
        lengths[i] = 1;
    }
    lengths[SHEET - 2] = 256;
    lengths[SHEET - 1] = 257;
    for (size_t i = 0; i < 256; i++) patterns[SHEET - 2 + i] = wide[i];
    start_in(WIDE);
    run_n = n;
    run_a = lend(A, 5), run_w = lend(row, n), run_t = lend(zeros, n), run_c = lend(zeros, n), run_q = lend(any, 1), run_o = lend(zeros, n);
    run_qs = lend(patterns, COUNT(patterns)), run_ls = lend(lengths, SHEET), run_ps = lend_bytes(0, 0, 2 * SHEET * n), run_rs = lend_bytes(0, 0, 6 * SHEET);
    check_stack("build", run_build, under.build);
    check_that("which answered", build(run_a, run_w, run_t, run_c).refusal == SPARROWHEM_ANSWERED);
    check_stack("find", run_find, under.find);
    check_that("which answered", sparrowhem_get(run_o.at, n - 1) == n - 1);
    check_stack("sheet", run_sheet, under.sheet);
    check_that("which answered", sparrowhem_get(run_rs.at, 3 * SHEET - 3) == SPARROWHEM_PATTERN_LONG);
    memcpy(run_o.at, run_w.at, run_w.bytes);
    check_stack("replace", run_replace, under.replace);
    check_that("which answered", replace(run_a, run_w, run_t, run_c, n, run_o, 0).refusal == SPARROWHEM_ANSWERED);
    run_c.at[2 * n - 1] ^= 1;
    check_stack("find, refused for a class,", run_find, under.find);
    check_that("which refused", find(run_a, run_w, run_t, run_c, run_q, run_o).refusal == SPARROWHEM_STALE_CLASS);
    check_stack("sheet, refused for a class,", run_sheet, under.sheet);
    check_that("which refused", sheet(run_a, run_w, run_t, run_c, run_qs, run_ls, run_ps, run_rs).refusal == SPARROWHEM_STALE_CLASS);
    run_c.at[2 * n - 1] ^= 1;
    run_q = run_qs;
    check_stack("find, its pattern too long,", run_find, LONG.find);
    check_that("which refused", find(run_a, run_w, run_t, run_c, run_q, run_o).refusal == SPARROWHEM_PATTERN_LONG);
    run_ls = run_qs;
    check_stack("sheet, its lengths too many,", run_sheet, LONG.sheet);
    check_that("which refused", sheet(run_a, run_w, run_t, run_c, run_qs, run_ls, run_ps, run_rs).refusal == SPARROWHEM_SHEET_SIZE);
}

/* On a chain, and on a right comb of two leaves, in which half of the subtrees are leaves and no two of the others are equal. */
static void stacks(size_t n, kibs under) {
    static unsigned comb[BIG];
    for (size_t i = 0; i < n; i++) {
        comb[i] = i % 2 ? (unsigned)(i / 2 % 2) : 3;
    }
    comb[n - 2] = n % 2 ? comb[n - 2] : 2;
    comb[n - 1] = 0;
    stacks_of(chain + BIG - n, n, under);
    stacks_of(comb, n, under);
}

/* The calls on catalogue files, of so many programmes, under alphabets of 2 symbols and of 1,024, answered and refused. */
static words run_ns, run_lens;
static records run_es;
static lent run_ws, run_f;
static sparrowhem_catalogue run_told;

static void run_catalogue_read(void) { run_told = catalogue_read(run_f, run_es); }
static void run_catalogue_write(void) { run_told = catalogue_write(run_a, run_ns, run_lens, run_ws, run_f); }

/* That the call, of which `most` is known, answers or refuses as it should, and takes no more stack than the header says. */
static void check_file_stack(size_t *most, void (*run)(void), unsigned refusal) {
    static const size_t kib = 3;
    size_t took = stack_of(run) - stack_of(run_nothing);
    *most = took > *most ? took : *most;
    check_that("a call on a file takes no more stack than the header says", took < kib * 1024);
    check_that("which answered or refused", run_told.refusal == refusal);
}

static void file_stacks(size_t symbols, size_t programmes, size_t bytes) {
    static unsigned arities[1024];
    size_t first = 4 + 12 * programmes + symbols, m = (bytes - first) / 2, read = 0, write = 0;
    for (size_t i = 1; i < symbols; i++) arities[i] = 1;
    for (size_t i = 0; i < programmes; i++) { /* rows of about one length */
        rising[i] = (uint32_t)i;
        sizes[i] = (uint32_t)(m * (i + 1) / programmes - m * i / programmes);
    }
    lay_chains(sizes, programmes);
    start_in(WIDE);
    run_a = lend(arities, symbols), run_ws = lend(chains, m), run_f = lend_bytes(0, 0, first + 2 * m);
    run_ns = lend_words(rising, COUNT(rising)), run_lens = lend_words(sizes, programmes), run_es = lend_records(programmes);
    run_ns.count = programmes;
    check_file_stack(&write, run_catalogue_write, SPARROWHEM_ANSWERED);
    check_file_stack(&read, run_catalogue_read, SPARROWHEM_ANSWERED);
    run_f.bytes--;
    check_file_stack(&write, run_catalogue_write, SPARROWHEM_OUTPUT_SHORT);
    check_file_stack(&read, run_catalogue_read, SPARROWHEM_ROW_BOUNDS);
    run_f.bytes++, run_es.count--;
    check_file_stack(&read, run_catalogue_read, SPARROWHEM_OUTPUT_SHORT);
    run_f.at[run_f.bytes - 1] = run_ws.at[run_ws.bytes - 1] = 255;
    check_file_stack(&write, run_catalogue_write, SPARROWHEM_ROW_STRAY);
    check_file_stack(&read, run_catalogue_read, SPARROWHEM_ROW_STRAY);
    run_f.at[first - symbols] = run_a.at[0] = 255;
    check_file_stack(&write, run_catalogue_write, SPARROWHEM_ARITY_OVER);
    check_file_stack(&read, run_catalogue_read, SPARROWHEM_ARITY_OVER);
    run_f.bytes = first - 1, run_ns.count = COUNT(rising);
    check_file_stack(&write, run_catalogue_write, SPARROWHEM_PROGRAMMES_OVER);
    check_file_stack(&read, run_catalogue_read, SPARROWHEM_FILE_SHORT);
    printf("stack: catalogue of %zu bytes, %zu symbols, %zu programmes, read %zu bytes, write %zu bytes\n", bytes, symbols, programmes, read, write);
}

/* The calls on bar forms, of rows of n symbols that are chains, combs and fans, under alphabets of 3 symbols and of 1,024; answered, and
   refused at the last number or before the first. */
static lent run_bs;
static sparrowhem_answer run_said;

static void run_bars_read(void) { run_said = bars_read(run_a, run_bs, run_w); }
static void run_bars_write(void) { run_said = bars_write(run_a, run_w, run_bs); }

/* What the header says, in KiB: of a bar form of at most 1,024 numbers, and of the longest. */
enum { SHORT_BARS = 1024, SHORT_BARS_KIB = 8, LONG_BARS_KIB = 176 };

/* That the call, of which `most` is known, answers or refuses as it should, and takes no more stack than the header says. */
static void check_bars_stack(size_t *most, void (*run)(void), unsigned refusal, size_t kib) {
    size_t took = stack_of(run) - stack_of(run_nothing);
    *most = took > *most ? took : *most;
    check_that("a call on a bar form takes no more stack than the header says", took < kib * 1024);
    check_that("which answered or refused", run_said.refusal == refusal);
}

static void bars_stacks_of(size_t symbols, const unsigned *row, size_t n) {
    static unsigned arities[1024];
    size_t kib = 2 * n <= SHORT_BARS ? SHORT_BARS_KIB : LONG_BARS_KIB, read = 0, write = 0;
    arities[1] = 1, arities[2] = 15;
    lay_bars(arities, row);
    start_in(WIDE);
    run_a = lend(arities, symbols), run_w = lend(row, n), run_bs = lend_bytes(0, 0, 4 * n);
    check_bars_stack(&write, run_bars_write, SPARROWHEM_ANSWERED, kib);
    check_bars_stack(&read, run_bars_read, SPARROWHEM_ANSWERED, kib);
    run_bs.bytes--;
    check_bars_stack(&write, run_bars_write, SPARROWHEM_OUTPUT_SHORT, kib);
    check_bars_stack(&read, run_bars_read, SPARROWHEM_BARS_UNCLOSED, kib);
    run_bs.bytes++, run_w.bytes--;
    check_bars_stack(&write, run_bars_write, n > 1 ? SPARROWHEM_ROW_EARLY : SPARROWHEM_ROW_EMPTY, kib);
    check_bars_stack(&read, run_bars_read, SPARROWHEM_OUTPUT_SHORT, kib);
    run_w.bytes++;
    sparrowhem_put(run_w.at, n - 1, 65535);
    sparrowhem_put(run_bs.at, 2 * n - 1, 65535);
    check_bars_stack(&write, run_bars_write, SPARROWHEM_ROW_STRAY, kib);
    check_bars_stack(&read, run_bars_read, SPARROWHEM_BARS_CHILDREN, kib);
    sparrowhem_put(run_w.at, 0, 65535);
    sparrowhem_put(run_bs.at, 0, BAR);
    check_bars_stack(&write, run_bars_write, SPARROWHEM_ROW_STRAY, kib);
    check_bars_stack(&read, run_bars_read, SPARROWHEM_BARS_NOTHING_OPEN, kib);
    sparrowhem_put(run_a.at, 0, 65535);
    check_bars_stack(&write, run_bars_write, SPARROWHEM_ARITY_OVER, kib);
    check_bars_stack(&read, run_bars_read, SPARROWHEM_ARITY_OVER, kib);
    printf("stack: bar form of %zu numbers, %zu symbols, read %zu bytes, write %zu bytes\n", 2 * n, symbols, read, write);
}

static void bars_stacks(size_t n) {
    for (size_t symbols = 3; symbols <= 1024; symbols += 1021) {
        for (size_t k = 0; k < n; k++) shape[k] = k + 1 < n;
        bars_stacks_of(symbols, shape, n);
        size_t fans = (n - 1) / 15, ones = (n - 1) % 15; /* fans, each the last child of the one before, under a chain */
        for (size_t k = 0; k < n; k++) shape[k] = k < ones ? 1 : (k - ones) % 15 == 0 && (k - ones) / 15 < fans ? 2 : 0;
        bars_stacks_of(symbols, shape, n);
    }
}

/* A row or a bar form that is too long takes no more than the longest, and an alphabet that is no more than one that is not. */
static void too_long_bars_stack(void) {
    size_t most = 0;
    start_in(WIDE);
    run_a = lend(POST, 3), run_w = lend_bytes(0, 0, 2 * BIG + 2), run_bs = lend_bytes(0, 0, 2 * BARS_MOST + 2);
    check_bars_stack(&most, run_bars_write, SPARROWHEM_ROW_LONG, LONG_BARS_KIB);
    check_bars_stack(&most, run_bars_read, SPARROWHEM_ROW_LONG, LONG_BARS_KIB);
    run_a = lend_bytes(0, 0, 2 * 1025), run_w = lend(POST, 1), run_bs = lend(POST, 2);
    check_bars_stack(&most, run_bars_write, SPARROWHEM_ALPHABET_SIZE, SHORT_BARS_KIB);
    check_bars_stack(&most, run_bars_read, SPARROWHEM_ALPHABET_SIZE, SHORT_BARS_KIB);
}

/* What the header itself defines. */
static void conveniences(void) {
    char version[16];
    uint8_t list[6] = {1, 2, 3, 4, 5, 6};
    snprintf(version, sizeof version, "%d.%d.%d", SPARROWHEM_VERSION_NUMBER / 1000000, SPARROWHEM_VERSION_NUMBER / 1000 % 1000,
        SPARROWHEM_VERSION_NUMBER % 1000);
    check_that("the version's number is its string's", strcmp(version, SPARROWHEM_VERSION) == 0);
    check_that("a number is read, the low byte first", sparrowhem_get(list, 1) == 0x0403);
    sparrowhem_put(list, 1, 0xFE01);
    check_that("and written, no other byte with it", memcmp(list, "\x01\x02\x01\xFE\x05\x06", 6) == 0 && sparrowhem_get(list, 1) == 0xFE01);
}

int main(void) {
    fill_lists();
    conveniences();
    check_that("an answer is 24 bytes", sizeof(sparrowhem_answer) == 24);
    check_that("with its fields in order", offsetof(sparrowhem_answer, refusal) == 0 && offsetof(sparrowhem_answer, change) == 4
        && offsetof(sparrowhem_answer, place) == 8 && offsetof(sparrowhem_answer, count) == 16);
    check_that("an answer on a file is 24 bytes", sizeof(sparrowhem_catalogue) == 24);
    check_that("with its fields in order", offsetof(sparrowhem_catalogue, refusal) == 0 && offsetof(sparrowhem_catalogue, programme) == 4
        && offsetof(sparrowhem_catalogue, place) == 8 && offsetof(sparrowhem_catalogue, count) == 16);
    check_that("a record is 12 bytes", sizeof(sparrowhem_entry) == 12);
    check_that("with its fields in order", offsetof(sparrowhem_entry, programme) == 0 && offsetof(sparrowhem_entry, start) == 4
        && offsetof(sparrowhem_entry, length) == 8);
    builds();
    finds();
    wrong_classes();
    sheets();
    sheets_in_order();
    long_sums();
    fullest_sheet();
    replaces();
    classes_far_away();
    catalogue_reads();
    big_reads();
    catalogue_writes();
    big_writes();
    faulty_bars();
    bars_in_order();
    shaped_bars();
    long_bars();
    stacks(9, SHORT);
    stacks(256, SHORT);
    stacks(BIG, LONG);
    file_stacks(2, 2, 50);
    file_stacks(1024, 1, 16 + 1024 + 2);
    file_stacks(2, 4, FILE_MOST);
    file_stacks(1024, PROGRAMMES, FILE_MOST);
    bars_stacks(1);
    bars_stacks(512);
    bars_stacks(513);
    bars_stacks(2048);
    bars_stacks(BIG);
    too_long_bars_stack();
    printf("%u passed, %u failed\n", passed, failed);
    return failed != 0;
}
