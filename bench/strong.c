/* The calls of the library once more, in the strongest portable C that we could write: what the library is held to. No
 * intrinsics, nothing for one processor alone, no undefined behaviour; it answers as the library does on every input. What is
 * right is found out fast, many numbers at once where that can be; only where something is wrong is its place looked for. */
#include <stdbool.h>
#include <stddef.h>
#include <stdint.h>
#include <string.h>

typedef struct {
    uint64_t refusal;
    int32_t change;
    uint64_t place;
    uint64_t count;
} answer;

enum { BLANK = 65535, FIRST_VARIABLE = 65280, VARIABLES = 16, MOST_SYMBOLS = 1024, MOST_PATTERN = 256, MOST = 16384, STRIDE = 64 };

/* Said to the compiler; without them all is the same, and slower. */
#define UNLIKELY(x) __builtin_expect(!!(x), 0)
#define INLINE static inline __attribute__((always_inline))
#define APART static __attribute__((noinline))
#define COLD static __attribute__((noinline, cold))

static answer refused(uint64_t number, uint64_t place) { return (answer){number, 0, place, 0}; }

static answer counted(uint64_t count) { return (answer){0, 0, 0, count}; }

/* Numbers of the refusals of a list that should be one tree's: empty, too long, bad number, ends early, goes on. */
static const uint8_t ROW[5] = {4, 5, 7, 8, 9}, PATTERN[5] = {11, 12, 13, 14, 15}, REPLACEMENT[5] = {24, 25, 27, 28, 29};

/* Where the fault is, once it is known that there is one. */

COLD answer alphabet_fault(const uint16_t *arities, size_t symbols) {
    if (symbols == 0 || symbols > MOST_SYMBOLS) return refused(1, symbols);
    for (size_t s = 0; s < symbols; s++)
        if (arities[s] > 15) return refused(2, s);
    return refused(3, 0);
}

COLD answer size_fault(size_t n, const uint8_t *number) { return n ? refused(number[1], n) : refused(number[0], 0); }

static bool is_variable(uint16_t s) { return (uint16_t)(s - FIRST_VARIABLE) < VARIABLES; }

COLD answer reading_fault(const uint16_t *arities, size_t symbols, const uint16_t *list, size_t n, const uint8_t *number) {
    size_t need = 1;
    for (size_t i = 0; i < n; i++) {
        if (need == 0) return refused(number[4], i);
        uint16_t s = list[i];
        if (s < symbols) need += arities[s];
        else if (number != PATTERN || (s != BLANK && !is_variable(s))) return refused(number[2], i);
        need--;
    }
    return need ? refused(number[3], n) : counted(0);
}

/* Loops that become vector instructions. */

/* Arities are at most 15 exactly if all their bits together are. */
INLINE bool is_alphabet(const uint16_t *arities, size_t symbols) {
    if (UNLIKELY(symbols - 1 >= MOST_SYMBOLS)) return false;
    uint16_t bits = 0, leaf = 0;
    for (size_t s = 0; s < symbols; s++) {
        bits |= arities[s];
        leaf |= arities[s] == 0;
    }
    return bits <= 15 && leaf;
}

INLINE bool all_symbols(const uint16_t stride[STRIDE], size_t symbols) {
    uint16_t largest = 0;
    for (size_t i = 0; i < STRIDE; i++) largest = largest < stride[i] ? stride[i] : largest;
    return largest < symbols;
}

INLINE bool stands_in(const uint16_t stride[STRIDE], uint16_t symbol) {
    uint16_t hit = 0;
    for (size_t i = 0; i < STRIDE; i++) hit |= stride[i] == symbol;
    return hit;
}

/* A walk over a row from right to left: behind position `at` stand so many trees, and begins[t] is where the last t of them
 * begin. A symbol with k children takes k trees, so it ends where those that are left begin. */
typedef struct {
    size_t at, trees;
    uint16_t *begins;
} walk;

/* One symbol of the walk, with k children: so many trees stand behind it, and its end stands in the table, or, where the walk
 * writes, is written to `to`, moved by `by`. */
INLINE bool met(walk *w, size_t k, bool writes, const uint16_t *table, uint16_t *to, size_t by) {
    w->begins[w->trees] = (uint16_t)w->at;
    w->at--;
    if (UNLIKELY(__builtin_sub_overflow(w->trees, k, &w->trees))) return false;
    uint16_t end = w->begins[w->trees++];
    if (!writes) return end == table[w->at];
    to[w->at] = (uint16_t)(end + by);
    return true;
}

INLINE bool four_met(walk *w, const uint16_t *arities, const uint16_t *row, bool writes, const uint16_t *table, uint16_t *to,
                     size_t by) {
    for (int i = 0; i < 4; i++)
        if (UNLIKELY(!met(w, arities[row[w->at - 1]], writes, table, to, by))) return false;
    return true;
}

INLINE bool walked(const uint16_t *restrict arities, size_t symbols, const uint16_t *restrict row, size_t n, bool writes,
                   const uint16_t *restrict table, uint16_t *restrict to, size_t by) {
    uint16_t begins[MOST + 1];
    walk w = {n, 0, begins};
    while (w.at >= STRIDE) {
        size_t stop = w.at - STRIDE;
        if (UNLIKELY(!all_symbols(row + stop, symbols))) return false;
        while (w.at != stop)
            if (UNLIKELY(!four_met(&w, arities, row, writes, table, to, by))) return false;
    }
    while (w.at > 0)
        if (UNLIKELY(row[w.at - 1] >= symbols || !met(&w, arities[row[w.at - 1]], writes, table, to, by))) return false;
    return w.trees == 1;
}

/* Is it a row, and the table its table? */
APART bool is_kept(const uint16_t *arities, size_t symbols, const uint16_t *row, size_t n, const uint16_t *table) {
    return walked(arities, symbols, row, n, false, table, NULL, 0);
}

/* Is it a row? Its table, each entry moved by `by`. */
APART bool ends_of(const uint16_t *arities, size_t symbols, const uint16_t *row, size_t n, uint16_t *to, size_t by) {
    return walked(arities, symbols, row, n, true, NULL, to, by);
}

COLD answer kept_fault(const uint16_t *arities, size_t symbols, const uint16_t *row, size_t n, const uint16_t *table) {
    answer a = reading_fault(arities, symbols, row, n, ROW);
    if (a.refusal) return a;
    uint16_t right[MOST];
    ends_of(arities, symbols, row, n, right, 0);
    size_t first = 0;
    while (right[first] == table[first]) first++;
    return refused(10, first);
}

/* Refusals 1 to 6. */
INLINE answer check_sizes(const uint16_t *arities, size_t symbols, size_t n, size_t room) {
    if (UNLIKELY(!is_alphabet(arities, symbols))) return alphabet_fault(arities, symbols);
    if (UNLIKELY(n - 1 >= MOST)) return size_fault(n, ROW);
    return UNLIKELY(room < n) ? refused(6, n) : counted(0);
}

/* Refusals 1 to 10. */
INLINE answer check_ends(const uint16_t *arities, size_t symbols, const uint16_t *row, size_t n, const uint16_t *table,
                         size_t room) {
    answer a = check_sizes(arities, symbols, n, room);
    if (UNLIKELY(a.refusal)) return a;
    return UNLIKELY(!is_kept(arities, symbols, row, n, table)) ? kept_fault(arities, symbols, row, n, table) : counted(0);
}

answer strong_pass(const uint16_t *arities, size_t symbols, const uint16_t *row, size_t n, const uint16_t *table, size_t room) {
    return check_ends(arities, symbols, row, n, table, room);
}

/* Four numbers that stand side by side, read at once. */
INLINE uint64_t four_at(const uint16_t *list) {
    uint64_t four;
    memcpy(&four, list, sizeof four);
    return four;
}

/* Stops at the first difference, or a few numbers behind it. */
INLINE bool equal(const uint16_t *a, const uint16_t *b, size_t n) {
    if (n > 32) return memcmp(a, b, n * sizeof *a) == 0;
    if (n < 4) {
        for (size_t i = 0; i < n; i++)
            if (a[i] != b[i]) return false;
        return true;
    }
    for (size_t i = 0; i + 4 <= n; i += 4)
        if (four_at(a + i) != four_at(b + i)) return false;
    return four_at(a + n - 4) == four_at(b + n - 4);
}

/* Classes of a row whose table is right: for each position the first whose subtree is equal. Two subtrees are equal exactly if
 * they have the same symbol and their children have pairwise the same classes. */

INLINE uint32_t mixed(uint32_t hash, uint32_t number) { return (hash ^ number) * 0x9E3779B1u; }

INLINE uint32_t spread(uint32_t hash) { return (hash ^ hash >> 15) * 0x2C1B3C6Du; }

/* Subtrees of one size, at p and at p + by: have their children the same classes? */
INLINE bool same_children(const uint16_t *restrict table, const uint16_t *restrict classes, size_t p, size_t by) {
    size_t end = table[p], y = p + 1;
    while (y < end && classes[y] == classes[y + by]) y = table[y];
    return y == end;
}

/* A position leads if its class is its own; it is bare if no other below it leads. The bare ones, chained by symbol and classes
 * of the children. */
enum { NONE = 0xffff };

typedef struct {
    uint16_t bare[MOST / 2 + 1], next[MOST / 2], heads[MOST];
} leaders;

/* Is none of them equal to an earlier leader? A leader with another below it could be equal only where the children's classes
 * say that it stands; among the bare ones it is looked for by its hash. */
INLINE bool bare_differ(const uint16_t *restrict row, const uint16_t *restrict table, const uint16_t *restrict classes,
                        leaders *restrict l, size_t many) {
    size_t heads = STRIDE;
    while (heads < 2 * many && heads < MOST) heads *= 2;
    memset(l->heads, 0xff, heads * sizeof *l->heads);
    for (size_t i = 0; i < many; i++) {
        size_t p = l->bare[i], end = table[p];
        uint32_t symbol = row[p], hash = symbol * 0x85EBCA6Bu;
        for (size_t y = p + 1; y < end; y = table[y]) {
            size_t r = classes[y] - (y - p); /* far behind p where the class is smaller than y - p */
            hash = mixed(hash, classes[y]);
            if (UNLIKELY(r < p && row[r] == symbol && classes[r] == r && table[r] - r == end - p && same_children(table, classes, p, r - p)))
                return false;
        }
        uint16_t *head = l->heads + (spread(hash) >> 16 & (heads - 1));
        for (uint32_t j = *head; j != NONE; j = l->next[j]) {
            size_t r = l->bare[j];
            if (table[r] - r == end - p && row[r] == symbol && same_children(table, classes, p, r - p)) return false;
        }
        l->next[i] = *head;
        *head = (uint16_t)i;
    }
    return true;
}

/* Do all of a stride lead, and none of them is a leaf? Then each is below the one before, and only the last can be bare. Most often
 * the first two tell that it is not so. */
INLINE bool all_lead(const uint16_t table[STRIDE], const uint16_t classes[STRIDE], size_t p) {
    uint16_t other = 0;
    if (table[0] == p + 1 || table[1] == p + 2 || classes[1] != p + 1) return false;
    for (size_t i = 0; i < STRIDE; i++) other |= (classes[i] != (uint16_t)(p + i)) | (table[i] == (uint16_t)(p + i + 1));
    return !other;
}

/* Are they the row's? From left to right: a class that is not its position's own names a leader, whose subtree and the classes in
 * it are compared as a part, and the subtree is passed over. Then no two leaders may be equal. Of two that are, the later of the
 * least ones is bare, so only bare ones are looked at. Two leaves that lead have not the same symbol. */
APART bool are_classes(const uint16_t *restrict row, size_t n, const uint16_t *restrict table, const uint16_t *restrict classes) {
    leaders l;
    uint64_t seen[MOST_SYMBOLS / 64] = {0}; /* a bit for each leaf that leads */
    size_t many = 0, last = 0, end = MOST + 1; /* the last leader, and its end where it has children */
    for (size_t p = 0; p < n;) {
        size_t stop = p + STRIDE - p % STRIDE;
        if (stop > n) stop = n;
        while (p < stop) {
            size_t q = classes[p], after = table[p];
            if (q == p) {
                l.bare[many] = (uint16_t)last;
                many += p >= end;
                last = p;
                end = after;
                if (after == p + 1) {
                    uint64_t bit = UINT64_C(1) << row[p] % 64, *of = seen + row[p] / 64;
                    if (UNLIKELY(*of & bit)) return false;
                    *of |= bit;
                    end = MOST + 1;
                }
                p++;
                continue;
            }
            if (UNLIKELY(q > p || classes[q] != q || row[q] != row[p])) return false;
            if (after != p + 1 && UNLIKELY(!equal(row + p + 1, row + q + 1, after - p - 1) || !equal(classes + p + 1, classes + q + 1, after - p - 1)))
                return false;
            p = after;
        }
        if (p != last + 1 || p >= end || end > MOST) continue; /* a run of leaders, each with the next as its child, stands here */
        while (p + STRIDE <= n && all_lead(table + p, classes + p, p)) p += STRIDE;
        last = p - 1;
        end = table[last];
    }
    l.bare[many] = (uint16_t)last;
    many += n >= end;
    return many == 0 || bare_differ(row, table, classes, &l, many);
}

/* While they are filled in, a position holds the last one with an equal subtree; one that is the last itself holds a mark and the next
 * of its chain (0 for none: nothing is equal to the root), and where its first is known, that. */
enum { LAST = 0x8000, NOTED = 0xc000, PLACE = 0x3fff, FEW = 128, HEADS = 2048 };

/* The last position whose subtree is equal to the one at p, which holds no last one; 0 if there is none, and the hash then. One with
 * another last one below it stands where the children say; the others are in the chains. */
INLINE size_t last_equal(const uint16_t *restrict row, const uint16_t *restrict table, const uint16_t *restrict classes,
                         const uint16_t *restrict heads, uint32_t many, size_t p, size_t end, uint32_t *hash) {
    uint32_t symbol = row[p], mix = symbol * 0x85EBCA6Bu;
    for (size_t y = p + 1; y < end; y = table[y]) {
        size_t r = classes[y] - (y - p), z = p + 1;
        mix = mixed(mix, classes[y]);
        if (!((row[r] == symbol) & (classes[r] >= LAST) & (table[r] - r == end - p))) continue;
        while (z < end && classes[z] == (classes[z + r - p] < LAST ? classes[z + r - p] : z + r - p)) z = table[z];
        if (z == end) return r;
    }
    *hash = (uint32_t)((uint64_t)spread(mix) * many >> 32);
    for (size_t r = heads[*hash]; r != 0; r = classes[r] & PLACE)
        if (table[r] - r == end - p && row[r] == symbol && same_children(table, classes, p, r - p)) return r;
    return 0;
}

/* From right to left. What has a last one below it is a last one itself, and not looked up. */
INLINE void fill_lasts(const uint16_t *restrict row, size_t n, const uint16_t *restrict table, uint16_t *restrict classes,
                       uint16_t *restrict leaves, uint16_t *restrict heads, uint32_t many) {
    size_t newest = n;
    for (size_t p = n; p-- > 0;) {
        size_t end = table[p];
        if (end == p + 1) {
            uint16_t *leaf = leaves + row[p], r = *leaf;
            classes[p] = r ? r : LAST;
            *leaf = (uint16_t)(r ? r : p);
            newest = r ? newest : p;
            continue;
        }
        if (newest < end) {
            classes[p] = LAST;
            newest = p;
            continue;
        }
        uint32_t hash = 0;
        size_t r = last_equal(row, table, classes, heads, many, p, end, &hash);
        classes[p] = (uint16_t)r;
        if (r != 0) continue;
        classes[p] = (uint16_t)(LAST | heads[hash]);
        heads[hash] = (uint16_t)p;
        newest = p;
    }
}

/* From left to right, without a branch. What is noted is not noted again, so that no turn waits for the one before. */
INLINE void fill_firsts(size_t n, uint16_t *restrict classes) {
    for (size_t p = 0; p < n; p++) {
        size_t last = classes[p] < LAST ? classes[p] : p, noted = classes[last];
        bool known = noted >= NOTED;
        size_t first = known ? noted & PLACE : p;
        classes[known ? p : last] = (uint16_t)(NOTED | first);
        classes[p] = (uint16_t)first;
    }
}

/* A short row takes less room. */
APART void fill_classes(const uint16_t *restrict row, size_t n, const uint16_t *restrict table, uint16_t *restrict classes) {
    uint16_t leaves[MOST_SYMBOLS];
    if (n <= FEW) {
        uint16_t heads[FEW] = {0}, largest = 0;
        for (size_t p = 0; p < n; p++) largest = largest < row[p] ? row[p] : largest;
        memset(leaves, 0, (largest + 1u) * sizeof *leaves);
        fill_lasts(row, n, table, classes, leaves, heads, FEW);
    } else {
        uint16_t heads[HEADS] = {0};
        memset(leaves, 0, sizeof leaves);
        fill_lasts(row, n, table, classes, leaves, heads, HEADS);
    }
    fill_firsts(n, classes);
}

/* Where the first wrong class stands, once it is known that there is one. */
COLD answer class_fault(const uint16_t *row, size_t n, const uint16_t *table, const uint16_t *classes) {
    uint16_t right[MOST];
    fill_classes(row, n, table, right);
    size_t first = 0;
    while (right[first] == classes[first]) first++;
    return refused(62, first);
}

/* Refusals 1 to 10, then 62. */
INLINE answer check_given(const uint16_t *arities, size_t symbols, const uint16_t *row, size_t n, const uint16_t *table,
                          const uint16_t *classes, size_t room) {
    answer a = check_ends(arities, symbols, row, n, table, room);
    if (UNLIKELY(a.refusal)) return a;
    return UNLIKELY(!are_classes(row, n, table, classes)) ? class_fault(row, n, table, classes) : counted(0);
}

INLINE size_t shorter(size_t a, size_t b) { return a < b ? a : b; }

answer strong_class_check(const uint16_t *row, size_t n, const uint16_t *table, size_t room, const uint16_t *classes,
                          size_t class_room) {
    if (UNLIKELY(shorter(room, class_room) < n)) return refused(6, n);
    return UNLIKELY(!are_classes(row, n, table, classes)) ? class_fault(row, n, table, classes) : counted(0);
}

answer strong_build(const uint16_t *arities, size_t symbols, const uint16_t *row, size_t n, uint16_t *table, size_t room,
                    uint16_t *classes, size_t class_room) {
    answer a = check_sizes(arities, symbols, n, shorter(room, class_room));
    if (UNLIKELY(a.refusal)) return a;
    uint16_t ends[MOST];
    if (UNLIKELY(!ends_of(arities, symbols, row, n, ends, 0))) return reading_fault(arities, symbols, row, n, ROW);
    memcpy(table, ends, n * sizeof *table);
    fill_classes(row, n, table, classes);
    return counted(n);
}

/* What is known of a pattern once it is checked: which of the variables stand in it more than once, whether it is symbols only,
 * and how many numbers it has without those at its end that fit whatever stands there: S, and variables that stand once. */
typedef struct {
    unsigned repeated;
    bool fixed;
    size_t told;
} known;

INLINE bool fits_all(uint16_t s, unsigned repeated) {
    return s == BLANK || (is_variable(s) && !(repeated >> (s - FIRST_VARIABLE) & 1));
}

INLINE bool is_pattern(const uint16_t *arities, size_t symbols, const uint16_t *pattern, size_t m, known *k) {
    size_t need = 1;
    unsigned seen = 0;
    *k = (known){0, true, m};
    for (size_t i = 0; i < m; i++) {
        uint16_t s = pattern[i];
        if (need == 0) return false;
        need--;
        if (s < symbols) {
            need += arities[s];
            continue;
        }
        k->fixed = false;
        if (is_variable(s)) {
            unsigned bit = 1u << (s - FIRST_VARIABLE);
            k->repeated |= seen & bit;
            seen |= bit;
        } else if (s != BLANK) return false;
    }
    while (k->told > 0 && fits_all(pattern[k->told - 1], k->repeated)) k->told--;
    return need == 0;
}

/* Refusals 11 to 15. */
INLINE answer check_pattern(const uint16_t *arities, size_t symbols, const uint16_t *pattern, size_t m, known *k) {
    if (UNLIKELY(m - 1 >= MOST_PATTERN)) return size_fault(m, PATTERN);
    if (UNLIKELY(!is_pattern(arities, symbols, pattern, m, k))) return reading_fault(arities, symbols, pattern, m, PATTERN);
    return counted(0);
}

/* A pattern's told numbers behind its root, made ready for many positions: stretches of symbols, and what stands between. */
enum { SYMBOLS_OF, ANY, FIRST, AGAIN };

typedef struct {
    uint16_t what;
    uint16_t which; /* the variable, or how many symbols */
} step;

typedef struct {
    size_t steps;
    step step[MOST_PATTERN];
    uint16_t symbols[MOST_PATTERN];
} ready;

static void make_ready(ready *r, const uint16_t *pattern, const known *k) {
    size_t symbols = 0;
    unsigned seen = 0;
    r->steps = 0;
    for (size_t i = 1; i < k->told; i++) {
        uint16_t s = pattern[i], v = (uint16_t)(s - FIRST_VARIABLE);
        if (fits_all(s, k->repeated)) {
            r->step[r->steps++] = (step){ANY, 0};
        } else if (v < VARIABLES) {
            r->step[r->steps++] = (step){seen >> v & 1 ? AGAIN : FIRST, v};
            seen |= 1u << v;
        } else {
            r->symbols[symbols++] = s;
            if (r->steps && r->step[r->steps - 1].what == SYMBOLS_OF) r->step[r->steps - 1].which++;
            else r->step[r->steps++] = (step){SYMBOLS_OF, 1};
        }
    }
}

/* Does what stands behind the pattern's root fit, from position j on? */
INLINE bool fits(const uint16_t *row, size_t n, const uint16_t *table, const uint16_t *classes, const ready *r, size_t j) {
    uint16_t first[VARIABLES]; /* the class of each variable's first place */
    const uint16_t *symbols = r->symbols;
    for (const step *s = r->step, *end = s + r->steps; s != end; s++) {
        switch (s->what) {
        case SYMBOLS_OF:
            if (row[j] != *symbols || s->which > n - j || (s->which > 1 && !equal(row + j, symbols, s->which))) return false;
            symbols += s->which;
            j += s->which;
            continue;
        case FIRST: first[s->which] = classes[j]; break;
        case AGAIN:
            if (first[s->which] != classes[j]) return false;
        }
        j = table[j];
    }
    return true;
}

/* The positions of a symbol below `end`, 64 at a time: those of the stride at p. Where the pattern is symbols only its subtrees
 * have `size` symbols, else any number (0). */
INLINE size_t places_of(const uint16_t *row, size_t end, const uint16_t *table, uint16_t root, size_t size, size_t p,
                        uint16_t *places) {
    size_t count = 0, stop = end - p < STRIDE ? end : p + STRIDE;
    if (stop - p == STRIDE && !stands_in(row + p, root)) return 0;
    for (; p < stop; p++) {
        places[count] = (uint16_t)p;
        count += (row[p] == root) & (size == 0 || table[p] == (uint16_t)(p + size));
    }
    return count;
}

/* A pattern of symbols only is one stretch; a root over the same variable twice is a pair; any other is gone along step by step. */
enum { STRETCH, PAIR, STEPS };

/* Which of the places are matches; they are kept in their order. */
INLINE size_t matches_of(int kind, const uint16_t *restrict row, size_t n, const uint16_t *restrict table,
                         const uint16_t *restrict classes, const uint16_t *restrict pattern, size_t m, const ready *restrict r,
                         uint16_t *restrict places, size_t many) {
    size_t count = 0;
    for (size_t i = 0; i < many; i++) {
        size_t p = places[i];
        if (kind == STRETCH && !equal(row + p, pattern, m)) continue;
        if (kind == PAIR && classes[p + 1] != classes[table[p + 1]]) continue;
        if (kind == STEPS && !fits(row, n, table, classes, r, p + 1)) continue;
        places[count++] = (uint16_t)p;
    }
    return count;
}

/* Writes the matches to `out`, which has a place for each symbol of the row. */
static size_t search(const uint16_t *restrict row, size_t n, const uint16_t *restrict table, const uint16_t *restrict classes,
                     const uint16_t *restrict pattern, size_t m, const known *k, uint16_t *restrict out) {
    size_t count = 0;
    uint16_t places[STRIDE];
    ready r;
    if (k->told == 0) {
        for (size_t p = 0; p < n; p++) out[p] = (uint16_t)p;
        return n;
    }
    make_ready(&r, pattern, k);
    bool pair = r.steps == 2 && r.step[1].what == AGAIN;
    for (size_t p = 0; p + m <= n; p += STRIDE) {
        size_t many = places_of(row, n - m + 1, table, pattern[0], k->fixed ? m : 0, p, places);
        if (many == 0) continue;
        if (k->fixed) many = matches_of(STRETCH, row, n, table, classes, pattern, m, &r, places, many);
        else if (pair) many = matches_of(PAIR, row, n, table, classes, pattern, m, &r, places, many);
        else if (k->told > 1) many = matches_of(STEPS, row, n, table, classes, pattern, m, &r, places, many);
        memcpy(out + count, places, many * sizeof *out);
        count += many;
    }
    return count;
}

answer strong_find(const uint16_t *arities, size_t symbols, const uint16_t *row, size_t n, const uint16_t *table, size_t room,
                   const uint16_t *classes, size_t class_room, const uint16_t *pattern, size_t m, uint16_t *out, size_t places) {
    known k = {0};
    uint16_t beside[MOST];
    answer a = check_given(arities, symbols, row, n, table, classes, shorter(room, class_room));
    if (UNLIKELY(a.refusal)) return a;
    a = check_pattern(arities, symbols, pattern, m, &k);
    if (UNLIKELY(a.refusal)) return a;
    if (places >= n) return counted(search(row, n, table, classes, pattern, m, &k, out));
    size_t count = search(row, n, table, classes, pattern, m, &k, beside);
    if (count > places) return refused(19, count);
    if (count > 0) memcpy(out, beside, count * sizeof *out);
    return counted(count);
}

/* A sheet of patterns, laid end to end, over a checked row. */
enum { MOST_PATTERNS = 64, RESULT = 3, GATHERED = 2 * MOST };

typedef struct {
    const uint16_t *arities;
    size_t symbols;
    const uint16_t *row;
    size_t n;
    const uint16_t *table, *classes, *patterns, *lengths;
    size_t many;
} sheet;

/* Refusals 63, 64, and 19 for the results. */
INLINE answer check_lengths(const uint16_t *lengths, size_t many, size_t lent, size_t result_places) {
    if (UNLIKELY(many - 1 >= MOST_PATTERNS)) return refused(63, many);
    size_t sum = 0;
    for (size_t i = 0; i < many; i++) sum += lengths[i];
    if (UNLIKELY(sum != lent)) return refused(64, lent);
    return UNLIKELY(result_places < RESULT * many) ? refused(19, RESULT * many) : counted(0);
}

/* The matches of a pattern at the front of `out`, if it has a place for each; how many are there? */
static size_t search_beside(const sheet *s, const uint16_t *pattern, size_t m, const known *k, uint16_t *out, size_t places) {
    uint16_t beside[MOST];
    size_t count = search(s->row, s->n, s->table, s->classes, pattern, m, k, beside);
    if (count > 0 && count <= places) memcpy(out, beside, count * sizeof *out);
    return count;
}

/* Writes the result of each pattern, and the positions of all if there are places for them; how many positions are there? */
static size_t answer_patterns(const sheet *s, uint16_t *positions, size_t places, uint16_t *results) {
    const uint16_t *pattern = s->patterns;
    size_t count = 0;
    for (size_t i = 0; i < s->many; i++) {
        known k = {0};
        size_t m = s->lengths[i], found = 0, left = places - shorter(count, places);
        uint16_t *out = positions + (places - left);
        answer a = check_pattern(s->arities, s->symbols, pattern, m, &k);
        if (!a.refusal && left >= s->n) found = search(s->row, s->n, s->table, s->classes, pattern, m, &k, out);
        else if (!a.refusal) found = search_beside(s, pattern, m, &k, out, left);
        results[RESULT * i] = (uint16_t)a.refusal;
        results[RESULT * i + 1] = (uint16_t)a.place;
        results[RESULT * i + 2] = (uint16_t)found;
        count += found;
        pattern += m;
    }
    return count;
}

/* Where the positions may not fit they are gathered first; if they are more than that room has, they are looked for once more. */
static answer answer_sheet(const sheet *s, uint16_t *positions, size_t places, uint16_t *results) {
    if (places >= s->n * s->many) return counted(answer_patterns(s, positions, places, results));
    uint16_t room[GATHERED], kept[RESULT * MOST_PATTERNS];
    size_t count = answer_patterns(s, room, GATHERED, kept);
    if (count > places) return refused(19, count);
    if (count > GATHERED) return counted(answer_patterns(s, positions, places, results));
    if (count > 0) memcpy(positions, room, count * sizeof *positions);
    memcpy(results, kept, RESULT * s->many * sizeof *results);
    return counted(count);
}

answer strong_sheet(const uint16_t *arities, size_t symbols, const uint16_t *row, size_t n, const uint16_t *table, size_t room,
                    const uint16_t *classes, size_t class_room, const uint16_t *patterns, size_t lent, const uint16_t *lengths,
                    size_t many, uint16_t *positions, size_t places, uint16_t *results, size_t result_places) {
    answer a = check_given(arities, symbols, row, n, table, classes, shorter(room, class_room));
    if (UNLIKELY(a.refusal)) return a;
    a = check_lengths(lengths, many, lent, result_places);
    if (UNLIKELY(a.refusal)) return a;
    sheet s = {arities, symbols, row, n, table, classes, patterns, lengths, many};
    return answer_sheet(&s, positions, places, results);
}

/* Does the pattern match at j? spans holds begin and end of each variable. */
static bool match_at(const uint16_t *row, const uint16_t *table, const uint16_t *classes, const uint16_t *pattern, size_t m,
                     size_t j, uint16_t *spans) {
    for (size_t i = 0; i < m; i++) {
        uint16_t s = pattern[i];
        if (s < FIRST_VARIABLE) {
            if (row[j++] != s) return false;
            continue;
        }
        if (s != BLANK) {
            uint16_t *span = spans + 2 * (s - FIRST_VARIABLE);
            if (span[1] == 0) {
                span[0] = (uint16_t)j;
                span[1] = table[j];
            } else if (classes[span[0]] != classes[j]) return false;
        }
        j = table[j];
    }
    return true;
}

answer strong_variables(const uint16_t *arities, size_t symbols, const uint16_t *row, size_t n, const uint16_t *table, size_t room,
                        const uint16_t *classes, size_t class_room, const uint16_t *pattern, size_t m, size_t position,
                        uint16_t *out, size_t places) {
    known k = {0};
    uint16_t spans[2 * VARIABLES] = {0};
    answer a = check_given(arities, symbols, row, n, table, classes, shorter(room, class_room));
    if (UNLIKELY(a.refusal)) return a;
    a = check_pattern(arities, symbols, pattern, m, &k);
    if (UNLIKELY(a.refusal)) return a;
    if (UNLIKELY(position >= n)) return refused(17, position);
    if (UNLIKELY(places < 2 * VARIABLES)) return refused(19, 2 * VARIABLES);
    if (!match_at(row, table, classes, pattern, m, position, spans)) return counted(0);
    memcpy(out, spans, sizeof spans);
    return counted(1);
}

/* Moves n entries of a table, and moves what they say as far: in strides by a small copy, so that it becomes vector
 * instructions though the two places overlap. */
INLINE void move_entries(uint16_t *table, size_t from, size_t to, size_t n) {
    uint16_t stride[STRIDE], by = (uint16_t)(to - from);
    for (size_t done = 0; done < n;) {
        size_t many = n - done < STRIDE ? n - done : STRIDE, i = to > from ? n - done - many : done;
        if (many < STRIDE) {
            memcpy(stride, table + from + i, many * sizeof *table);
            for (size_t j = 0; j < many; j++) stride[j] = (uint16_t)(stride[j] + by);
            memcpy(table + to + i, stride, many * sizeof *table);
        } else {
            memcpy(stride, table + from + i, sizeof stride);
            for (size_t j = 0; j < STRIDE; j++) stride[j] = (uint16_t)(stride[j] + by);
            memcpy(table + to + i, stride, sizeof stride);
        }
        done += many;
    }
}

/* The subtree from `position` to `end` gives way to what ends at `to`: all behind it is moved, and the ends that lie there. */
INLINE void make_room(uint16_t *row, uint16_t *table, size_t n, size_t position, size_t end, size_t to) {
    uint16_t from = (uint16_t)end, by = (uint16_t)(to - end);
    memmove(row + to, row + end, (n - end) * sizeof *row);
    for (size_t p = 0; p < position; p++) table[p] = (uint16_t)(table[p] + (table[p] >= from ? by : 0));
    move_entries(table, end, to, n - end);
}

answer strong_replace(const uint16_t *arities, size_t symbols, uint16_t *row, size_t row_room, uint16_t *table, size_t room,
                      uint16_t *classes, size_t class_room, size_t n, const uint16_t *replacement, size_t m, size_t position) {
    uint16_t ends[MOST];
    size_t least = shorter(row_room, shorter(room, class_room));
    answer a = check_given(arities, symbols, row, n, table, classes, least);
    if (UNLIKELY(a.refusal)) return a;
    if (UNLIKELY(m - 1 >= MOST)) return size_fault(m, REPLACEMENT);
    if (UNLIKELY(!ends_of(arities, symbols, replacement, m, ends, position)))
        return reading_fault(arities, symbols, replacement, m, REPLACEMENT);
    if (UNLIKELY(position >= n)) return refused(17, position);
    size_t end = table[position], to = position + m, length = to + (n - end);
    if (UNLIKELY(length > MOST || length > least)) return refused(18, length);
    if (end != to) make_room(row, table, n, position, end, to);
    memcpy(row + position, replacement, m * sizeof *row);
    memcpy(table + position, ends, m * sizeof *table);
    fill_classes(row, length, table, classes);
    if (length < n) {
        memset(row + length, 0xff, (n - length) * sizeof *row);
        memset(table + length, 0, (n - length) * sizeof *table);
        memset(classes + length, 0, (n - length) * sizeof *classes);
    }
    return (answer){0, (int32_t)length - (int32_t)n, 0, length};
}

/* Is it a row? Read from left to right; `due` symbols are due, one for the root and as many as each symbol so far has children.
 * Four arities are read before they are counted: no branch stands between the reads. */
APART bool is_row(const uint16_t *restrict arities, size_t symbols, const uint16_t *restrict row, size_t n) {
    size_t due = 1, i = 0, strides = n - n % STRIDE;
    for (; i < strides; i += STRIDE)
        if (UNLIKELY(!all_symbols(row + i, symbols))) return false;
    for (i = 0; i < strides; i += 4) {
        size_t k[4];
        for (size_t j = 0; j < 4; j++) k[j] = arities[row[i + j]];
        for (size_t j = 0; j < 4; j++) {
            if (UNLIKELY(due == i + j)) return false;
            due += k[j];
        }
    }
    for (; i < n; i++) {
        if (UNLIKELY(due == i || row[i] >= symbols)) return false;
        due += arities[row[i]];
    }
    return due == n;
}

/* The end of the subtree at j, by counting. */
INLINE size_t counted_end(const uint16_t *restrict arities, const uint16_t *restrict row, size_t j) {
    size_t due = j + 1;
    for (; j < due; j++) due += arities[row[j]];
    return j;
}

/* As match_at, without a table: only what the pattern tells is looked at, and an end is found where it is asked for. */
static bool plain_at(const uint16_t *arities, const uint16_t *row, size_t n, const uint16_t *pattern, size_t told, size_t j) {
    size_t begin[VARIABLES], length[VARIABLES] = {0};
    for (size_t i = 0; i < told; i++) {
        uint16_t s = pattern[i], v = (uint16_t)(s - FIRST_VARIABLE);
        if (s < FIRST_VARIABLE) {
            if (row[j++] != s) return false;
            continue;
        }
        /* what begins with all the symbols of a subtree has that subtree's length: no end to look for */
        if (v < VARIABLES && length[v]) {
            if (length[v] > n - j || row[j] != row[begin[v]] || !equal(row + begin[v], row + j, length[v])) return false;
            j += length[v];
            continue;
        }
        size_t end = counted_end(arities, row, j);
        if (v < VARIABLES) {
            begin[v] = j;
            length[v] = end - j;
        }
        j = end;
    }
    return true;
}

answer strong_plain_match(const uint16_t *arities, size_t symbols, const uint16_t *row, size_t n, const uint16_t *pattern, size_t m,
                          size_t position) {
    known k = {0};
    answer a = check_sizes(arities, symbols, n, n);
    if (UNLIKELY(a.refusal)) return a;
    if (UNLIKELY(!is_row(arities, symbols, row, n))) return reading_fault(arities, symbols, row, n, ROW);
    a = check_pattern(arities, symbols, pattern, m, &k);
    if (UNLIKELY(a.refusal)) return a;
    if (UNLIKELY(position >= n)) return refused(17, position);
    return counted(plain_at(arities, row, n, pattern, k.told, position));
}

/* Catalogue files: numbers are bytes, the low one first, which on most machines is how they lie. */

typedef struct {
    uint32_t programme, start, length;
} entry;

typedef struct {
    uint32_t refusal, programme;
    uint64_t place, count;
} catalogue_answer;

enum { HEAD = 4, ENTRY = 12, MOST_ARITY = 15, MOST_PROGRAMMES = 256, MOST_FILE = 65536, STEP = 16 };
enum { LOW_FIRST = __BYTE_ORDER__ == __ORDER_LITTLE_ENDIAN__ };

/* An answer on a catalogue, with a programme where one has a fault. */
static catalogue_answer told(answer a, uint32_t programme) {
    return (catalogue_answer){(uint32_t)a.refusal, programme, a.place, a.count};
}

INLINE uint16_t number_at(const uint8_t *list, size_t i) {
    uint16_t number;
    memcpy(&number, list + 2 * i, sizeof number);
    return LOW_FIRST ? number : (uint16_t)(number << 8 | number >> 8);
}

INLINE uint32_t wide_at(const uint8_t *bytes) { return number_at(bytes, 0) | (uint32_t)number_at(bytes, 1) << 16; }

INLINE void put_wide(uint8_t *bytes, uint32_t v) {
    for (size_t i = 0; i < 4; i++) bytes[i] = (uint8_t)(v >> 8 * i);
}

INLINE size_t entry_place(size_t k) { return HEAD + ENTRY * k; }

INLINE entry entry_at(const uint8_t *file, size_t k) {
    const uint8_t *at = file + entry_place(k);
    return (entry){wide_at(at), wide_at(at + 4), wide_at(at + 8)};
}

/* Arities of one byte each, or of two. */
COLD answer arities_fault(const uint8_t *arities, size_t symbols, size_t width) {
    for (size_t s = 0; s < symbols; s++)
        if ((width == 1 ? arities[s] : number_at(arities, s)) > MOST_ARITY) return refused(2, s);
    return refused(3, 0);
}

COLD answer tree_fault(const uint8_t *arities, size_t symbols, const uint8_t *row, size_t n) {
    if (n - 1 >= MOST) return size_fault(n, ROW);
    size_t due = 1;
    for (size_t i = 0; i < n; i++) {
        if (due == i) return refused(9, i);
        if (number_at(row, i) >= symbols) return refused(7, i);
        due += arities[number_at(row, i)];
    }
    return refused(8, n);
}

INLINE bool are_arities(const uint8_t *arities, size_t symbols) {
    uint8_t bits = 0, leaf = 0;
    for (size_t s = 0; s < symbols; s++) {
        bits |= arities[s];
        leaf |= arities[s] == 0;
    }
    return bits <= MOST_ARITY && leaf;
}

INLINE bool all_below(const uint8_t *row, size_t n, size_t symbols) {
    uint16_t largest = 0;
    for (size_t i = 0; i < n; i++) largest = largest < number_at(row, i) ? number_at(row, i) : largest;
    return largest < symbols;
}

/* In strides that do not wait for each other; the last one reaches back. */
INLINE bool are_symbols(const uint8_t *row, size_t n, size_t symbols) {
    if (n < STRIDE) return all_below(row, n, symbols);
    for (size_t i = 0; i + STRIDE < n; i += STRIDE)
        if (UNLIKELY(!all_below(row + 2 * i, STRIDE, symbols))) return false;
    return all_below(row + 2 * (n - STRIDE), STRIDE, symbols);
}

/* Is it a row? As is_row, in steps: where as many symbols are still due as the step has, the tree cannot end within it, and the arities
 * are only added up. */
APART bool is_tree(const uint8_t *restrict arities, size_t symbols, const uint8_t *restrict row, size_t n) {
    size_t due = 1, i = 0;
    if (UNLIKELY(n - 1 >= MOST || !are_symbols(row, n, symbols))) return false;
    for (; i + STEP <= n; i += STEP) {
        if (due - i >= STEP) {
            uint32_t sum = 0; /* narrower, so that it is added up beside */
            for (size_t j = 0; j < STEP; j++) sum += arities[number_at(row, i + j)];
            due += sum;
            continue;
        }
        for (size_t j = 0; j < STEP; j++) {
            if (UNLIKELY(due == i + j)) return false;
            due += arities[number_at(row, i + j)];
        }
    }
    for (; i < n; i++) {
        if (UNLIKELY(due == i)) return false;
        due += arities[number_at(row, i)];
    }
    return due == n;
}

/* Refusals 67 to 69, where one of them is. */
COLD answer contents_fault(const uint8_t *file, size_t bytes, size_t n, size_t first) {
    uint64_t least = 0, next = first;
    for (size_t k = 0; k < n; k++) {
        uint64_t programme = entry_at(file, k).programme;
        if (programme < least) return refused(67, entry_place(k));
        least = programme + 1;
    }
    for (size_t k = 0; k < n; k++) {
        entry e = entry_at(file, k);
        if (e.start != next || (next += 2 * (uint64_t)e.length) > bytes) return refused(68, entry_place(k));
    }
    return refused(69, next);
}

/* If each row starts where the one before ends and the last ends the file, none goes past it: no end has to be looked at. */
INLINE bool are_contents(const uint8_t *file, size_t bytes, size_t n, size_t first) {
    uint64_t least = 0, next = first, wrong = 0;
    for (size_t k = 0; k < n; k++) {
        entry e = entry_at(file, k);
        wrong |= (e.start ^ next) | (e.programme < least);
        least = (uint64_t)e.programme + 1;
        next += 2 * (uint64_t)e.length;
    }
    return !(wrong | (next ^ bytes));
}

/* Refusals 66, 65, 88 and 1, where one of them is. */
COLD answer head_fault(const uint8_t *file, size_t bytes) {
    if (bytes > MOST_FILE) return refused(66, bytes);
    if (bytes < HEAD) return refused(65, bytes);
    size_t n = number_at(file, 0), symbols = number_at(file, 1);
    if (bytes < entry_place(n) + symbols) return refused(65, bytes);
    return n > MOST_PROGRAMMES ? refused(88, n) : refused(1, symbols);
}

catalogue_answer strong_catalogue_read(const uint8_t *file, size_t bytes, entry *entries, size_t count) {
    if (UNLIKELY(bytes - HEAD > MOST_FILE - HEAD)) return told(head_fault(file, bytes), 0);
    size_t n = number_at(file, 0), symbols = number_at(file, 1), next = entry_place(n) + symbols;
    if (UNLIKELY(bytes < next || n > MOST_PROGRAMMES || symbols - 1 >= MOST_SYMBOLS)) return told(head_fault(file, bytes), 0);
    const uint8_t *arities = file + entry_place(n);
    if (UNLIKELY(!are_arities(arities, symbols))) return told(arities_fault(arities, symbols, 1), 0);
    if (UNLIKELY(!are_contents(file, bytes, n, next))) return told(contents_fault(file, bytes, n, next), 0);
    for (size_t k = 0; k < n; k++) {
        size_t length = wide_at(file + entry_place(k) + 8);
        if (UNLIKELY(!is_tree(arities, symbols, file + next, length)))
            return told(tree_fault(arities, symbols, file + next, length), wide_at(file + entry_place(k)));
        next += 2 * length;
    }
    if (UNLIKELY(count < n)) return told(refused(19, n), 0);
    if (LOW_FIRST && n > 0) memcpy(entries, file + HEAD, ENTRY * n);
    for (size_t k = 0; !LOW_FIRST && k < n; k++) entries[k] = entry_at(file, k);
    return told(counted(n), 0);
}

/* Are they arities, lent as numbers? They become a byte each. */
INLINE bool narrow(const uint8_t *restrict list, size_t symbols, uint8_t *restrict arities) {
    uint16_t bits = 0, leaf = 0;
    for (size_t s = 0; s < symbols; s++) {
        uint16_t arity = number_at(list, s);
        bits |= arity;
        leaf |= arity == 0;
        arities[s] = (uint8_t)arity;
    }
    return bits <= MOST_ARITY && leaf;
}

INLINE bool rise(const uint32_t *numbers, size_t n) {
    uint32_t wrong = 0;
    for (size_t k = 1; k < n; k++) wrong |= numbers[k] <= numbers[k - 1];
    return !wrong;
}

COLD answer rising_fault(const uint32_t *numbers) {
    size_t k = 1;
    while (numbers[k] > numbers[k - 1]) k++;
    return refused(67, k);
}

/* Refusals 67, 68 and 66, for rows of m symbols and a file of so many bytes. */
INLINE answer check_lists(const uint32_t *numbers, size_t n, const uint32_t *lengths, size_t many, size_t m, size_t bytes) {
    if (UNLIKELY(!rise(numbers, n))) return rising_fault(numbers);
    uint64_t sum = 0;
    for (size_t k = 0; k < many; k++) sum += lengths[k];
    if (UNLIKELY(many != n || sum != m)) return refused(68, m);
    return UNLIKELY(bytes > MOST_FILE) ? refused(66, bytes) : counted(0);
}

/* Head and contents. */
INLINE void write_front(uint8_t *restrict file, size_t symbols, const uint32_t *restrict numbers, const uint32_t *restrict lengths,
                        size_t n) {
    uint32_t next = (uint32_t)(entry_place(n) + symbols);
    put_wide(file, (uint32_t)(n | symbols << 16));
    for (size_t k = 0; k < n; k++) {
        uint8_t *at = file + entry_place(k);
        put_wide(at, numbers[k]);
        put_wide(at + 4, next);
        put_wide(at + 8, lengths[k]);
        next += 2 * lengths[k];
    }
}

catalogue_answer strong_catalogue_write(const uint8_t *list, size_t list_bytes, const uint32_t *numbers, size_t n,
                                        const uint32_t *lengths, size_t many, const uint8_t *rows, size_t rows_bytes, uint8_t *file,
                                        size_t room) {
    uint8_t arities[MOST_SYMBOLS];
    size_t symbols = list_bytes / 2, m = rows_bytes / 2, first = entry_place(n) + symbols, next = 0;
    if (UNLIKELY(n > MOST_PROGRAMMES)) return told(refused(88, n), 0);
    if (UNLIKELY(symbols - 1 >= MOST_SYMBOLS)) return told(refused(1, symbols), 0);
    if (UNLIKELY(!narrow(list, symbols, arities))) return told(arities_fault(list, symbols, 2), 0);
    answer a = check_lists(numbers, n, lengths, many, m, first + 2 * m);
    if (UNLIKELY(a.refusal)) return told(a, 0);
    for (size_t k = 0; k < n; k++) {
        if (UNLIKELY(!is_tree(arities, symbols, rows + 2 * next, lengths[k])))
            return told(tree_fault(arities, symbols, rows + 2 * next, lengths[k]), numbers[k]);
        next += lengths[k];
    }
    if (UNLIKELY(room < first + 2 * m)) return told(refused(19, first + 2 * m), 0);
    write_front(file, symbols, numbers, lengths, n);
    memcpy(file + entry_place(n), arities, symbols);
    if (m > 0) memcpy(file + first, rows, 2 * m);
    return told(counted(first + 2 * m), 0);
}

/* Bar forms. */

enum { BAR = 65534, MOST_FORM = 32768 };

#define FAULTY SIZE_MAX

/* Refusals 70, 71 and 7, where one of them is. */
COLD answer form_fault(const uint16_t *arities, size_t symbols, const uint16_t *form, size_t m) {
    uint8_t lacks[MOST_FORM];
    size_t depth = 0;
    for (size_t i = 0; i < m; i++) {
        uint16_t s = form[i];
        if (depth == 0 && (i > 0 || s == BAR)) return refused(70, i);
        if (depth > 0 && (s == BAR) != (lacks[depth - 1] == 0)) return refused(71, i);
        if (s == BAR) {
            depth--;
            continue;
        }
        if (s >= symbols) return refused(7, i);
        if (depth > 0) lacks[depth - 1]--;
        lacks[depth++] = (uint8_t)arities[s];
    }
    return counted(0);
}

/* Symbols or bars, all of them? */
INLINE bool are_taken(const uint16_t *form, size_t m, size_t symbols) {
    uint16_t most = (uint16_t)(symbols - 1), wrong = 0;
    for (size_t i = 0; i < m; i++) wrong |= (uint16_t)((form[i] > most) & (form[i] != BAR));
    return !wrong;
}

/* A walk over a form from left to right: so many symbols were met before its i-th number, and 2 * met - i nodes are open. `left` children
 * are lacked by the innermost one, lacks[d] of them by the one that has d others about it. `wrong` is negative once a bar stood where a
 * child is lacked, or a symbol where none is. */
typedef struct {
    size_t met;
    int64_t left, wrong;
} reading;

/* One number, without a branch between symbols and bars; what a bar writes is written over. A bar is the one number below zero. */
INLINE void read_one(reading *r, const uint8_t *kinds, uint16_t number, size_t i, uint8_t *lacks, uint16_t *row) {
    int64_t s = (int16_t)number, bar = s >> 63, behind = r->left - 1;
    uint8_t *innermost = lacks + (ptrdiff_t)(2 * r->met - i);
    r->wrong |= behind ^ bar;
    row[r->met] = number;
    r->left = kinds[s + 2] | (innermost[-1] & bar);
    innermost[0] = (uint8_t)behind;
    r->met += (size_t)(bar + 1);
}

/* About the root stands what no bar closes: it lacks more nodes than a stride has, and one less behind the root. */
enum { NO_ROOT = 255, ONE_ROOT = 254 };

INLINE bool well_read(const reading *r, size_t i, const uint8_t *lacks) {
    return r->wrong >= 0 && (2 * r->met > i ? lacks[0] : r->left) >= ONE_ROOT;
}

/* How many nodes are open behind the form? None if it is one; its symbols are then in `row`. Or it is faulty before its end, which is
 * looked for behind each stride: within one, a faulty form may have closed as many nodes too many. */
APART size_t open_behind(const uint16_t *restrict arities, size_t symbols, const uint16_t *restrict form, size_t m,
                         uint16_t *restrict row) {
    uint8_t kinds[2 + MOST_SYMBOLS], room[STRIDE + 1 + MOST_FORM + 1], *lacks = room + STRIDE + 1;
    reading r = {0, NO_ROOT, 0};
    size_t i = 0;
    memset(room, 0, STRIDE + 2);
    kinds[0] = 0;
    for (size_t s = 0; s < symbols; s++) kinds[2 + s] = (uint8_t)arities[s];
    while (i + STRIDE <= m) {
        if (UNLIKELY(!are_taken(form + i, STRIDE, symbols))) return FAULTY;
        for (size_t stop = i + STRIDE; i < stop; i++) read_one(&r, kinds, form[i], i, lacks, row);
        if (UNLIKELY(!well_read(&r, i, lacks))) return FAULTY;
    }
    if (UNLIKELY(!are_taken(form + i, m - i, symbols))) return FAULTY;
    for (; i < m; i++) read_one(&r, kinds, form[i], i, lacks, row);
    return well_read(&r, m, lacks) ? 2 * r.met - m : FAULTY;
}

answer strong_bars_read(const uint16_t *arities, size_t symbols, const uint16_t *form, size_t m, uint16_t *row, size_t places) {
    if (UNLIKELY(!is_alphabet(arities, symbols))) return alphabet_fault(arities, symbols);
    if (UNLIKELY(m - 1 >= MOST_FORM)) return size_fault(m, ROW);
    uint16_t read[MOST_FORM + 1];
    size_t open = open_behind(arities, symbols, form, m, read);
    if (UNLIKELY(open)) return open == FAULTY ? form_fault(arities, symbols, form, m) : refused(72, m);
    if (UNLIKELY(places < m / 2)) return refused(19, m / 2);
    memcpy(row, read, m / 2 * sizeof *row);
    return counted(m / 2);
}

/* All is filled with bars, and the symbols are put between them: before position p as many nodes are closed as are not open, so that with
 * `level` of them open it stands at 2p - level. A first child has one more about it than its parent; the levels of the others are kept
 * until they are met, above a zero, which is read where none of them is asked for. */
APART void write_form(const uint16_t *restrict arities, const uint16_t *restrict row, size_t n, uint16_t *restrict form) {
    uint16_t levels[1 + MOST + 16];
    size_t kept = 1, level = 0;
    levels[0] = 0;
    for (size_t i = 0; i < 2 * n; i++) form[i] = BAR;
    for (size_t p = 0; p < n; p++) {
        size_t k = arities[row[p]], leaf = -(size_t)(k == 0), next = level + 1;
        uint64_t four = next * UINT64_C(0x0001000100010001);
        form[2 * p - level] = row[p];
        memcpy(levels + kept, &four, sizeof four);
        if (UNLIKELY(k > 5))
            for (size_t i = 4; i < 16; i += 4) memcpy(levels + kept + i, &four, sizeof four);
        kept += k - 1;
        level = (next & ~leaf) | levels[kept & leaf];
    }
}

answer strong_bars_write(const uint16_t *arities, size_t symbols, const uint16_t *row, size_t n, uint16_t *form, size_t places) {
    answer a = check_sizes(arities, symbols, n, n);
    if (UNLIKELY(a.refusal)) return a;
    if (UNLIKELY(!is_row(arities, symbols, row, n))) return reading_fault(arities, symbols, row, n, ROW);
    if (UNLIKELY(places < 2 * n)) return refused(19, 2 * n);
    write_form(arities, row, n, form);
    return counted(2 * n);
}
