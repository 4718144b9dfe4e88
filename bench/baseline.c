/* The calls of the library once more, in plain C, written from docs/SCOPE.md alone: what they are timed against. */
#include <stdbool.h>
#include <stddef.h>
#include <stdint.h>
#include <stdlib.h>
#include <string.h>

typedef struct {
    uint64_t refusal;
    int32_t change;
    uint64_t place;
    uint64_t count;
} answer;

enum { BLANK = 65535, FIRST_VARIABLE = 65280, VARIABLES = 16, MOST = 16384 };

static answer refused(uint32_t number, uint64_t place) { return (answer){number, 0, place, 0}; }

static answer counted(uint64_t count) { return (answer){0, 0, 0, count}; }

/* Numbers of the refusals of a list that should be one tree's: empty, too long, bad number, ends early, goes on. */
static const uint32_t ROW[5] = {4, 5, 7, 8, 9}, PATTERN[5] = {11, 12, 13, 14, 15}, REPLACEMENT[5] = {24, 25, 27, 28, 29};

static answer check_alphabet(const uint16_t *arities, size_t symbols) {
    if (symbols == 0 || symbols > 1024) return refused(1, symbols);
    bool leaf = false;
    for (size_t s = 0; s < symbols; s++) {
        if (arities[s] > 15) return refused(2, s);
        leaf |= arities[s] == 0;
    }
    return leaf ? counted(0) : refused(3, 0);
}

static answer check_size(size_t n, size_t most, const uint32_t *number) {
    if (n == 0) return refused(number[0], 0);
    return n > most ? refused(number[1], n) : counted(0);
}

static bool is_variable(uint16_t s) { return (uint16_t)(s - FIRST_VARIABLE) < VARIABLES; }

static answer check_reading(const uint16_t *arities, size_t symbols, const uint16_t *list, size_t n, bool blanks, const uint32_t *number) {
    size_t need = 1;
    for (size_t i = 0; i < n; i++) {
        if (need == 0) return refused(number[4], i);
        uint16_t s = list[i];
        if (s < symbols) need += arities[s];
        else if (!blanks || (s != BLANK && !is_variable(s))) return refused(number[2], i);
        need--;
    }
    return need ? refused(number[3], n) : counted(0);
}

/* By hops over the children, of whom the first ends where `next` says. */
static void fill(const uint16_t *arities, const uint16_t *row, size_t n, uint16_t *table, size_t at) {
    size_t next = 0;
    for (size_t p = n; p-- > 0;) {
        unsigned children = arities[row[p]];
        size_t e = children == 0 ? at + p + 1 : next;
        for (; children > 1; children--) e = table[e];
        table[at + p] = (uint16_t)e;
        next = e;
    }
}

static answer check_table(const uint16_t *arities, const uint16_t *row, size_t n, const uint16_t *table) {
    for (size_t p = n; p-- > 0;) {
        size_t e = p + 1;
        for (unsigned k = arities[row[p]]; k > 0; k--) e = table[e];
        if (e == table[p]) continue;
        uint16_t *right = malloc(n * sizeof *right);
        fill(arities, row, n, right, 0);
        size_t first = 0;
        while (right[first] == table[first]) first++;
        free(right);
        return refused(10, first);
    }
    return counted(0);
}

/* Refusals 1 to 10. */
static answer check_ends(const uint16_t *arities, size_t symbols, const uint16_t *row, size_t n, const uint16_t *table, size_t room) {
    answer a = check_alphabet(arities, symbols);
    if (a.refusal) return a;
    a = check_size(n, MOST, ROW);
    if (a.refusal) return a;
    if (room < n) return refused(6, n);
    a = check_reading(arities, symbols, row, n, false, ROW);
    return a.refusal ? a : check_table(arities, row, n, table);
}

answer c_pass(const uint16_t *arities, size_t symbols, const uint16_t *row, size_t n, const uint16_t *table, size_t room) {
    return check_ends(arities, symbols, row, n, table, room);
}

/* Positions in chains, by a hash of the symbol and of what stands for each child. */
enum { NONE = 65535 };

typedef struct {
    size_t mask;
    uint16_t heads[MOST], next[MOST];
} chains;

static void no_chains(chains *c, size_t many) {
    size_t heads = 1;
    while (heads < many) heads *= 2;
    c->mask = heads - 1;
    memset(c->heads, 0xff, heads * sizeof *c->heads);
}

static uint64_t mix(uint64_t hash, uint16_t x) { return ((hash << 5 | hash >> 59) ^ x) * UINT64_C(0x9E3779B97F4A7C15); }

/* The head of a position's chain, where `of` has a number for each child. */
static uint16_t *chain_of(chains *c, const uint16_t *row, const uint16_t *table, const uint16_t *of, size_t p) {
    uint64_t hash = mix(0, row[p]);
    for (size_t y = p + 1; y < table[p]; y = table[y]) hash = mix(hash, of[y]);
    return &c->heads[hash >> 32 & c->mask];
}

static void put(chains *c, uint16_t *head, size_t i) {
    c->next[i] = *head;
    *head = (uint16_t)i;
}

/* Have p and q the same symbol, and their children pairwise the same number in `of`? */
static bool same_sign(const uint16_t *row, const uint16_t *table, const uint16_t *of, size_t p, size_t q) {
    if (row[p] != row[q] || table[p] - p != table[q] - q) return false;
    for (size_t y = p + 1; y < table[p]; y = table[y])
        if (of[y] != of[y - p + q]) return false;
    return true;
}

/* The position that a child of p tells of where the same child stands, in `of`, at the same distance below it: one that is told by
   itself and has the sign of p. */
static size_t told_by_children(const uint16_t *row, const uint16_t *table, const uint16_t *of, size_t p) {
    for (size_t y = p + 1; y < table[p]; y = table[y]) {
        size_t below = y - p, q = of[y] - below;
        if (of[y] >= below && q != p && of[q] == q && same_sign(row, table, of, p, q)) return q;
    }
    return NONE;
}

/* Writes the classes of a row whose table is right: from right to left the last position with an equal subtree, and then, from
   left to right, the first that has this last one. What has a last one below it is a last one too. Others are looked for where
   their children say, and among those in chains, which have no last one below them. */
static void fill_classes(const uint16_t *row, size_t n, const uint16_t *table, uint16_t *classes) {
    chains c;
    uint16_t last[MOST], *first = c.next;
    size_t newest = n;
    no_chains(&c, n);
    for (size_t p = n; p-- > 0;) {
        size_t q = NONE;
        if (newest >= table[p]) {
            uint16_t *head = chain_of(&c, row, table, last, p);
            q = told_by_children(row, table, last, p);
            if (q == NONE)
                for (q = *head; q != NONE && !same_sign(row, table, last, p, q);) q = c.next[q];
            if (q == NONE) put(&c, head, p);
        }
        last[p] = (uint16_t)(q == NONE ? p : q);
        if (q == NONE) newest = p;
    }
    memset(first, 0xff, n * sizeof *first);
    for (size_t p = 0; p < n; p++) {
        if (first[last[p]] == NONE) first[last[p]] = (uint16_t)p;
        classes[p] = first[last[p]];
    }
}

/* The positions that lead, which is to be their own class, and have no other such below them; if each other position names an
   earlier leader whose subtree, with the classes in it, is the same, and no two leaves lead for one symbol. */
static bool bare_leaders(const uint16_t *row, size_t n, const uint16_t *table, const uint16_t *classes, uint16_t *bare, size_t *many) {
    bool seen[1024] = {false};
    size_t open = NONE; /* the last leader with children, where no leader has come since */
    *many = 0;
    for (size_t p = 0; p < n;) {
        size_t q = classes[p], end = table[p], bytes = (end - p) * sizeof *row;
        if (q > p) return false;
        if (q < p) {
            if (classes[q] != q || memcmp(row + p, row + q, bytes)) return false;
            if (memcmp(classes + p + 1, classes + q + 1, bytes - sizeof *classes)) return false;
            p = end;
            continue;
        }
        if (open != NONE && table[open] <= p) bare[(*many)++] = (uint16_t)open;
        open = end > p + 1 ? p : NONE;
        if (open == NONE && seen[row[p]]) return false;
        if (open == NONE) seen[row[p]] = true;
        p++;
    }
    if (open != NONE) bare[(*many)++] = (uint16_t)open;
    return true;
}

/* Are they the row's, whose table is right? Of two equal leaders the later of the least ones is bare: so bare ones are looked for
   among the bare ones, and where their children's classes say. */
static bool are_classes(const uint16_t *row, size_t n, const uint16_t *table, const uint16_t *classes) {
    chains c;
    uint16_t bare[MOST];
    size_t many;
    if (!bare_leaders(row, n, table, classes, bare, &many)) return false;
    no_chains(&c, many);
    for (size_t i = 0; i < many; i++) {
        size_t p = bare[i];
        if (told_by_children(row, table, classes, p) != NONE) return false;
        uint16_t *head = chain_of(&c, row, table, classes, p);
        for (size_t j = *head; j != NONE; j = c.next[j])
            if (same_sign(row, table, classes, p, bare[j])) return false;
        put(&c, head, i);
    }
    return true;
}

/* Refusal 62, for a row whose table is right. */
static answer check_classes(const uint16_t *row, size_t n, const uint16_t *table, const uint16_t *classes) {
    if (are_classes(row, n, table, classes)) return counted(0);
    uint16_t right[MOST];
    fill_classes(row, n, table, right);
    size_t first = 0;
    while (right[first] == classes[first]) first++;
    return refused(62, first);
}

answer c_class_check(const uint16_t *row, size_t n, const uint16_t *table, size_t room, const uint16_t *classes, size_t class_room) {
    return room < n || class_room < n ? refused(6, n) : check_classes(row, n, table, classes);
}

static size_t shorter(size_t a, size_t b) { return a < b ? a : b; }

/* Refusals 1 to 10, then 62. */
static answer check_given(const uint16_t *arities, size_t symbols, const uint16_t *row, size_t n, const uint16_t *table,
                          const uint16_t *classes, size_t room) {
    answer a = check_ends(arities, symbols, row, n, table, room);
    return a.refusal ? a : check_classes(row, n, table, classes);
}

static answer check_pattern(const uint16_t *arities, size_t symbols, const uint16_t *pattern, size_t m) {
    answer a = check_size(m, 256, PATTERN);
    return a.refusal ? a : check_reading(arities, symbols, pattern, m, true, PATTERN);
}

answer c_build(const uint16_t *arities, size_t symbols, const uint16_t *row, size_t n, uint16_t *table, size_t room,
               uint16_t *classes, size_t class_room) {
    answer a = check_alphabet(arities, symbols);
    if (a.refusal) return a;
    a = check_size(n, MOST, ROW);
    if (a.refusal) return a;
    if (room < n || class_room < n) return refused(6, n);
    a = check_reading(arities, symbols, row, n, false, ROW);
    if (a.refusal) return a;
    fill(arities, row, n, table, 0);
    fill_classes(row, n, table, classes);
    return counted(n);
}

/* Does the pattern match at p? spans holds begin and end of each variable. */
static inline bool match_at(const uint16_t *row, const uint16_t *table, const uint16_t *classes, const uint16_t *pattern, size_t m,
                            size_t p, uint16_t *spans) {
    if (row[p] != pattern[0] && pattern[0] < FIRST_VARIABLE) return false;
    memset(spans, 0, 2 * VARIABLES * sizeof *spans);
    size_t j = p;
    for (size_t k = 0; k < m; k++) {
        uint16_t s = pattern[k];
        if (row[j] == s) {
            j++;
            continue;
        }
        if (s < FIRST_VARIABLE) return false;
        size_t end = table[j];
        if (s != BLANK) {
            uint16_t *span = spans + 2 * (s - FIRST_VARIABLE);
            if (span[1] == 0) {
                span[0] = (uint16_t)j;
                span[1] = (uint16_t)end;
            } else if (classes[span[0]] != classes[j]) {
                return false;
            }
        }
        j = end;
    }
    return true;
}

answer c_find(const uint16_t *arities, size_t symbols, const uint16_t *row, size_t n, const uint16_t *table, size_t room,
              const uint16_t *classes, size_t class_room, const uint16_t *pattern, size_t m, uint16_t *out, size_t places) {
    answer a = check_given(arities, symbols, row, n, table, classes, shorter(room, class_room));
    if (a.refusal) return a;
    a = check_pattern(arities, symbols, pattern, m);
    if (a.refusal) return a;
    uint16_t spans[2 * VARIABLES];
    size_t count = 0;
    if (places < n) {
        for (size_t p = 0; p < n; p++) count += match_at(row, table, classes, pattern, m, p, spans);
        if (count > places) return refused(19, count);
        count = 0;
    }
    for (size_t p = 0; p < n; p++)
        if (match_at(row, table, classes, pattern, m, p, spans)) out[count++] = (uint16_t)p;
    return counted(count);
}

/* A sheet of patterns, laid end to end, over a checked row. */
enum { MOST_PATTERNS = 64, RESULT = 3, GATHERED = 2 * MOST };

typedef struct {
    const uint16_t *arities;
    size_t symbols;
    const uint16_t *row;
    size_t n;
    const uint16_t *table, *classes, *patterns, *lengths;
    size_t many;
} sheet;

/* Refusals 63, 64, and 19 for the results. */
static answer check_lengths(const uint16_t *lengths, size_t many, size_t lent, size_t result_places) {
    if (many == 0 || many > MOST_PATTERNS) return refused(63, many);
    size_t sum = 0;
    for (size_t i = 0; i < many; i++) sum += lengths[i];
    if (sum != lent) return refused(64, lent);
    return result_places < RESULT * many ? refused(19, RESULT * many) : counted(0);
}

/* Writes the result of each pattern, and the positions as far as there are places; how many positions are there? */
static size_t answer_patterns(const sheet *s, uint16_t *positions, size_t places, uint16_t *results) {
    const uint16_t *pattern = s->patterns;
    uint16_t spans[2 * VARIABLES];
    size_t count = 0;
    for (size_t i = 0; i < s->many; i++) {
        size_t m = s->lengths[i], before = count;
        answer a = check_pattern(s->arities, s->symbols, pattern, m);
        size_t searched = a.refusal ? 0 : s->n;
        for (size_t p = 0; p < searched; p++) {
            if (!match_at(s->row, s->table, s->classes, pattern, m, p, spans)) continue;
            if (count < places) positions[count] = (uint16_t)p;
            count++;
        }
        results[RESULT * i] = (uint16_t)a.refusal;
        results[RESULT * i + 1] = (uint16_t)a.place;
        results[RESULT * i + 2] = (uint16_t)(count - before);
        pattern += m;
    }
    return count;
}

/* Where the positions may not fit they are gathered first; if they are more than that room has, they are looked for once more. */
static answer answer_sheet(const sheet *s, uint16_t *positions, size_t places, uint16_t *results) {
    if (places >= s->n * s->many) return counted(answer_patterns(s, positions, places, results));
    uint16_t room[GATHERED], kept[RESULT * MOST_PATTERNS];
    size_t count = answer_patterns(s, room, GATHERED, kept);
    if (count > places) return refused(19, count);
    if (count > GATHERED) return counted(answer_patterns(s, positions, places, results));
    if (count > 0) memcpy(positions, room, count * sizeof *positions);
    memcpy(results, kept, RESULT * s->many * sizeof *results);
    return counted(count);
}

answer c_sheet(const uint16_t *arities, size_t symbols, const uint16_t *row, size_t n, const uint16_t *table, size_t room,
               const uint16_t *classes, size_t class_room, const uint16_t *patterns, size_t lent, const uint16_t *lengths, size_t many,
               uint16_t *positions, size_t places, uint16_t *results, size_t result_places) {
    answer a = check_given(arities, symbols, row, n, table, classes, shorter(room, class_room));
    if (a.refusal) return a;
    a = check_lengths(lengths, many, lent, result_places);
    if (a.refusal) return a;
    sheet s = {arities, symbols, row, n, table, classes, patterns, lengths, many};
    return answer_sheet(&s, positions, places, results);
}

answer c_variables(const uint16_t *arities, size_t symbols, const uint16_t *row, size_t n, const uint16_t *table, size_t room,
                   const uint16_t *classes, size_t class_room, const uint16_t *pattern, size_t m, size_t position, uint16_t *out,
                   size_t places) {
    answer a = check_given(arities, symbols, row, n, table, classes, shorter(room, class_room));
    if (a.refusal) return a;
    a = check_pattern(arities, symbols, pattern, m);
    if (a.refusal) return a;
    if (position >= n) return refused(17, position);
    if (places < 2 * VARIABLES) return refused(19, 2 * VARIABLES);
    uint16_t spans[2 * VARIABLES];
    if (!match_at(row, table, classes, pattern, m, position, spans)) return counted(0);
    memcpy(out, spans, sizeof spans);
    return counted(1);
}

answer c_replace(const uint16_t *arities, size_t symbols, uint16_t *row, size_t row_room, uint16_t *table, size_t room,
                 uint16_t *classes, size_t class_room, size_t n, const uint16_t *replacement, size_t m, size_t position) {
    size_t least = shorter(row_room, shorter(room, class_room));
    answer a = check_given(arities, symbols, row, n, table, classes, least);
    if (a.refusal) return a;
    a = check_size(m, MOST, REPLACEMENT);
    if (a.refusal) return a;
    a = check_reading(arities, symbols, replacement, m, false, REPLACEMENT);
    if (a.refusal) return a;
    if (position >= n) return refused(17, position);
    size_t end = table[position], to = position + m, length = to + (n - end);
    if (length > MOST || length > least) return refused(18, length);
    memmove(row + to, row + end, (n - end) * sizeof *row);
    memcpy(row + position, replacement, m * sizeof *row);
    memmove(table + to, table + end, (n - end) * sizeof *table);
    for (size_t p = 0; p < position; p++)
        if (table[p] >= end) table[p] = (uint16_t)(table[p] - end + to);
    for (size_t p = to; p < length; p++) table[p] = (uint16_t)(table[p] - end + to);
    fill(arities, replacement, m, table, position);
    fill_classes(row, length, table, classes);
    for (size_t p = length; p < n; p++) {
        row[p] = BLANK;
        table[p] = 0;
        classes[p] = 0;
    }
    return (answer){0, (int32_t)length - (int32_t)n, 0, length};
}

static size_t tree_length(const uint16_t *arities, const uint16_t *list) {
    size_t need = 1, i = 0;
    while (need) need += (size_t)arities[list[i++]] - 1;
    return i;
}

typedef struct {
    const uint16_t *begin;
    size_t length;
} part;

static bool children(const uint16_t *arities, unsigned k, const uint16_t **pattern, const uint16_t **rest, part *bound);

/* The pattern's first tree against the row's first tree; both are passed over if it fits. */
static bool node(const uint16_t *arities, const uint16_t **pattern, const uint16_t **rest, part *bound) {
    uint16_t s = *(*pattern)++;
    if (s == **rest) {
        ++*rest;
        return children(arities, arities[s], pattern, rest, bound);
    }
    if (s < FIRST_VARIABLE) return false;
    size_t n = tree_length(arities, *rest);
    if (s != BLANK) {
        part *first = bound + (s - FIRST_VARIABLE);
        if (first->length == 0) *first = (part){*rest, n};
        else if (first->length != n || memcmp(first->begin, *rest, n * sizeof **rest)) return false;
    }
    *rest += n;
    return true;
}

static bool children(const uint16_t *arities, unsigned k, const uint16_t **pattern, const uint16_t **rest, part *bound) {
    for (; k > 0; k--)
        if (!node(arities, pattern, rest, bound)) return false;
    return true;
}

answer c_plain_match(const uint16_t *arities, size_t symbols, const uint16_t *row, size_t n, const uint16_t *pattern, size_t m,
                     size_t position) {
    answer a = check_alphabet(arities, symbols);
    if (a.refusal) return a;
    a = check_size(n, MOST, ROW);
    if (a.refusal) return a;
    a = check_reading(arities, symbols, row, n, false, ROW);
    if (a.refusal) return a;
    a = check_pattern(arities, symbols, pattern, m);
    if (a.refusal) return a;
    if (position >= n) return refused(17, position);
    part bound[VARIABLES] = {{0}};
    const uint16_t *rest = row + position;
    return counted(node(arities, &pattern, &rest, bound));
}

/* Catalogue files: numbers are bytes, the low one first. */

typedef struct {
    uint32_t programme, start, length;
} entry;

typedef struct {
    uint32_t refusal, programme;
    uint64_t place, count;
} catalogue_answer;

enum { HEAD = 4, ENTRY = 12, MOST_SYMBOLS = 1024, MOST_ARITY = 15, MOST_PROGRAMMES = 256, MOST_FILE = 65536 };

/* An answer on a catalogue, with a programme where one has a fault. */
static catalogue_answer told(answer a, uint32_t programme) {
    return (catalogue_answer){(uint32_t)a.refusal, programme, a.place, a.count};
}

static uint16_t half_at(const uint8_t *bytes) { return (uint16_t)(bytes[0] | bytes[1] << 8); }

static uint16_t number_at(const uint8_t *list, size_t i) { return half_at(list + 2 * i); }

static uint32_t wide_at(const uint8_t *bytes) { return bytes[0] | bytes[1] << 8 | bytes[2] << 16 | (uint32_t)bytes[3] << 24; }

static void put_wide(uint8_t *bytes, uint32_t v) {
    for (size_t i = 0; i < 4; i++) bytes[i] = (uint8_t)(v >> 8 * i);
}

/* The k-th entry of the contents, with the place where it stands in the file. */
static size_t entry_place(size_t k) { return HEAD + ENTRY * k; }

static entry entry_at(const uint8_t *file, size_t k) {
    const uint8_t *at = file + entry_place(k);
    return (entry){wide_at(at), wide_at(at + 4), wide_at(at + 8)};
}

/* Refusals 1 to 3, of arities that are a byte each. */
static answer check_arities(const uint8_t *arities, size_t symbols) {
    if (symbols == 0 || symbols > MOST_SYMBOLS) return refused(1, symbols);
    for (size_t s = 0; s < symbols; s++)
        if (arities[s] > MOST_ARITY) return refused(2, s);
    return memchr(arities, 0, symbols) ? counted(0) : refused(3, 0);
}

/* Refusals 4, 5, 7, 8 and 9: so many symbols are due in all, one for the root and as many as each symbol so far has children. */
static answer check_tree(const uint8_t *arities, size_t symbols, const uint8_t *row, size_t n) {
    answer a = check_size(n, MOST, ROW);
    if (a.refusal) return a;
    size_t due = 1;
    for (size_t i = 0; i < n; i++) {
        if (due == i) return refused(9, i);
        size_t s = number_at(row, i);
        if (s >= symbols) return refused(7, i);
        due += arities[s];
    }
    return due == n ? counted(0) : refused(8, n);
}

/* Refusals 67 to 69. */
static answer check_contents(const uint8_t *file, size_t bytes, size_t n, size_t first) {
    uint64_t least = 0, next = first;
    for (size_t k = 0; k < n; k++) {
        uint64_t programme = entry_at(file, k).programme;
        if (programme < least) return refused(67, entry_place(k));
        least = programme + 1;
    }
    for (size_t k = 0; k < n; k++) {
        entry e = entry_at(file, k);
        if (e.start != next) return refused(68, entry_place(k));
        next += 2 * (uint64_t)e.length;
        if (next > bytes) return refused(68, entry_place(k));
    }
    return next == bytes ? counted(0) : refused(69, next);
}

catalogue_answer c_catalogue_read(const uint8_t *file, size_t bytes, entry *entries, size_t count) {
    if (bytes > MOST_FILE) return told(refused(66, bytes), 0);
    if (bytes < HEAD) return told(refused(65, bytes), 0);
    size_t n = number_at(file, 0), symbols = number_at(file, 1), first = entry_place(n) + symbols;
    if (bytes < first) return told(refused(65, bytes), 0);
    if (n > MOST_PROGRAMMES) return told(refused(88, n), 0);
    const uint8_t *arities = file + entry_place(n);
    answer a = check_arities(arities, symbols);
    if (!a.refusal) a = check_contents(file, bytes, n, first);
    if (a.refusal) return told(a, 0);
    for (size_t k = 0; k < n; k++) {
        entry e = entry_at(file, k);
        a = check_tree(arities, symbols, file + e.start, e.length);
        if (a.refusal) return told(a, e.programme);
    }
    if (count < n) return told(refused(19, n), 0);
    for (size_t k = 0; k < n; k++) entries[k] = entry_at(file, k);
    return told(counted(n), 0);
}

/* Refusals 1 to 3, of arities that are lent as numbers. They become a byte each. */
static answer narrow(const uint8_t *list, size_t symbols, uint8_t *arities) {
    if (symbols == 0 || symbols > MOST_SYMBOLS) return refused(1, symbols);
    for (size_t s = 0; s < symbols; s++) {
        if (number_at(list, s) > MOST_ARITY) return refused(2, s);
        arities[s] = list[2 * s];
    }
    return memchr(arities, 0, symbols) ? counted(0) : refused(3, 0);
}

/* Refusals 67, 68 and 66, for rows of m symbols and a file of so many bytes. */
static answer check_lists(const uint32_t *numbers, size_t n, const uint32_t *lengths, size_t many, size_t m, size_t bytes) {
    for (size_t k = 1; k < n; k++)
        if (numbers[k] <= numbers[k - 1]) return refused(67, k);
    uint64_t sum = 0;
    for (size_t k = 0; k < many; k++) sum += lengths[k];
    if (many != n || sum != m) return refused(68, m);
    return bytes > MOST_FILE ? refused(66, bytes) : counted(0);
}

/* Head and contents. */
static void write_front(uint8_t *file, size_t symbols, const uint32_t *numbers, const uint32_t *lengths, size_t n) {
    size_t next = entry_place(n) + symbols;
    put_wide(file, (uint32_t)(n | symbols << 16));
    for (size_t k = 0; k < n; k++) {
        uint8_t *at = file + entry_place(k);
        put_wide(at, numbers[k]);
        put_wide(at + 4, (uint32_t)next);
        put_wide(at + 8, lengths[k]);
        next += 2 * (size_t)lengths[k];
    }
}

catalogue_answer c_catalogue_write(const uint8_t *list, size_t list_bytes, const uint32_t *numbers, size_t n, const uint32_t *lengths,
                                   size_t many, const uint8_t *rows, size_t rows_bytes, uint8_t *file, size_t room) {
    uint8_t arities[MOST_SYMBOLS];
    size_t symbols = list_bytes / 2, m = rows_bytes / 2, first = entry_place(n) + symbols, next = 0;
    if (n > MOST_PROGRAMMES) return told(refused(88, n), 0);
    answer a = narrow(list, symbols, arities);
    if (!a.refusal) a = check_lists(numbers, n, lengths, many, m, first + 2 * m);
    if (a.refusal) return told(a, 0);
    for (size_t k = 0; k < n; k++) {
        a = check_tree(arities, symbols, rows + 2 * next, lengths[k]);
        if (a.refusal) return told(a, numbers[k]);
        next += lengths[k];
    }
    if (room < first + 2 * m) return told(refused(19, first + 2 * m), 0);
    write_front(file, symbols, numbers, lengths, n);
    memcpy(file + entry_place(n), arities, symbols);
    if (m > 0) memcpy(file + first, rows, 2 * m);
    return told(counted(first + 2 * m), 0);
}

/* Bar forms. */

enum { BAR = 65534, MOST_FORM = 32768 };

/* Refusals 70, 71, 7 and 72. Of each open node it is kept how many children it lacks. */
static answer check_form(const uint16_t *arities, size_t symbols, const uint16_t *form, size_t m) {
    uint8_t lacks[MOST_FORM];
    size_t depth = 0;
    for (size_t i = 0; i < m; i++) {
        uint16_t s = form[i];
        if (depth == 0 && (i > 0 || s == BAR)) return refused(70, i);
        if (depth > 0 && (s == BAR) != (lacks[depth - 1] == 0)) return refused(71, i);
        if (s == BAR) {
            depth--;
            continue;
        }
        if (s >= symbols) return refused(7, i);
        if (depth > 0) lacks[depth - 1]--;
        lacks[depth++] = (uint8_t)arities[s];
    }
    return depth ? refused(72, m) : counted(0);
}

answer c_bars_read(const uint16_t *arities, size_t symbols, const uint16_t *form, size_t m, uint16_t *row, size_t places) {
    answer a = check_alphabet(arities, symbols);
    if (a.refusal) return a;
    a = check_size(m, MOST_FORM, ROW);
    if (a.refusal) return a;
    a = check_form(arities, symbols, form, m);
    if (a.refusal) return a;
    if (places < m / 2) return refused(19, m / 2);
    size_t n = 0;
    for (const uint16_t *s = form; n < m / 2; s++) { /* a bar is put into the row too, and the next number over it */
        row[n] = *s;
        n += *s != BAR;
    }
    return counted(n);
}

answer c_bars_write(const uint16_t *arities, size_t symbols, const uint16_t *row, size_t n, uint16_t *form, size_t places) {
    answer a = check_alphabet(arities, symbols);
    if (a.refusal) return a;
    a = check_size(n, MOST, ROW);
    if (a.refusal) return a;
    a = check_reading(arities, symbols, row, n, false, ROW);
    if (a.refusal) return a;
    if (places < 2 * n) return refused(19, 2 * n);
    uint8_t lacks[MOST];
    size_t depth = 0, p = 0;
    for (size_t i = 0; i < 2 * n; i++) {
        if (depth > 0 && lacks[depth - 1] == 0) {
            form[i] = BAR;
            depth--;
            continue;
        }
        if (depth > 0) lacks[depth - 1]--;
        uint16_t s = row[p++];
        form[i] = s;
        lacks[depth++] = (uint8_t)arities[s];
    }
    return counted(2 * n);
}
