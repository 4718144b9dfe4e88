/* The archive as a server, so that a test on any machine can drive it: reads requests on standard input, writes answers on
   standard output, until the input ends.

   A request: u32 call (1 build, 2 find, 3 replace, 4 sheet, 5 read a catalogue file, 6 write one, 7 read a bar form, 8 write one), u32
   shift, u64 row length, u64 position, u32 bytes of each of twelve lists (arities; row, or a catalogue's rows; table; classes; pattern or
   replacement or a sheet's patterns; lengths of these, or of a catalogue's rows; output; a sheet's results; a catalogue's numbers, file and
   records; bar form), then the lists. Each list is lent at an address that is odd where the shift is, but for the records and those of
   32-bit numbers, with guard bytes round it; a list of no bytes by a null pointer.
   An answer: u32 refusal, i32 change or u32 programme, u64 place, u64 count, u32 damage, then row, table, classes, output, results, file,
   records and bar form as the call left them. Damage is 1 where a guard byte, or a list that is only read, has changed. All numbers have
   their low byte first. */
#include <stddef.h>
#include <stdint.h>
#include <string.h>
#include <unistd.h>
#include <sparrowhem.h>

enum { ARITIES, ROW, TABLE, CLASSES, OTHER, LENGTHS, OUTPUT, RESULTS, NUMBERS, BYTES, ENTRIES, BARS, LISTS }; /* BYTES: a file's */
enum { BUILD = 1, FIND, REPLACE, SHEET, CATALOGUE_READ, CATALOGUE_WRITE, BARS_READ, BARS_WRITE };
enum { MOST = 2200000, GUARD = 64 }; /* all positions of a sheet are up to 2,097,152 bytes */

static uint8_t space[LISTS][MOST + 2 * GUARD + 2] __attribute__((aligned(64)));
static uint8_t lists[LISTS * MOST], answer[28 + LISTS * MOST];

static int take(void *to, size_t bytes) {
    for (size_t done = 0; done < bytes;) {
        ssize_t got = read(0, (uint8_t *)to + done, bytes - done);
        if (got <= 0) return 0;
        done += (size_t)got;
    }
    return 1;
}

static int give(const void *from, size_t bytes) {
    for (size_t done = 0; done < bytes;) {
        ssize_t put = write(1, (const uint8_t *)from + done, bytes - done);
        if (put <= 0) return 0;
        done += (size_t)put;
    }
    return 1;
}

static int guards_hold(const uint8_t *whole, const uint8_t *list, size_t bytes) {
    for (const uint8_t *at = whole; at < whole + bytes + 2 * GUARD + 2; at++) {
        if (at == list) at += bytes;
        if (*at != 0xC3) return 0;
    }
    return 1;
}

/* Does the call write that list? */
static int writes(uint32_t call, int list) {
    switch (list) {
    case ROW: return call == REPLACE || call == BARS_READ;
    case TABLE:
    case CLASSES: return call == BUILD || call == REPLACE;
    case OUTPUT: return call == FIND || call == SHEET;
    case RESULTS: return call == SHEET;
    case BYTES: return call == CATALOGUE_WRITE;
    case ENTRIES: return call == CATALOGUE_READ;
    case BARS: return call == BARS_WRITE;
    default: return 0;
    }
}

/* Is it a list of 32-bit numbers or of records, which stands aligned? */
static int aligned(uint32_t call, int list) {
    return list == NUMBERS || list == ENTRIES || (list == LENGTHS && call == CATALOGUE_WRITE);
}

typedef struct {
    uint32_t call, shift;
    uint64_t length, position;
    uint32_t bytes[LISTS];
} request;

int main(void) {
    request q;
    while (take(&q, offsetof(request, bytes) + sizeof q.bytes)) { /* not what may stand behind */
        uint8_t *list[LISTS], *next = lists;
        uint32_t damage = 0;
        size_t all = 0;
        for (int i = 0; i < LISTS; i++) {
            if (q.bytes[i] > MOST) return 1;
            all += q.bytes[i];
        }
        if (!take(lists, all)) return 1;
        for (int i = 0; i < LISTS; i++) {
            list[i] = space[i] + GUARD + (aligned(q.call, i) ? 0 : q.shift % 2);
            memset(space[i], 0xC3, q.bytes[i] + 2 * GUARD + 2);
            memcpy(list[i], next, q.bytes[i]);
            next += q.bytes[i];
        }
#define LENT(i) (q.bytes[i] ? list[i] : 0), q.bytes[i]
#define LENT_AS(type, i) (type *)(void *)(q.bytes[i] ? list[i] : 0), q.bytes[i] / sizeof(type)
        sparrowhem_answer a = {0, 0, 0, 0};
        sparrowhem_catalogue c = {0, 0, 0, 0};
        switch (q.call) {
        case BUILD: a = sparrowhem_build(LENT(ARITIES), LENT(ROW), LENT(TABLE), LENT(CLASSES)); break;
        case FIND: a = sparrowhem_find(LENT(ARITIES), LENT(ROW), LENT(TABLE), LENT(CLASSES), LENT(OTHER), LENT(OUTPUT)); break;
        case REPLACE:
            a = sparrowhem_replace(LENT(ARITIES), LENT(ROW), LENT(TABLE), LENT(CLASSES), q.length, LENT(OTHER), q.position);
            break;
        case SHEET:
            a = sparrowhem_sheet(LENT(ARITIES), LENT(ROW), LENT(TABLE), LENT(CLASSES), LENT(OTHER), LENT(LENGTHS), LENT(OUTPUT), LENT(RESULTS));
            break;
        case CATALOGUE_READ: c = sparrowhem_catalogue_read(LENT(BYTES), LENT_AS(sparrowhem_entry, ENTRIES)); break;
        case CATALOGUE_WRITE:
            c = sparrowhem_catalogue_write(LENT(ARITIES), LENT_AS(uint32_t, NUMBERS), LENT_AS(uint32_t, LENGTHS), LENT(ROW), LENT(BYTES));
            break;
        case BARS_READ: a = sparrowhem_bars_read(LENT(ARITIES), LENT(BARS), LENT(ROW)); break;
        case BARS_WRITE: a = sparrowhem_bars_write(LENT(ARITIES), LENT(ROW), LENT(BARS)); break;
        default: return 1;
        }
        next = lists;
        for (int i = 0; i < LISTS; i++) {
            if (!guards_hold(space[i], list[i], q.bytes[i])) damage = 1;
            if (!writes(q.call, i) && memcmp(next, list[i], q.bytes[i]) != 0) damage = 1;
            next += q.bytes[i];
        }
        next = answer;
        if (q.call == CATALOGUE_READ || q.call == CATALOGUE_WRITE) {
            memcpy(next, &c, 24);
        } else {
            memcpy(next, &a, 24);
        }
        memcpy(next + 24, &damage, 4);
        next += 28;
        for (int i = ROW; i < LISTS; i++) {
            if (i == OTHER || i == LENGTHS || i == NUMBERS) continue;
            memcpy(next, list[i], q.bytes[i]);
#ifdef WRONG_IN /* a server that leaves one wrong bit at the front of that list */
            if (i == WRONG_IN && q.bytes[i]) *next ^= 1;
#endif
            next += q.bytes[i];
        }
#ifdef WRONG /* a server whose answers have one wrong bit, in that byte or in the last: the test must notice */
        answer[answer + WRONG < next ? WRONG : next - answer - 1] ^= 1;
#endif
        if (!give(answer, (size_t)(next - answer))) return 1;
    }
    return 0;
}
