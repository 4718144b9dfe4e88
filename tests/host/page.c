/* The worked file of docs/CATALOGUE-FILE.md. Without a word: writes its catalogue, and prints the file in the form of the page. With the word
   `read`: reads a file from standard input, and prints what its records say in the page's words. */
#include <stddef.h>
#include <stdint.h>
#include <stdio.h>
#include <unistd.h>
#include <sparrowhem.h>

static uint8_t file[SPARROWHEM_MOST_FILE];

static int show_file(void) {
    static const uint8_t arities[] = {0, 0, 0, 0, 1, 0, 2, 0, 3, 0};
    static const uint8_t rows[] = {4, 0, 3, 0, 0, 0, 0, 0, 2, 0, 1, 0, 3, 0, 0, 0, 0, 0, 1, 0};
    static const uint32_t numbers[] = {7, 900}, lengths[] = {9, 1};
    sparrowhem_catalogue c = sparrowhem_catalogue_write(arities, sizeof arities, numbers, 2, lengths, 2, rows, sizeof rows, file, sizeof file);
    if (c.refusal != SPARROWHEM_ANSWERED) return 1;
    for (size_t i = 0; i < c.count; i++) {
        if (i % 16 == 0) printf("%s%08x ", i ? "\n" : "", (unsigned)i);
        printf("%s %02x", i % 16 == 8 ? " " : "", file[i]);
    }
    printf("\n");
    return 0;
}

static int show_records(void) {
    static sparrowhem_entry entries[SPARROWHEM_MOST_PROGRAMMES];
    size_t bytes = 0;
    ssize_t got;
    while (bytes < sizeof file && (got = read(0, file + bytes, sizeof file - bytes)) > 0) bytes += (size_t)got;
    sparrowhem_catalogue c = sparrowhem_catalogue_read(file, bytes, entries, SPARROWHEM_MOST_PROGRAMMES);
    if (c.refusal != SPARROWHEM_ANSWERED) return 1;
    for (size_t i = 0; i < c.count; i++) {
        printf("programme %u: its row starts at %u and has %u symbol%s\n", (unsigned)entries[i].programme, (unsigned)entries[i].start,
            (unsigned)entries[i].length, entries[i].length == 1 ? "" : "s");
    }
    return 0;
}

int main(int words, char **word) {
    (void)word;
    return words > 1 ? show_records() : show_file();
}
