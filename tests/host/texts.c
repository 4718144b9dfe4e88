/* Prints each number that has a text, and the text. */
#include <stdio.h>
#include <string.h>
#include <sparrowhem.h>

int main(void) {
    const char *none = sparrowhem_refusal_text(0xFFFFFFFFu);
    for (uint32_t number = 1; number < 1000; number++) {
        if (strcmp(sparrowhem_refusal_text(number), none) != 0) {
            printf("%u %s\n", (unsigned)number, sparrowhem_refusal_text(number));
        }
    }
    return 0;
}
