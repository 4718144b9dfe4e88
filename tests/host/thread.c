/* Build on a thread whose stack is 8 KiB above the least that the system allows, on each row of the benchmark. */
#include <pthread.h>
#include "painted.h"
#include "shaped.h"

enum { ABOVE = 8 * 1024 };

static void *thread_of(void *run) {
    (*(void (**)(void))run)();
    return NULL;
}

/* How much of that stack is touched where a function runs on it; it ends where the painted one does. */
static size_t touched_by(void (*run)(void), size_t size) {
    uint8_t *top = painted + sizeof painted;
    pthread_attr_t attributes;
    pthread_t thread;
    memset(painted, PAINT, sizeof painted);
    pthread_attr_init(&attributes);
    int wrong = pthread_attr_setstack(&attributes, top - size, size);
    wrong = wrong || pthread_create(&thread, &attributes, thread_of, &run) || pthread_join(thread, NULL);
    check_that("a thread runs", !wrong);
    return touched_below(top);
}

int main(void) {
    size_t size = (size_t)sysconf(_SC_THREAD_STACK_MIN) + ABOVE, most = 0, own = 0;
    size = (size + 4095) / 4096 * 4096;
    while (next_row()) {
        own = touched_by(run_nothing, size);
        size_t touched = touched_by(run_build, size);
        most = touched > most ? touched : most;
        check_that("which answered", answer.refusal == SPARROWHEM_ANSWERED && answer.count == n);
        check_that("build touches no more of it than the header says", touched < own + BUILD_BYTES);
    }
    printf("stack: of a thread's %zu bytes %zu are touched with build, %zu without\n", size, most, own);
    printf("%u passed, %u failed\n", passed, failed);
    return failed != 0 || passed == 0;
}
