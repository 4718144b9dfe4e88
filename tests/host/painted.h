/* A stack of one's own, painted, so that it shows afterwards how much of it was touched. */
#include <stddef.h>
#include <stdint.h>
#include <string.h>

enum { PAINT = 0xA5 };

static uint8_t painted[1 << 19] __attribute__((aligned(4096)));

/* How many bytes, up to `top`, are no longer as they were painted. */
static size_t touched_below(const uint8_t *top) {
    const uint8_t *low = painted;
    while (low < top && *low == PAINT) {
        low++;
    }
    return (size_t)(top - low);
}

/* How much stack a function takes, with all that it calls. */
static inline size_t stack_of(void (*run)(void)) {
    uint8_t *top = painted + sizeof painted - 64;
    memset(painted, PAINT, sizeof painted);
    __asm__ volatile("movq %%rsp, %%rbx\n\tmovq %1, %%rsp\n\tcall *%0\n\tmovq %%rbx, %%rsp"
        :
        : "r"(run), "r"(top)
        : "rbx", "rax", "rcx", "rdx", "rsi", "rdi", "r8", "r9", "r10", "r11", "memory", "cc", "xmm0", "xmm1", "xmm2", "xmm3", "xmm4",
        "xmm5", "xmm6", "xmm7", "xmm8", "xmm9", "xmm10", "xmm11", "xmm12", "xmm13", "xmm14", "xmm15");
    return touched_below(top);
}
