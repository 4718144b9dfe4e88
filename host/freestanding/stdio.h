#ifndef HOST_STDIO_H
#define HOST_STDIO_H
#include <stddef.h>
int printf(const char *, ...);
int snprintf(char *, size_t, const char *, ...);
#endif
