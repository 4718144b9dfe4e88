#ifndef HOST_UNISTD_H
#define HOST_UNISTD_H
#include <stddef.h>
typedef __INTPTR_TYPE__ ssize_t;
ssize_t read(int, void *, size_t);
ssize_t write(int, const void *, size_t);
#endif
