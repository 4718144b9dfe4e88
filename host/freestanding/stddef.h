/* The kit has a C compiler and a C library for the archive's machine, and no headers: these declare what the programs here use. */
#ifndef HOST_STDDEF_H
#define HOST_STDDEF_H
typedef __SIZE_TYPE__ size_t;
#define offsetof(type, field) __builtin_offsetof(type, field)
#endif
