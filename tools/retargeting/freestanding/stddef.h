/* For a target without a C library: the compiler says its types. */
#ifndef FREESTANDING_STDDEF_H
#define FREESTANDING_STDDEF_H
typedef __SIZE_TYPE__ size_t;
#define NULL ((void *)0)
#define offsetof(kind, field) __builtin_offsetof(kind, field)
#endif
