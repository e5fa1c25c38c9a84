/* size_t and NULL for any machine, where a compiler comes without its headers. Assumes the types that gcc and clang predefine. */
#ifndef STDDEF_H
#define STDDEF_H
typedef __SIZE_TYPE__ size_t;
#define NULL ((void *)0)
#endif
