/* The whole numbers of a fixed size for any machine, where a compiler comes without its headers. Assumes the types that gcc and clang
 * predefine. */
#ifndef STDINT_H
#define STDINT_H
typedef __UINT8_TYPE__ uint8_t;
typedef __UINT32_TYPE__ uint32_t;
typedef __UINT64_TYPE__ uint64_t;
#endif
