/* For the kit's clang, which brings no headers: what the C files here need of <stddef.h>. */
typedef __SIZE_TYPE__ size_t;
#define NULL ((void *)0)
