/* For the kit's clang, which brings no headers: what the C files here need of <stdlib.h>. */
#include <stddef.h>
void exit(int status) __attribute__((noreturn));
void *malloc(size_t n);
char *realpath(const char *name, char *to);
