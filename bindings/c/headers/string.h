/* For the kit's clang, which brings no headers: what the C files here need of <string.h>. */
#include <stddef.h>
char *strcat(char *to, const char *from);
char *strcpy(char *to, const char *from);
size_t strlen(const char *s);
