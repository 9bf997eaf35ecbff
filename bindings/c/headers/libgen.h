/* For the kit's clang, which brings no headers: what the C files here need of <libgen.h>. */
char *dirname(char *name);
