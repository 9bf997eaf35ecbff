/* For the kit's clang, which brings no headers: what the C files here need of <errno.h>. */
int *__errno_location(void);
#define errno (*__errno_location())
#define ENOENT 2
