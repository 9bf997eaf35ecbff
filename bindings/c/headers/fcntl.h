/* For the kit's clang, which brings no headers: what the C files here need of <fcntl.h>. */
int open(const char *name, int flags, ...);
#define O_RDONLY 0
#define O_WRONLY 1
#define O_CREAT 0100
