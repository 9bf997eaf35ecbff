/* For the kit's clang, which brings no headers: what the C files here need of <sys/file.h>. */
int flock(int file, int how);
#define LOCK_EX 2
#define LOCK_NB 4
