/* For the kit's clang, which brings no headers: what the C files here need of <unistd.h>. */
int close(int file);
int fsync(int file);
int unlink(const char *name);
long readlink(const char *name, char *to, __SIZE_TYPE__ n);
