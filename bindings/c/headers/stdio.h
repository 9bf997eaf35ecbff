/* For the kit's clang, which brings no headers: what the C files here need of <stdio.h>. */
#include <stddef.h>
typedef struct _IO_FILE FILE;
extern FILE *stdin, *stdout, *stderr;
FILE *fopen(const char *name, const char *how);
size_t fread(void *to, size_t size, size_t n, FILE *file);
size_t fwrite(const void *from, size_t size, size_t n, FILE *file);
long getline(char **line, size_t *room, FILE *file);
int fclose(FILE *file);
int feof(FILE *file);
int ferror(FILE *file);
int fflush(FILE *file);
int fileno(FILE *file);
int fprintf(FILE *file, const char *format, ...);
int printf(const char *format, ...);
int rename(const char *from, const char *to);
