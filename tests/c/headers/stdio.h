/* C11 7.21, as far as it is used, by the names of the kit's C library. */
#ifndef STDIO_H
#define STDIO_H
#include <stddef.h>
typedef struct _IO_FILE FILE;
extern FILE *stdin, *stdout, *stderr;
int printf(const char *format, ...);
int fprintf(FILE *stream, const char *format, ...);
FILE *fopen(const char *name, const char *mode);
int fclose(FILE *stream);
int ferror(FILE *stream);
int fflush(FILE *stream);
char *fgets(char *line, int size, FILE *stream);
size_t fread(void *bytes, size_t size, size_t count, FILE *stream);
size_t fwrite(const void *bytes, size_t size, size_t count, FILE *stream);
#endif
