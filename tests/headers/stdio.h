#include <stddef.h>
#ifndef STDIO_H
#define STDIO_H
typedef struct _IO_FILE FILE;
extern FILE *stdin, *stdout;
int printf(const char *, ...);
int fflush(FILE *);
size_t fread(void *, size_t, size_t, FILE *);
size_t fwrite(const void *, size_t, size_t, FILE *);
#endif
