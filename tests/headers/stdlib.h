#include <stddef.h>
void *malloc(size_t);
void free(void *);
__attribute__((noreturn)) void exit(int);
void qsort(void *, size_t, size_t, int (*)(const void *, const void *));
