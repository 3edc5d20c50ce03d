/* C11 7.24, as far as it is used. */
#ifndef STRING_H
#define STRING_H
#include <stddef.h>
void *memset(void *to, int byte, size_t count);
void *memcpy(void *to, const void *from, size_t count);
int memcmp(const void *left, const void *right, size_t count);
int strncmp(const char *left, const char *right, size_t count);
#endif
