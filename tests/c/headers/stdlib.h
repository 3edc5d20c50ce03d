/* C11 7.22, as far as it is used. */
#ifndef STDLIB_H
#define STDLIB_H
#define EXIT_SUCCESS 0
#define EXIT_FAILURE 1
long strtol(const char *text, char **end, int base);
float strtof(const char *text, char **end);
_Noreturn void exit(int status);
#endif
