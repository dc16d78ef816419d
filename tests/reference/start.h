/* What compare.c needs of a system: see start.c. */
#ifndef START_H
#define START_H

#include <stddef.h>
#include <stdint.h>

void put_bytes(const char *text, size_t count);
void leave_program(int status) __attribute__((noreturn));
void start_program(long *stack);

void *memset(void *to, int byte, size_t count);
void *memcpy(void *to, const void *from, size_t count);
void *memmove(void *to, const void *from, size_t count);
int memcmp(const void *a, const void *b, size_t count);
int bcmp(const void *a, const void *b, size_t count);

/* the program itself: its words, the first of which is its name; its status */
int run_program(int count, char **word);

#endif
