/* The functions of the C library that the programs of tests/host call, as x86-64 Linux has them. They are declared here because the
 * kit, which builds the programs for x86-64 wherever the tests run, has a C library without headers. */
#ifndef POSIX_H
#define POSIX_H

#include <stddef.h>
#include <stdint.h>

/* ---- Memory */

void *memcpy(void *to, const void *from, size_t octets);
void *memset(void *at, int octet, size_t octets);
int memcmp(const void *one, const void *other, size_t octets);
size_t strlen(const char *text);
int strcmp(const char *one, const char *other);

#define PROT_NONE 0
#define PROT_READ 1
#define PROT_WRITE 2
#define MAP_PRIVATE 2
#define MAP_ANONYMOUS 32
#define MAP_FAILED ((void *)-1)

void *mmap(void *wish, size_t octets, int allowed, int flags, int file, long offset);
int mprotect(void *at, size_t octets, int allowed);

/* ---- Input, output and the end */

long read(int file, void *to, size_t octets);
long write(int file, const void *from, size_t octets);
int printf(const char *form, ...) __attribute__((format(printf, 1, 2)));
int dprintf(int file, const char *form, ...) __attribute__((format(printf, 2, 3)));
unsigned long strtoul(const char *text, char **end, int base);
_Noreturn void exit(int status);

/* ---- Threads */

typedef unsigned long pthread_t;
typedef union {
    uint64_t words[5];
} pthread_mutex_t;
#define PTHREAD_MUTEX_INITIALIZER \
    {                             \
        { 0 }                     \
    }

int pthread_create(pthread_t *thread, const void *attributes, void *(*routine)(void *), void *with);
int pthread_join(pthread_t thread, void **gave);
int pthread_mutex_lock(pthread_mutex_t *lock);
int pthread_mutex_unlock(pthread_mutex_t *lock);
int sched_yield(void);

#endif
