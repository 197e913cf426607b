/* The types and the C library functions that the host programs use, declared here, so that they need no header. */
#ifndef BASE_H
#define BASE_H

typedef __UINT8_TYPE__ uint8_t;
typedef __UINT32_TYPE__ uint32_t;
typedef __INT64_TYPE__ int64_t;
typedef __UINT64_TYPE__ uint64_t;
typedef __SIZE_TYPE__ size_t;
typedef _Bool bool;

#define false ((bool)0)
#define true ((bool)1)
#define NULL ((void *)0)
#define SIZE_MAX __SIZE_MAX__

#define LENGTH_OF(array) (sizeof(array) / sizeof((array)[0]))

extern int open(const char *name, int flags, ...);
extern int close(int file);
extern long read(int file, void *into, size_t length);
extern long write(int file, const void *from, size_t length);
extern void exit(int status) __attribute__((noreturn));
extern int printf(const char *form, ...) __attribute__((format(printf, 1, 2)));
extern int memcmp(const void *one, const void *other, size_t length);
extern void *memcpy(void *restrict into, const void *restrict from, size_t length);
extern void *memmove(void *into, const void *from, size_t length);
extern void *memset(void *into, int byte, size_t length);
extern size_t strlen(const char *text);
extern int strcmp(const char *one, const char *other);

struct timespec {
    long tv_sec;
    long tv_nsec;
};
extern int clock_gettime(int clock, struct timespec *now);

#endif
