// Preloaded into a program: counts its calls of memcpy and memmove of 8 KB and more, and writes size and count of each
// to standard error as the program ends. x86-64.
#include <stddef.h>
#include <stdio.h>

enum { least = 8192, kinds = 64 };

static struct {
    size_t size;
    unsigned long count;
} seen[kinds];

static void note(size_t size)
{
    for (int i = 0; size >= least && i < kinds; i++) {
        if (seen[i].count == 0 || seen[i].size == size) {
            seen[i].size = size;
            seen[i].count++;
            return;
        }
    }
}

// No compiler may make a call of memcpy of these.
static void upwards(void *to, const void *from, size_t size)
{
    __asm__ volatile("rep movsb" : "+D"(to), "+S"(from), "+c"(size) : : "memory");
}

static void downwards(void *to, const void *from, size_t size)
{
    char *t = (char *)to + size - 1;
    const char *f = (const char *)from + size - 1;
    __asm__ volatile("std; rep movsb; cld" : "+D"(t), "+S"(f), "+c"(size) : : "memory", "cc");
}

void *memcpy(void *restrict to, const void *restrict from, size_t size)
{
    note(size);
    upwards(to, from, size);
    return to;
}

void *memmove(void *to, const void *from, size_t size)
{
    note(size);
    if ((char *)to <= (const char *)from)
        upwards(to, from, size);
    else
        downwards(to, from, size);
    return to;
}

__attribute__((destructor)) static void tell(void)
{
    for (int i = 0; i < kinds && seen[i].count > 0; i++)
        fprintf(stderr, "%zu %lu\n", seen[i].size, seen[i].count);
}
