/* Memory that ends where a page begins that cannot be touched, so that nothing past it is read or written unnoticed. */
#ifndef EDGE_H
#define EDGE_H

#include <stdint.h>
#include <stdio.h>
#include <stdlib.h>
#include <sys/mman.h>
#include <unistd.h>

/* The end of the memory; at least `most` bytes before it can be used. */
static uint8_t *edge(size_t most)
{
    size_t page = (size_t)sysconf(_SC_PAGESIZE);
    size_t length = (most + page - 1) / page * page;
    uint8_t *block = mmap(NULL, length + page, PROT_READ | PROT_WRITE, MAP_PRIVATE | MAP_ANONYMOUS, -1, 0);
    if (block == MAP_FAILED || mprotect(block + length, page, PROT_NONE)) {
        perror("edge");
        exit(1);
    }
    return block + length;
}

#endif
