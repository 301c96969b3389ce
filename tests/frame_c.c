/* Checks co_read_frame on frames worked out by hand from the table of tags. */
#define _DEFAULT_SOURCE
#include <stdio.h>
#include <stdlib.h>
#include <string.h>

#include "co_frame.h"
#include "lib/edge.h"

#define MARK 0xa5a5a5a5a5a5a5a5u

static int failures = 0;

static void expect(const char *what, uint64_t got, uint64_t wanted)
{
    if (got != wanted) {
        printf("frame_c: %s: %llu, not %llu\n", what, (unsigned long long)got, (unsigned long long)wanted);
        failures++;
    }
}

/* A data frame of n = 2 with no data: CID 0x01020304, SRC 1, SEQ 5, ACK 5 and 258, BUF 16. 45 bytes. */
static const uint8_t small[] = {
    1, 0, 1, 1,                         /* edition */
    2, 0, 1, 1,                         /* kind */
    3, 0, 4, 1, 2, 3, 4,                /* CID */
    4, 0, 1, 1,                         /* SRC */
    5, 0, 4, 0, 0, 0, 5,                /* SEQ */
    6, 0, 8, 0, 0, 0, 5, 0, 0, 1, 2,    /* ACK */
    7, 0, 2, 0, 16,                     /* BUF */
    10, 0, 0                            /* data */
};

/* A request of n = 3: CID 0xffffffff, SRC 3, ACK 7, 8 and 9, LSRC 2, LSEQ 4,294,967,295. 45 bytes. */
static const uint8_t asking[] = {
    1, 0, 1, 1,
    2, 0, 1, 2,
    3, 0, 4, 255, 255, 255, 255,
    4, 0, 1, 3,
    6, 0, 12, 0, 0, 0, 7, 0, 0, 0, 8, 0, 0, 0, 9,
    8, 0, 1, 2,
    9, 0, 4, 255, 255, 255, 255
};

/* The longest data frame: n = 8, 48 bytes of data. 117 bytes. */
static size_t longest(uint8_t *f)
{
    static const uint8_t head[] = {
        1, 0, 1, 1, 2, 0, 1, 1, 3, 0, 4, 0, 0, 0, 1, 4, 0, 1, 8, 5, 0, 4, 255, 255, 255, 254, 6, 0, 32
    };
    size_t at = sizeof head;
    memcpy(f, head, at);
    for (int k = 0; k < 8; k++) {
        const uint8_t number[] = { 0, 1, 0, (uint8_t)k };
        memcpy(f + at, number, 4);
        at += 4;
    }
    const uint8_t buf[] = { 7, 0, 2, 1, 0, 10, 0, 48 };
    memcpy(f + at, buf, sizeof buf);
    at += sizeof buf;
    for (int i = 0; i < 48; i++)
        f[at++] = (uint8_t)(200 + i);
    return at;
}

/* The answer to the bytes, copied to a block of just their length so that a byte read past them is found out. */
static uint32_t answer_to(const uint8_t *bytes, size_t length, uint64_t *numbers, size_t count)
{
    uint8_t *block = malloc(length ? length : 1);
    if (length)
        memcpy(block, bytes, length);
    uint32_t answer = co_read_frame(block, length, numbers, count);
    free(block);
    return answer;
}

static void mark(uint64_t *numbers, size_t count)
{
    for (size_t i = 0; i < count; i++)
        numbers[i] = MARK;
}

static void untouched(const char *what, const uint64_t *numbers, size_t from, size_t to)
{
    for (size_t i = from; i < to; i++)
        expect(what, numbers[i], MARK);
}

static void gives(const char *what, const uint8_t *bytes, size_t length, const uint64_t *wanted)
{
    uint64_t n[20];
    mark(n, 20);
    expect(what, answer_to(bytes, length, n, 20), CO_DONE);
    for (size_t i = 0; i < CO_NUMBERS; i++)
        expect(what, n[i], wanted[i]);
    untouched(what, n, CO_NUMBERS, 20);
}

static void refused(const char *what, const uint8_t *bytes, size_t length)
{
    uint64_t n[18];
    mark(n, 18);
    expect(what, answer_to(bytes, length, n, 18), CO_NO_FRAME);
    untouched(what, n, 0, 18);
}

/* The frame with one byte changed is no frame. */
static void spoilt(const char *what, const uint8_t *bytes, size_t length, size_t at, uint8_t byte)
{
    uint8_t f[128];
    memcpy(f, bytes, length);
    f[at] = byte;
    refused(what, f, length);
}

static void whole_frames(void)
{
    const uint64_t data[] = { 1, 0x01020304, 1, 5, 2, 5, 258, 0, 0, 0, 0, 0, 0, 16, 0, 0, 45, 0 };
    const uint64_t request[] = { 2, 0xffffffff, 3, 0, 3, 7, 8, 9, 0, 0, 0, 0, 0, 0, 2, 0xffffffff, 0, 0 };
    const uint64_t most[] = { 1, 1, 8, 4294967294u, 8, 65536, 65537, 65538, 65539, 65540, 65541, 65542, 65543, 256, 0, 0, 69, 48 };
    uint8_t f[117];
    expect("length of the small data frame", sizeof small, 45);
    expect("length of the request", sizeof asking, 45);
    expect("length of the longest frame", longest(f), 117);
    gives("small data frame", small, sizeof small, data);
    gives("request", asking, sizeof asking, request);
    gives("longest data frame", f, sizeof f, most);
    expect("first byte of the data", f[most[CO_DATA_START]], 200);
    for (size_t length = 0; length < sizeof f; length++)
        refused("a frame cut short", f, length);
}

static void broken_frames(void)
{
    uint8_t f[128];
    memcpy(f, small, sizeof small);
    f[sizeof small] = 0;
    refused("a byte after the frame", f, sizeof small + 1);
    spoilt("edition 2", small, sizeof small, 3, 2);
    spoilt("kind 0", small, sizeof small, 7, 0);
    spoilt("kind 3", small, sizeof small, 7, 3);
    spoilt("a data frame that says request", small, sizeof small, 7, 2);
    spoilt("a request that says data", asking, sizeof asking, 7, 1);
    spoilt("another tag", small, sizeof small, 15, 5);
    spoilt("SEQ 0", small, sizeof small, 25, 0);
    spoilt("ACK 0", small, sizeof small, 32, 0);
    spoilt("a length of 256 more", small, sizeof small, 9, 1);
    spoilt("ACK of 9 bytes", small, sizeof small, 28, 9);
    memcpy(f, asking, sizeof asking);
    memset(f + 41, 0, 4);
    refused("LSEQ 0", f, sizeof asking);
    longest(f);
    f[25] = 255;
    refused("SEQ 4,294,967,295", f, 117);
    memset(f, 0, sizeof f);
    refused("zeros", f, sizeof f);
}

static void outputs(void)
{
    uint64_t n[17];
    mark(n, 17);
    expect("room for 17 numbers", answer_to(small, sizeof small, n, 17), CO_SHORT_OUTPUT);
    untouched("numbers too short", n, 0, 17);
    expect("no frame and no room", answer_to(small, 3, n, 0), CO_NO_FRAME);
    expect("no room at all", co_read_frame(small, sizeof small, NULL, 0), CO_SHORT_OUTPUT);
    expect("NULL with length 0", co_read_frame(NULL, 0, n, 17), CO_NO_FRAME);
    untouched("NULL with length 0", n, 0, 17);
}

static void at_the_edge(void)
{
    uint8_t *end = edge(sizeof small);
    uint64_t *numbers = (uint64_t *)(void *)edge(CO_NUMBERS * sizeof *numbers) - CO_NUMBERS;
    memcpy(end - sizeof small, small, sizeof small);
    expect("a frame at the edge", co_read_frame(end - sizeof small, sizeof small, numbers, CO_NUMBERS), CO_DONE);
    for (size_t length = 0; length < sizeof small; length++) {
        memcpy(end - length, small, length);
        expect("a frame cut at the edge", co_read_frame(end - length, length, numbers, CO_NUMBERS), CO_NO_FRAME);
    }
}

int main(void)
{
    whole_frames();
    broken_frames();
    outputs();
    at_the_edge();
    if (failures == 0)
        printf("frame_c: ok\n");
    return failures != 0;
}
