/*
 * Reads frames from standard input, each after its length in two bytes, high byte first. For each frame, and each room
 * for numbers, writes what co_read_frame answers in four bytes and the lent numbers in eight each, as they lie here.
 * Frame and numbers end where a page begins that cannot be touched.
 */
#define _DEFAULT_SOURCE
#include <stdio.h>
#include <string.h>

#include "co_frame.h"
#include "lib/edge.h"

enum { LONGEST = 65535, MOST_NUMBERS = 20 };

static const size_t rooms[] = { 17, 18, MOST_NUMBERS };

static void answer(const uint8_t *frame, size_t length, uint64_t *numbers, size_t room)
{
    memset(numbers, 0xa5, room * sizeof *numbers);
    uint32_t answer = co_read_frame(frame, length, numbers, room);
    fwrite(&answer, sizeof answer, 1, stdout);
    fwrite(numbers, sizeof *numbers, room, stdout);
}

int main(void)
{
    uint8_t *frames_end = edge(LONGEST);
    uint64_t *numbers_end = (uint64_t *)(void *)edge(MOST_NUMBERS * sizeof(uint64_t));
    uint8_t head[2];
    while (fread(head, 1, 2, stdin) == 2) {
        size_t length = (size_t)head[0] << 8 | head[1];
        uint8_t *frame = frames_end - length;
        if (fread(frame, 1, length, stdin) != length) {
            fprintf(stderr, "read_frames: a frame is cut short\n");
            return 1;
        }
        for (size_t i = 0; i < sizeof rooms / sizeof *rooms; i++)
            answer(frame, length, numbers_end - rooms[i], rooms[i]);
    }
    return ferror(stdout) || fflush(stdout);
}
