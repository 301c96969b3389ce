/*
 * Prints what a frame says.
 *
 *     gcc -Iinclude examples/read_frame.c -Ltarget/staticlib -lframe -o read_frame
 *     ./read_frame 010001010200010203000400000007040001...
 */
#include <inttypes.h>
#include <stdio.h>
#include <string.h>

#include "co_frame.h"

/* The bytes that hex digits say, at most `room` of them; -1 where the text is no such list. */
static int bytes_of(const char *hex, uint8_t *bytes, size_t room)
{
    size_t digits = strlen(hex);
    if (digits % 2 != 0 || digits / 2 > room)
        return -1;
    for (size_t i = 0; i < digits / 2; i++) {
        unsigned byte;
        int used = 0;
        if (sscanf(hex + 2 * i, "%2x%n", &byte, &used) != 1 || used != 2)
            return -1;
        bytes[i] = (uint8_t)byte;
    }
    return (int)(digits / 2);
}

static void print_text(const uint8_t *frame, const uint64_t *n)
{
    printf("data ");
    for (uint64_t i = 0; i < n[CO_DATA_LENGTH]; i++)
        printf("%02x", frame[n[CO_DATA_START] + i]);
    printf("\n");
}

int main(int argc, char **argv)
{
    uint8_t frame[256];
    uint64_t n[CO_NUMBERS];
    int length = argc == 2 ? bytes_of(argv[1], frame, sizeof frame) : -1;
    if (length < 0) {
        fprintf(stderr, "usage: read_frame HEX, at most %zu bytes\n", sizeof frame);
        return 2;
    }
    uint32_t answer = co_read_frame(frame, (size_t)length, n, CO_NUMBERS);
    if (answer != CO_DONE) {
        printf("refused %" PRIu32 "\n", answer);
        return 1;
    }
    printf("%s CID %" PRIu64 " SRC %" PRIu64 "\n", n[CO_KIND] == CO_DATA ? "data frame" : "request", n[CO_CID], n[CO_SRC]);
    printf("ACK");
    for (uint64_t k = 0; k < n[CO_COUNT]; k++)
        printf(" %" PRIu64, n[CO_ACK + k]);
    printf("\n");
    if (n[CO_KIND] == CO_DATA) {
        printf("SEQ %" PRIu64 " BUF %" PRIu64 "\n", n[CO_SEQ], n[CO_BUF]);
        print_text(frame, n);
    } else {
        printf("LSRC %" PRIu64 " LSEQ %" PRIu64 "\n", n[CO_LSRC], n[CO_LSEQ]);
    }
    return 0;
}
