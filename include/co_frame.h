/*
 * Reading frames of the CO protocol.
 *
 * Link with libframe.a (`./archive` writes it to target/staticlib/). The function needs no runtime, keeps no
 * state, allocates nothing and can be called from any thread.
 */
#ifndef CO_FRAME_H
#define CO_FRAME_H

#include <stddef.h>
#include <stdint.h>

#ifdef __cplusplus
extern "C" {
#endif

/* The answer numbers of the protocol. co_read_frame gives CO_DONE, CO_NO_FRAME and CO_SHORT_OUTPUT. */
enum {
    CO_DONE = 0,
    CO_NOT_SOUND = 1,       /* the unit is closed or not sound */
    CO_OPENING = 2,         /* opening outside the ranges */
    CO_NO_FRAME = 3,        /* not a frame */
    CO_OTHER_GROUP = 4,     /* CID differs */
    CO_NO_UNIT = 5,         /* wrong count of ACK, a sender or unit that is not one of the group, or a request for oneself */
    CO_OWN_FRAME = 6,       /* SRC is this unit */
    CO_OUT_OF_RANGE = 7,    /* a number that cannot be: of ACK, BUF or LSEQ */
    CO_OLD = 8,             /* the number was accepted before */
    CO_GAP = 9,             /* an earlier number of the sender is missing */
    CO_EARLY = 10,          /* a message that it names is missing */
    CO_BACKWARD = 11,       /* an ACK below one heard before */
    CO_NO_PLACE = 12,       /* the sender has no free place */
    CO_LONG_DATA = 13,      /* data over 48 bytes */
    CO_LAST_NUMBER = 14,    /* no number is left to send */
    CO_WINDOW_SHUT = 15,
    CO_SHORT_OUTPUT = 16,   /* the lent output is too short */
    CO_FOR_OTHER_UNIT = 17, /* request for another unit */
    CO_NOTHING = 18         /* nothing missing, nothing to resend, number not kept, nothing to take */
};

/* The places of the numbers that co_read_frame hands out; ACK of unit k, from 1, stands at CO_ACK + k - 1. */
enum {
    CO_KIND = 0, /* CO_DATA or CO_REQUEST */
    CO_CID = 1,
    CO_SRC = 2,
    CO_SEQ = 3, /* 0 in a request */
    CO_COUNT = 4, /* of ACK numbers: 2 to 8 */
    CO_ACK = 5,  /* to 12; 0 past the count */
    CO_BUF = 13, /* 0 in a request */
    CO_LSRC = 14, /* 0 in a data frame */
    CO_LSEQ = 15, /* 0 in a data frame */
    CO_DATA_START = 16, /* 0 in a request */
    CO_DATA_LENGTH = 17, /* 0 to 48; 0 in a request */
    CO_NUMBERS = 18
};

enum { CO_DATA = 1, CO_REQUEST = 2 };

/*
 * Reads the frame_len bytes at frame as one whole frame.
 *
 * CO_DONE: numbers[0] to numbers[17] are set as above; those from numbers[18] on stay as they were. The data of a data
 *     frame are the numbers[CO_DATA_LENGTH] bytes from frame + numbers[CO_DATA_START] on.
 * CO_NO_FRAME: the bytes are no frame.
 * CO_SHORT_OUTPUT: they are one, and numbers_len is below CO_NUMBERS.
 * With a refusal no number is changed.
 *
 * frame may be NULL where frame_len is 0, and numbers where numbers_len is 0. The two must not overlap.
 */
uint32_t co_read_frame(const uint8_t *frame, size_t frame_len, uint64_t *numbers, size_t numbers_len);

#ifdef __cplusplus
}
#endif

#endif
