/* The front end of an MP3 Layer III reader, from the bytes on a card to the whole numbers of each slot, for C and C++.

   Link with libfront_end.a, which `scripts/archive` makes in target/staticlib (x86-64). It needs memcpy and memset and nothing else, allocates
   nothing, keeps nothing between calls, and every call returns for every input. So calls may run in several threads at once, as long as
   each has its own lent memory. What each answer means for a card is in docs/REFUSALS.md.

   A slot is one granule of one channel. The slots of a frame go granule by granule, channel by channel: MPEG-1 has 4 (mono 2), MPEG-2
   and MPEG-2.5 have 2 (mono 1).

   Every call that takes a frame takes it from the first byte of its header on; bytes beyond the frame are ignored.
   Pointers must be valid for the length beside them, not null (where a length is 0, any address will do), and the memory that is lent
   to be written must not overlap any other. That, and only that, is the caller's to see to. */
#ifndef FRONT_END_H
#define FRONT_END_H

#include <stddef.h>
#include <stdint.h>

/* The archive is for x86-64. Who only wants the declarations, as for a check on another machine, says so. */
#if !defined(__x86_64__) && !defined(_M_X64) && !defined(FRONT_END_DECLARATIONS)
#error "libfront_end.a is for x86-64: compile for that machine, or define FRONT_END_DECLARATIONS for the declarations alone"
#endif

#ifdef __cplusplus
extern "C" {
#endif

/* ---- what a caller lends, at least */
#define FRONT_END_RESERVOIR 4096 /* bytes for the bit reservoir */
#define FRONT_END_SLOTS 4        /* slots of a frame, at most */
#define FRONT_END_SLOT 576       /* numbers of a slot */
#define FRONT_END_NUMBERS 2304   /* numbers of a frame's slots: FRONT_END_SLOTS x FRONT_END_SLOT */
#define FRONT_END_ROW 71         /* numbers in a slot's row (front_end_slot) */
#define FRONT_END_ROWS (FRONT_END_SLOTS * FRONT_END_ROW) /* numbers in the rows of a frame */
#define FRONT_END_STACK 16384    /* bytes of stack that a call needs, at most; measured are 5,208 (bindings/c/stack.c) */
#define FRONT_END_FRAME 1441     /* bytes of the longest frame: so many, if the card has them, are always enough */

/* ---- answers: 0 where a call is accepted, else one of these */
enum {
    FRONT_END_ACCEPTED = 0,

    /* the call is refused; nothing that was lent has changed */
    FRONT_END_UNFIT_MEMORY = 1,    /* less memory lent than said above, or a reservoir's length above FRONT_END_RESERVOIR */
    FRONT_END_MADE_UP_RECORD = 14, /* reorder: the frame has no slot of that number */

    /* the frame is refused; nothing that was lent has changed, save by 13 */
    FRONT_END_ABSENT_BYTES = 2,       /* the bytes end within the frame: `offset` tells the first that was needed and absent */
    FRONT_END_NO_SYNC = 3,            /* the first byte is not FF, or the top three bits of the second are not all set */
    FRONT_END_RESERVED_VERSION = 4,   /* version bits 01 */
    FRONT_END_RESERVED_LAYER = 5,     /* layer bits 00 */
    FRONT_END_OTHER_LAYER = 6,        /* Layer I or II */
    FRONT_END_FREE_BITRATE = 7,       /* bitrate field 0 */
    FRONT_END_FORBIDDEN_BITRATE = 8,  /* bitrate field 15 */
    FRONT_END_RESERVED_RATE = 15,     /* sampling field 3 */
    FRONT_END_RESERVED_EMPHASIS = 9,  /* emphasis 2 */
    FRONT_END_WRONG_CRC = 16,         /* the frame has a CRC, and it is not that of the header's last two bytes and the side information */
    FRONT_END_TOO_MANY_PAIRS = 10,    /* big_values above 288 */
    FRONT_END_FORBIDDEN_BLOCK = 11,   /* window switching with block type 0 */
    FRONT_END_MIXED_BLOCK = 12,       /* a mixed short block at 8 kHz, where its bands do not meet */
    FRONT_END_SHORT_RESERVOIR = 13,   /* main_data_begin reaches further back than the reservoir. The frame's main data was added to
                                         the reservoir for the frames after it, and its length and main_data_begin are told */

    /* a slot is refused (in its row): its 576 numbers have not changed */
    FRONT_END_MISSING_BITS = 20,   /* its bits end beyond the main data */
    FRONT_END_FACTOR_OVERRUN = 21, /* its scale factors are longer than it */
    FRONT_END_LOST_SHARE = 22,     /* it shares scale factors with a slot that was refused */
    /* 23 is withdrawn, and not to be used again: regions that run off the end are read */
    FRONT_END_PAIR_OVERRUN = 24,   /* a pair does not end within it, or there are no bits for one that it promises */
    FRONT_END_NO_CODEWORD = 25,    /* the next bits start no codeword; this cannot occur, since every code is complete */

    /* in a row: the frame has no such slot (mono, MPEG-2 or MPEG-2.5) */
    FRONT_END_LACKING = 255
};

/* What is told of a slot, its row: FRONT_END_ROW numbers of 16 bits. Of a slot that was refused, count and factors are 0, and from
   block_type on stands what its record says of the numbers that are lost. Of a slot that the frame lacks, all but `refusal` is 0. A later
   row may have more at its end; FRONT_END_ROW says how long it is. */
typedef struct {
    uint16_t refusal;          /* 0, or 20 to 25, or FRONT_END_LACKING */
    uint16_t count;            /* numbers up to the last that was coded, 0 to 576; those after it are 0 */
    uint16_t long_factors[22]; /* scale factors of a long block; a mixed one has the first 8 in MPEG-1, else 6 */
    uint16_t short_factors[13][3]; /* of a short block: for each band, three windows; a mixed one has those from band 3 on */
    uint16_t block_type;       /* 0 long, 1 start, 2 short, 3 end: without it and mixed_block_flag an index is no frequency */
    uint16_t global_gain;      /* 0 to 255 */
    uint16_t subblock_gain[3]; /* 0 to 7, a window each; 0 where the block is not switched */
    uint16_t scalefac_scale;   /* 0 or 1 */
    uint16_t preflag;          /* 0 or 1; in MPEG-2 and MPEG-2.5 scalefac_compress says it */
    uint16_t mixed_block_flag; /* 1 in a mixed block: of block type 2 the first 36 numbers are then long ones. Start and end blocks are read as without it */
} front_end_slot;

/* The struct has the row's numbers and no others: else this does not compile. */
typedef char front_end_slot_is_a_row[sizeof(front_end_slot) == FRONT_END_ROW * sizeof(uint16_t) ? 1 : -1];

/* What a call answers. */
typedef struct {
    uint8_t refusal; /* 0, or one of the numbers above */
    size_t offset;   /* after 2: of the first byte that was needed and absent, counted from the frame's first; else 0 */
} front_end_told;

/* What a frame answers. */
typedef struct {
    uint8_t refusal;        /* 0, 1, 2 to 13, 15 or 16 */
    size_t offset;          /* as in front_end_told */
    size_t length;          /* bytes of the frame, after 0 and 13; else 0 */
    size_t main_data_begin; /* how many bytes before its own its main data begins, 0 to 511, after 0 and 13; else 0 */
    size_t reservoir;       /* the reservoir's length now: hand it in with the next frame, or front_end_emptied() after a gap */
} front_end_frame_told;

/* What a header says of its frame. Of a refused one, all but `refusal` and `offset` is 0. */
typedef struct {
    uint8_t refusal;  /* 0, 2 to 9, or 15 */
    size_t offset;    /* as in front_end_told */
    size_t length;    /* bytes of the frame: header, side information and main data together */
    size_t header;    /* bytes of the header with the CRC, 4 or 6 */
    size_t side;      /* bytes of the side information, 9, 17 or 32 */
    size_t main;      /* bytes of the main data, 1 to 1,428 */
    size_t granules;  /* 1 or 2 */
    size_t channels;  /* 1 or 2 */
    uint32_t rate;    /* samples a second */
    uint32_t bitrate; /* bits a second */
} front_end_frame_sizes;

/* ---- the calls */

/* One frame. Lent are FRONT_END_RESERVOIR bytes of reservoir, kept from frame to frame, with the length that the last frame answered
   (front_end_emptied() before the first); FRONT_END_NUMBERS numbers; and FRONT_END_SLOTS slots, of which rows_length is the count
   of their 16-bit numbers, FRONT_END_ROWS.
   A gap: after a frame that was refused otherwise than by 13, or where the card was left out, frames before it are not there to reach back
   to. Hand front_end_emptied() in with the next frame, not what was answered: else it may be read from bytes that are not its own, and
   nothing can tell. (card.c shows it.)
   Accepted: slots[n] is told, and the n-th slot's numbers are the 576 from 576 n on, save those of a slot that was refused, which
   stay, as do those past the frame's last slot. Numbers are those before the reorder. */
front_end_frame_told front_end_frame(const uint8_t *frame, size_t frame_length, uint8_t *reservoir, size_t reservoir_size,
                                     size_t reservoir_length, int32_t *numbers, size_t numbers_length, front_end_slot *slots,
                                     size_t rows_length);

/* main_data_begin of a frame that is cut off, of which front_end_frame tells nothing: of a frame whose sizes front_end_sizes told, and of
   which at least two bytes of side information are there. */
static inline size_t front_end_main_data_begin(const uint8_t *frame, const front_end_frame_sizes *sizes) {
    const uint8_t *side = frame + sizes->header;
    return sizes->granules == 2 ? (size_t)side[0] << 1 | side[1] >> 7 : side[0];
}

/* The slots of a frame from given main data of any length: what can still be read where the card has lost some. Of the frame only the
   header and the side information are read.
   The main data must begin where the frame's does, front_end_main_data_begin bytes back: the last so many bytes of the reservoir as it
   was before this frame, and then the frame's own main data, as far as it is there. Where the reservoir holds fewer, do not call: from
   other bytes this reads numbers that were never recorded, and nothing can tell.
   Answers 0, 1, 2 to 12, 15 or 16; numbers and slots as with front_end_frame. A slot whose bits are not all there is refused by 20. */
front_end_told front_end_slots(const uint8_t *frame, size_t frame_length, const uint8_t *main_data, size_t main_data_length, int32_t *numbers,
                               size_t numbers_length, front_end_slot *slots, size_t rows_length);

/* For a gap on the card: the length of a reservoir of which no byte is meant any more, which is 0. */
size_t front_end_emptied(void);

/* The reorder of one slot's FRONT_END_SLOT numbers by the frame's own record of the slot: those of a short block, window by window
   before it, stand frequency by frequency after it, in a mixed block those from the 37th on; any other slot's stay. Numbers past the 576 stay. Answers 0, 1, 14, 2 to 12, 15 or 16.
   Not for a slot that was refused: its numbers are not of this frame. */
front_end_told front_end_reorder(const uint8_t *frame, size_t frame_length, size_t slot, int32_t *numbers, size_t numbers_length);

/* What follows from a frame's header: 4 bytes are enough, 6 where it has a CRC. */
front_end_frame_sizes front_end_sizes(const uint8_t *frame, size_t frame_length);

#ifdef __cplusplus
}
#endif

#endif
