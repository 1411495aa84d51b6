/* Reads a card from standard input, of any length, and prints its frames and slots, or by which number each was refused. After damage it
   looks for the next frame, and says from where to where nothing was read. */
#include "front_end.h"
#include <stdio.h>
#include <string.h>

/* The bytes at hand: a part of the card that always holds a whole frame, if the card does. */
static uint8_t window[4 * FRONT_END_FRAME];
static size_t begin, end;

static uint8_t reservoir[FRONT_END_RESERVOIR];
static int32_t numbers[FRONT_END_NUMBERS];
static front_end_slot slots[FRONT_END_SLOTS];

/* Moves what is left to the front and reads on. Answers 0 where reading failed. */
static int fill(void) {
    memmove(window, window + begin, end - begin);
    end -= begin;
    begin = 0;
    end += fread(window + end, 1, sizeof window - end, stdin);
    return !ferror(stdin);
}

static const char *name_of(unsigned refusal) {
    switch (refusal) {
    case FRONT_END_UNFIT_MEMORY: return "unfit memory";
    case FRONT_END_MADE_UP_RECORD: return "no such slot";
    case FRONT_END_ABSENT_BYTES: return "bytes are absent";
    case FRONT_END_NO_SYNC: return "no synchronisation";
    case FRONT_END_RESERVED_VERSION: return "reserved version";
    case FRONT_END_RESERVED_LAYER: return "reserved layer";
    case FRONT_END_OTHER_LAYER: return "Layer I or II";
    case FRONT_END_FREE_BITRATE: return "free bitrate";
    case FRONT_END_FORBIDDEN_BITRATE: return "forbidden bitrate";
    case FRONT_END_RESERVED_RATE: return "reserved rate";
    case FRONT_END_RESERVED_EMPHASIS: return "reserved emphasis";
    case FRONT_END_WRONG_CRC: return "the CRC does not fit";
    case FRONT_END_TOO_MANY_PAIRS: return "too many pairs";
    case FRONT_END_FORBIDDEN_BLOCK: return "forbidden block";
    case FRONT_END_MIXED_BLOCK: return "mixed short block at 8 kHz";
    case FRONT_END_SHORT_RESERVOIR: return "reaches too far back";
    case FRONT_END_MISSING_BITS: return "bits are missing";
    case FRONT_END_FACTOR_OVERRUN: return "factors too long";
    case FRONT_END_LOST_SHARE: return "shares with a lost slot";
    case FRONT_END_PAIR_OVERRUN: return "a pair does not end";
    case FRONT_END_NO_CODEWORD: return "no codeword";
    default: return "unknown";
    }
}

/* A slot's line; the numbers of a short block are reordered first. Its block type says what an index means: of a short block, after the
   reorder, three windows stand side by side; of a mixed one from the 37th number on. */
static void print_slot(const uint8_t *frame, size_t n, size_t slot) {
    const front_end_slot *told = &slots[slot];
    int32_t *own = numbers + slot * FRONT_END_SLOT;
    if (told->refusal == FRONT_END_LACKING) return;
    printf("  slot %zu ", slot);
    if (told->refusal) {
        printf("refused %u: %s\n", told->refusal, name_of(told->refusal));
        return;
    }
    front_end_reorder(frame, n, slot, own, FRONT_END_SLOT);
    printf("block %u%s gain %u count %u:", told->block_type, told->mixed_block_flag ? " mixed" : "", told->global_gain, told->count);
    for (int i = 0; i < FRONT_END_SLOT; i++) {
        if (own[i]) printf(" %d:%ld", i, (long)own[i]);
    }
    putchar('\n');
}

static void print_slots(const uint8_t *frame, size_t n) {
    for (size_t slot = 0; slot < FRONT_END_SLOTS; slot++) print_slot(frame, n, slot);
}

static void print_reach(size_t back, size_t held) { printf("it reaches back %zu bytes, and %zu are held\n", back, held); }

/* What a frame that the card cuts off still holds: its main data begins main_data_begin bytes back, among the `kept` bytes of the
   reservoir. Where those are not there, its slots are not known. Such a frame is refused by 2, which tells nothing of it, so that
   main_data_begin is taken from its bytes. */
static void print_cut(const uint8_t *frame, size_t n, size_t kept) {
    static uint8_t main_data[FRONT_END_RESERVOIR];
    front_end_frame_sizes sizes = front_end_sizes(frame, n);
    size_t before = sizes.header + sizes.side;
    if (sizes.refusal || n <= before) return;
    size_t back = front_end_main_data_begin(frame, &sizes), own = n - before;
    if (own > sizes.main) own = sizes.main;
    if (back > kept) {
        print_reach(back, kept);
        return;
    }
    memcpy(main_data, reservoir + kept - back, back);
    memcpy(main_data + back, frame + before, own);
    if (front_end_slots(frame, n, main_data, back + own, numbers, FRONT_END_NUMBERS, slots, FRONT_END_ROWS).refusal) return;
    printf("from the %zu of its %zu bytes of main data that are there:\n", own, sizes.main);
    print_slots(frame, n);
}

int main(void) {
    size_t kept = front_end_emptied(), place = 0, frames = 0, lost = 0;
    for (;;) {
        if (end - begin < FRONT_END_FRAME && !fill()) {
            fprintf(stderr, "reading failed\n");
            return 1;
        }
        const uint8_t *frame = window + begin;
        size_t n = end - begin;
        if (!n) break;
        front_end_frame_told told = front_end_frame(frame, n, reservoir, sizeof reservoir, kept, numbers, FRONT_END_NUMBERS, slots, FRONT_END_ROWS);
        size_t taken = told.length ? told.length : 1;
        if (told.length) {
            if (lost) printf("nothing was read from byte %zu to byte %zu\n", place - lost, place);
            lost = 0;
            printf("frame %zu at byte %zu length %zu", ++frames, place, told.length);
            if (told.refusal) printf(" refused %u: %s", told.refusal, name_of(told.refusal));
            putchar('\n');
            if (told.refusal) print_reach(told.main_data_begin, kept);
            else print_slots(frame, n);
        } else {
            if (!lost) {
                printf("byte %zu refused %u: %s", place, told.refusal, name_of(told.refusal));
                if (told.refusal == FRONT_END_ABSENT_BYTES) printf(", the first at byte %zu", place + told.offset);
                putchar('\n');
                if (told.refusal == FRONT_END_ABSENT_BYTES) print_cut(frame, n, kept);
            }
            lost++;
        }
        /* after a gap the frames before it are not there to reach back to */
        kept = told.length ? told.reservoir : front_end_emptied();
        begin += taken;
        place += taken;
    }
    if (lost) printf("nothing was read from byte %zu to byte %zu\n", place - lost, place);
    printf("end %zu\n", frames);
    return 0;
}
