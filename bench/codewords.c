/* Counts a stream's codewords, by which bench/run divides; it is not counted itself. A codeword is here what stands for one pair of the big
   values or for one quad after them, with its signs and, in a pair, its linbits; a pair of table 0, which takes no bits, is one too. The
   pairs are big_values of the side information, the quads are the numbers after the pairs, by four. card.c prints frames and codewords. */
#include "card.h"
#include "../bindings/c/front_end.h"

static uint8_t reservoir[FRONT_END_RESERVOIR];
static int32_t numbers[FRONT_END_NUMBERS];
static front_end_slot slots[FRONT_END_SLOTS];
static size_t kept;
uint32_t seen;

void begin(void) {
    kept = front_end_emptied();
    seen = 0;
}

static unsigned bits(const uint8_t *bytes, size_t from, unsigned length) {
    unsigned value = 0;
    for (; length--; from++) value = value << 1 | (bytes[from / 8] >> (7 - from % 8) & 1);
    return value;
}

size_t step(const uint8_t *frame, size_t n) {
    front_end_frame_told told = front_end_frame(frame, n, reservoir, sizeof reservoir, kept, numbers, FRONT_END_NUMBERS, slots, FRONT_END_ROWS);
    kept = told.reservoir;
    if (told.refusal) return 0;
    front_end_frame_sizes of = front_end_sizes(frame, n);
    /* The records follow main_data_begin, the private bits and, in MPEG-1, scfsi; big_values is 9 bits, after 12 of part2_3_length. */
    size_t at = of.granules == 2 ? (of.channels == 2 ? 9 + 3 + 8 : 9 + 5 + 4) : of.channels == 2 ? 8 + 2 : 8 + 1;
    for (size_t s = 0; s < of.granules * of.channels; s++, at += of.granules == 2 ? 59 : 63) {
        unsigned pairs = bits(frame + of.header, at + 12, 9);
        if (slots[s].refusal || slots[s].count < 2 * pairs) return 0;
        seen += pairs + (slots[s].count - 2 * pairs + 3) / 4;
    }
    return told.length;
}
