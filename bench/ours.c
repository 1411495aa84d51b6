/* Ours: the whole frame step through the exported call, with the slots' factors, counts and numbers. */
#include "card.h"
#include "../bindings/c/front_end.h"

static uint8_t reservoir[FRONT_END_RESERVOIR];
static int32_t numbers[FRONT_END_NUMBERS];
static front_end_slot slots[FRONT_END_SLOTS];
static size_t kept;
uint32_t seen;

void begin(void) {
    kept = front_end_emptied();
}

size_t step(const uint8_t *frame, size_t n) {
    front_end_frame_told told = front_end_frame(frame, n, reservoir, sizeof reservoir, kept, numbers, FRONT_END_NUMBERS, slots, FRONT_END_ROWS);
    kept = told.reservoir;
    seen = seen * 31 + (uint32_t)numbers[0] + slots[0].count;
    return told.refusal ? 0 : told.length;
}
