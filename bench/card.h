/* What a reader gives to the benchmark's loop (card.c): a start with nothing before the first frame, and one frame's step. */
#include <stddef.h>
#include <stdint.h>

void begin(void);

/* Reads the frame that starts at the first of n bytes. Answers its length, or 0 where it was refused. */
size_t step(const uint8_t *frame, size_t n);

/* Something that depends on what was read, so that no work can be left out. */
extern uint32_t seen;
