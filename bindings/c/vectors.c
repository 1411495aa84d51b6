/* Makes the calls of vectors.txt, read from standard input, and prints each line with what was answered. */
#include "front_end.h"
#include <stdio.h>
#include <stdlib.h>
#include <string.h>

#define LINE 8192

static uint8_t reservoir[FRONT_END_RESERVOIR];
static size_t kept;
static int32_t numbers[FRONT_END_NUMBERS];
static front_end_slot slots[FRONT_END_SLOTS];

/* Bytes of two digits each; - for none. */
static size_t bytes_of(const char *word, uint8_t *to) {
    size_t n = 0;
    unsigned byte;
    while (word[2 * n] && word[2 * n] != '-' && sscanf(word + 2 * n, "%2x", &byte) == 1) to[n++] = (uint8_t)byte;
    return n;
}

static void lend(void) {
    for (int i = 0; i < FRONT_END_NUMBERS; i++) numbers[i] = 7;
    memset(slots, 0x77, sizeof slots);
}

static void print_slot(const front_end_slot *slot) {
    printf(" %u %u %u %u %u %u %u %u %u %u", slot->refusal, slot->count, slot->block_type, slot->global_gain, slot->subblock_gain[0],
           slot->subblock_gain[1], slot->subblock_gain[2], slot->scalefac_scale, slot->preflag, slot->mixed_block_flag);
    for (int i = 0; i < slot->count; i++) printf(" %ld", (long)numbers[i]);
}

static void frame_call(void) {
    uint8_t frame[LINE];
    size_t n = bytes_of(strtok(NULL, " "), frame);
    lend();
    front_end_frame_told told = front_end_frame(frame, n, reservoir, sizeof reservoir, kept, numbers, FRONT_END_NUMBERS, slots, FRONT_END_ROWS);
    kept = told.reservoir;
    printf(" %u %zu %zu %zu %zu", told.refusal, told.offset, told.length, told.main_data_begin, told.reservoir);
    if (!told.refusal) print_slot(slots);
}

static void slots_call(void) {
    uint8_t frame[LINE], data[LINE];
    size_t n = bytes_of(strtok(NULL, " "), frame), m = bytes_of(strtok(NULL, " "), data);
    lend();
    front_end_told told = front_end_slots(frame, n, data, m, numbers, FRONT_END_NUMBERS, slots, FRONT_END_ROWS);
    printf(" %u %zu", told.refusal, told.offset);
    if (!told.refusal) print_slot(slots);
}

static void reorder_call(void) {
    uint8_t frame[LINE];
    size_t n = bytes_of(strtok(NULL, " "), frame), slot = strtoul(strtok(NULL, " "), NULL, 10), m = strtoul(strtok(NULL, " "), NULL, 10);
    lend();
    for (size_t i = 0; i < m; i++) numbers[i] = (int32_t)strtol(strtok(NULL, " "), NULL, 10);
    front_end_told told = front_end_reorder(frame, n, slot, numbers, FRONT_END_SLOT);
    printf(" %u %zu", told.refusal, told.offset);
    for (size_t i = 0; i < m; i++) printf(" %ld", (long)numbers[i]);
}

static void sizes_call(void) {
    uint8_t frame[LINE];
    size_t n = bytes_of(strtok(NULL, " "), frame);
    front_end_frame_sizes s = front_end_sizes(frame, n);
    printf(" %u %zu %zu %zu %zu %zu %zu %zu %lu %lu", s.refusal, s.offset, s.length, s.header, s.side, s.main, s.granules, s.channels, (unsigned long)s.rate,
           (unsigned long)s.bitrate);
}

/* Memory of these sizes: one call on copies, and whether they have changed. */
static void lent_call(void) {
    static uint8_t bytes[FRONT_END_RESERVOIR], bytes_before[FRONT_END_RESERVOIR];
    static int32_t numbers_before[FRONT_END_NUMBERS];
    static front_end_slot slots_before[FRONT_END_SLOTS];
    uint8_t frame[LINE];
    size_t size[4];
    for (int i = 0; i < 4; i++) size[i] = strtoul(strtok(NULL, " "), NULL, 10);
    size_t n = bytes_of(strtok(NULL, " "), frame);
    lend();
    memset(bytes, 0x55, sizeof bytes);
    memcpy(bytes_before, bytes, sizeof bytes);
    memcpy(numbers_before, numbers, sizeof numbers);
    memcpy(slots_before, slots, sizeof slots);
    front_end_frame_told told = front_end_frame(frame, n, bytes, size[0], size[1], numbers, size[2], slots, size[3]);
    int same = !memcmp(bytes_before, bytes, sizeof bytes) && !memcmp(numbers_before, numbers, sizeof numbers) && !memcmp(slots_before, slots, sizeof slots);
    printf(" %u %zu %zu %zu %zu %s", told.refusal, told.offset, told.length, told.main_data_begin, told.reservoir, same ? "same" : "changed");
}

int main(void) {
    static char line[LINE];
    while (fgets(line, sizeof line, stdin)) {
        line[strcspn(line, "\n")] = 0;
        char *answers = strstr(line, " =");
        if (line[0] == '#' || !strcmp(line, "empty")) {
            puts(line);
            if (line[0] != '#') kept = front_end_emptied();
            continue;
        }
        if (!answers) return 2;
        *answers = 0;
        printf("%s =", line);
        char *call = strtok(line, " ");
        if (!strcmp(call, "frame")) frame_call();
        else if (!strcmp(call, "slots")) slots_call();
        else if (!strcmp(call, "reorder")) reorder_call();
        else if (!strcmp(call, "sizes")) sizes_call();
        else if (!strcmp(call, "lent")) lent_call();
        else return 2;
        putchar('\n');
    }
    return 0;
}
