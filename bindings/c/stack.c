/* Measures the stack that each call needs: on a painted stack, over the frames of a card from standard input, whole and cut. Prints the most, in bytes. */
#include "front_end.h"
#include <pthread.h>
#include <stdio.h>
#include <string.h>

enum { STACK = 1 << 20, PAINT = 0xA5 };
static uint8_t stack[STACK] __attribute__((aligned(4096)));
static uint8_t card[1 << 20], reservoir[FRONT_END_RESERVOIR];
static int32_t numbers[FRONT_END_NUMBERS];
static front_end_slot slots[FRONT_END_SLOTS];
static size_t size;

static void *nothing(void *p) { return p; }

static void *frames(void *p) {
    size_t kept = front_end_emptied();
    for (size_t at = 0; at < size;) {
        front_end_frame_told told = front_end_frame(card + at, size - at, reservoir, sizeof reservoir, kept, numbers, FRONT_END_NUMBERS, slots, FRONT_END_ROWS);
        kept = told.length ? told.reservoir : front_end_emptied();
        at += told.length ? told.length : 1;
    }
    return p;
}

static void *cut(void *p) {
    for (size_t at = 0; at + 40 < size; at += 24) {
        front_end_slots(card + at, size - at, card + at + 36, size - at - 36, numbers, FRONT_END_NUMBERS, slots, FRONT_END_ROWS);
    }
    return p;
}

static void *reorder(void *p) {
    for (size_t at = 0; at < size; at += 24) front_end_reorder(card + at, size - at, 0, numbers, FRONT_END_NUMBERS);
    return p;
}

/* How many bytes of the stack a thread has changed. */
static size_t used(void *(*call)(void *)) {
    pthread_t thread;
    pthread_attr_t attr;
    memset(stack, PAINT, sizeof stack);
    pthread_attr_init(&attr);
    pthread_attr_setstack(&attr, stack, sizeof stack);
    if (pthread_create(&thread, &attr, call, NULL) || pthread_join(thread, NULL)) return 0;
    size_t low = 0;
    while (low < sizeof stack && stack[low] == PAINT) low++;
    return sizeof stack - low;
}

int main(void) {
    size = fread(card, 1, sizeof card, stdin);
    size_t base = used(nothing);
    printf("front_end_frame %zu\n", used(frames) - base);
    printf("front_end_slots %zu\n", used(cut) - base);
    printf("front_end_reorder %zu\n", used(reorder) - base);
    return 0;
}
