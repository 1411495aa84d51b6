/* Reads a stream from its first frame to its last, so many times over: PROGRAM FILE PASSES. Prints the frames of one pass. */
#include "card.h"
#include <stdio.h>
#include <stdlib.h>

static uint8_t bytes[4 << 20];

int main(int argc, char **argv) {
    if (argc != 3) return 2;
    FILE *f = fopen(argv[1], "rb");
    if (!f) return 2;
    size_t n = fread(bytes, 1, sizeof bytes, f);
    unsigned frames = 0;
    for (int pass = atoi(argv[2]); pass > 0; pass--) {
        begin();
        frames = 0;
        for (size_t at = 0; at < n; frames++) {
            size_t length = step(bytes + at, n - at);
            if (!length) {
                fprintf(stderr, "frame %u refused\n", frames + 1);
                return 1;
            }
            at += length;
        }
    }
    printf("%u %u\n", frames, (unsigned)seen);
    return 0;
}
