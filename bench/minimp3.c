/* minimp3, as dr_mp3.h: its own functions up to the slots' numbers, in the order of drmp3dec_decode_frame. They scale each number by its
   factor as they read it; stereo, reorder, transform and synthesis are left out. */
#include "card.h"
#include <stdlib.h>
#include <string.h>
#define DR_MP3_IMPLEMENTATION
#define DR_MP3_NO_STDIO
#include "dr_mp3.h"

static drmp3dec decoder;
uint32_t seen;

void begin(void) {
    memset(&decoder, 0, sizeof decoder);
}

size_t step(const uint8_t *frame, size_t n) {
    drmp3_bs bits[1];
    drmp3dec_scratch scratch;
    if (n < DRMP3_HDR_SIZE || !drmp3_hdr_valid(frame)) return 0;
    int length = drmp3_hdr_frame_bytes(frame, 0) + drmp3_hdr_padding(frame);
    if ((size_t)length > n) return 0;
    memcpy(decoder.header, frame, DRMP3_HDR_SIZE);
    drmp3_bs_init(bits, frame + DRMP3_HDR_SIZE, length - DRMP3_HDR_SIZE);
    if (DRMP3_HDR_IS_CRC(frame)) drmp3_bs_get_bits(bits, 16);
    int reach = drmp3_L3_read_side_info(bits, scratch.gr_info, frame);
    if (reach < 0 || bits->pos > bits->limit) return 0;
    if (!drmp3_L3_restore_reservoir(&decoder, bits, &scratch, reach)) return 0;
    int channels = DRMP3_HDR_IS_MONO(frame) ? 1 : 2;
    for (int g = 0; g < (DRMP3_HDR_TEST_MPEG1(frame) ? 2 : 1); g++) {
        memset(scratch.grbuf[0], 0, 576 * 2 * sizeof(float));
        drmp3_L3_gr_info *of = scratch.gr_info + g * channels;
        for (int c = 0; c < channels; c++) {
            int limit = scratch.bs.pos + of[c].part_23_length;
            drmp3_L3_decode_scalefactors(decoder.header, scratch.ist_pos[c], &scratch.bs, of + c, scratch.scf, c);
            drmp3_L3_huffman(scratch.grbuf[c], &scratch.bs, of + c, scratch.scf, limit);
        }
        seen = seen * 31 + (uint32_t)(int32_t)scratch.grbuf[0][0];
    }
    drmp3_L3_save_reservoir(&decoder, &scratch);
    return (size_t)length;
}
