/* mpg123 1.31.2, its generic decoder with float: its own functions, unchanged, up to the slots' numbers, in the order of read_frame and
   do_layer3, with its own reservoir (set_pointer). III_dequantize_sample turns each number into a float, scaled by its factor, as it reads
   it, and puts it where the reorder would; unchanged, it cannot be taken apart, so that work is counted too. Stereo, transform and
   synthesis are left out. */
#include "card.h"
#include "parse.c"
#include "layer3.c"

static mpg123_handle handle;
uint32_t seen;

void begin(void) {
    if (!handle.down_sample_sblimit) { /* once, so not counted: its tables, and that a free bitrate is refused */
        handle.down_sample_sblimit = SBLIMIT;
        handle.p.flags = MPG123_NO_READAHEAD;
        handle.freeformat_framesize = -1;
        init_layer3_stuff(&handle, init_layer3_gainpow2);
    }
    handle.framesize = handle.bitreservoir = handle.bsnum = 0;
    handle.bsbuf = handle.bsspace[1];
}

size_t step(const uint8_t *frame, size_t n) {
    mpg123_handle *fr = &handle;
    struct III_sideinfo side;
    int factors[2][39], guesses = 0;
    real numbers[2][SBLIMIT][SSLIMIT];
    if (n < 4) return 0;
    unsigned long head = (unsigned long)frame[0] << 24 | frame[1] << 16 | frame[2] << 8 | frame[3];
    fr->fsizeold = fr->framesize;
    if (!head_check(head) || decode_header(fr, head, &guesses) != PARSE_GOOD) return 0;
    if ((size_t)fr->framesize + 4 > n) return 0;
    fr->bsbufold = fr->bsbuf;
    fr->bsbuf = fr->bsspace[fr->bsnum] + 512;
    fr->bsnum ^= 1;
    memcpy(fr->bsbuf, frame + 4, fr->framesize);
    set_pointer(fr, 0, 0);
    if (fr->error_protection) getbits(fr, 16);

    int joint = fr->mode == MPG_MD_JOINT_STEREO ? fr->mode_ext : 0, rate = fr->sampling_frequency;
    if (III_get_side_info(fr, &side, fr->stereo, joint >> 1, rate, SINGLE_STEREO)) return 0;
    set_pointer(fr, 1, side.main_data_begin);
    for (int g = 0; g < (fr->lsf ? 1 : 2); g++) {
        for (int c = 0; c < fr->stereo; c++) {
            struct gr_info_s *of = &side.ch[c].gr[g];
            if ((long)of->part2_3_length > fr->bits_avail) return 0;
            int factor_bits = fr->lsf ? III_get_scale_factors_2(fr, factors[c], of, c & joint) : III_get_scale_factors_1(fr, factors[c], of, c, g);
            if (factor_bits < 0 || III_dequantize_sample(fr, numbers[c], factors[c], of, rate, factor_bits) || fr->bits_avail < 0) return 0;
        }
        seen = seen * 31 + (uint32_t)(int32_t)(numbers[0][0][0] * 32768);
    }
    return fr->framesize + 4;
}
