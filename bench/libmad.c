/* libmad 0.15.1b, without Debian's patches: its own functions, unchanged, up to the slots' numbers, in the order of mad_layer_III and
   III_decode; the CRC is checked, as there. III_huffdecode turns each number into a fixed-point one, scaled by its factor, as it reads it;
   unchanged, it cannot be taken apart, so that work is counted too. The reservoir is ours, since its own stands amid mad_layer_III. Stereo,
   reorder, transform and synthesis are left out. */
#include "card.h"
#include "layer3.c"

enum { REACH = 511, LONGEST = 1441 }; /* bytes that main_data_begin reaches back, and of a frame, at most */
static const unsigned rates[] = { 48000, 44100, 32000, 24000, 22050, 16000, 12000, 11025, 8000 }; /* in the order of sfbwidth_table */
static struct mad_stream stream;
static struct mad_header header;
static uint8_t reservoir[REACH + LONGEST + MAD_BUFFER_GUARD];
static size_t kept;
uint32_t seen;

void begin(void) {
    mad_stream_init(&stream);
    mad_header_init(&header);
    kept = 0;
}

size_t step(const uint8_t *frame, size_t n) {
    struct sideinfo side;
    struct mad_bitptr at;
    unsigned bits, private_bits, rate = 0;
    mad_fixed_t numbers[2][576];
    /* It wants some bytes after the last frame. It does not read them here, and card.c's buffer goes on after the file. */
    mad_stream_buffer(&stream, frame, n + MAD_BUFFER_GUARD);
    if (mad_header_decode(&header, &stream) || header.layer != MAD_LAYER_III || header.flags & MAD_FLAG_FREEFORMAT) return 0;
    unsigned channels = MAD_NCHANNELS(&header);
    int lsf = header.flags & MAD_FLAG_LSF_EXT;
    int side_bytes = lsf ? (channels == 1 ? 9 : 17) : channels == 1 ? 17 : 32;
    if (stream.next_frame - mad_bit_nextbyte(&stream.ptr) < side_bytes) return 0;
    if (header.flags & MAD_FLAG_PROTECTION && mad_bit_crc(stream.ptr, side_bytes * 8, header.crc_check) != header.crc_target) return 0;
    if (III_sideinfo(&stream.ptr, channels, lsf, &side, &bits, &private_bits)) return 0;

    const uint8_t *main_data = mad_bit_nextbyte(&stream.ptr);
    size_t length = stream.next_frame - main_data;
    if (side.main_data_begin > kept || bits > 8 * (side.main_data_begin + length)) return 0;
    memcpy(reservoir + kept, main_data, length);
    mad_bit_init(&at, reservoir + kept - side.main_data_begin);
    while (rates[rate] != header.samplerate) rate++;
    for (unsigned g = 0; g < (lsf ? 1 : 2); g++) {
        for (unsigned c = 0; c < channels; c++) {
            struct channel *of = &side.gr[g].ch[c];
            const unsigned char *widths = of->block_type != 2 ? sfbwidth_table[rate].l :
                of->flags & mixed_block_flag ? sfbwidth_table[rate].m : sfbwidth_table[rate].s;
            unsigned factor_bits = lsf ? III_scalefactors_lsf(&at, of, c ? &side.gr[1].ch[1] : 0, header.mode_extension)
                                       : III_scalefactors(&at, of, &side.gr[0].ch[c], g ? side.scfsi[c] : 0);
            if (III_huffdecode(&at, numbers[c], of, widths, factor_bits)) return 0;
        }
        seen = seen * 31 + (uint32_t)numbers[0][0];
    }
    kept += length;
    if (kept > REACH) {
        memmove(reservoir, reservoir + kept - REACH, REACH);
        kept = REACH;
    }
    return stream.next_frame - frame;
}
