// How many bytes have each upper half. The memory is searched by content: each of the 16 values is compared with all bytes of
// eight registers at once, and the matches are counted.
#include "example.h"

enum { COUNT = 1500, BINS = 16, BIN_SHIFT = 4 };

static uint8_t bytes[COUNT];
static uint32_t counts[BINS], expected[BINS];

static void histogram(size_t count, const uint8_t *bytes) {
    for (size_t vl; count > 0; count -= vl, bytes += vl) {
        vl = vsetvl_e8m8(count);
        vuint8m8_t halves = vsrl_vx_u8m8(vle8_v_u8m8(bytes, vl), BIN_SHIFT, vl);
        for (int bin = 0; bin < BINS; bin++)
            counts[bin] += vcpop_m_b1(vmseq_vx_u8m8_b1(halves, bin, vl), vl);
    }
}

int main(void) {
    uint32_t state = 4;
    for (int i = 0; i < COUNT; i++) {
        bytes[i] = (uint8_t)(next_number(&state) & next_number(&state));
        expected[bytes[i] >> BIN_SHIFT]++;
    }
    histogram(COUNT, bytes);
    int same = 1;
    for (int bin = 0; bin < BINS; bin++) same &= counts[bin] == expected[bin];
    return told(same);
}
