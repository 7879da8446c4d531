// Brightens pixels with saturation. The kernel is a plain loop; the compiler makes the vector instructions (fixed vectors of
// 128 bits, so the registers must have as many at least).
#include "example.h"

enum { COUNT = 800 };

static uint8_t pixels[COUNT], expected[COUNT];

__attribute__((noinline)) static void brighten(uint8_t *pixels, uint8_t by) {
    for (int i = 0; i < COUNT; i++) {
        uint16_t sum = (uint16_t)(pixels[i] + by);
        pixels[i] = sum > 255 ? 255 : (uint8_t)sum;
    }
}

int main(void) {
    const uint8_t by = 60;
    uint32_t state = 8;
    for (int i = 0; i < COUNT; i++) {
        pixels[i] = (uint8_t)next_number(&state);
        expected[i] = pixels[i] > 255 - by ? 255 : (uint8_t)(pixels[i] + by);
    }
    brighten(pixels, by);
    int same = 1;
    for (int i = 0; i < COUNT; i++) same &= pixels[i] == expected[i];
    return told(same);
}
