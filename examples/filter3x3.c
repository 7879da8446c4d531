// A 3x3 filter of an image of bytes that blurs it: weights 1 2 1, 2 4 2, 1 2 1, divided by 16 with rounding. Sums have 16
// bits; the last step divides, rounds and narrows at once. The edge of the image stays.
#include "example.h"

enum { WIDTH = 50, HEIGHT = 12, WEIGHT_BITS = 4 };

static const uint8_t weights[3][3] = {{1, 2, 1}, {2, 4, 2}, {1, 2, 1}};
static uint8_t from[HEIGHT][WIDTH], to[HEIGHT][WIDTH];

static void filter_row(int row) {
    size_t left = WIDTH - 2;
    for (size_t column = 1, vl; left > 0; left -= vl, column += vl) {
        vl = vsetvl_e8m2(left);
        vuint16m4_t sums = vmv_v_x_u16m4(0, vl);
        for (int i = 0; i < 3; i++)
            for (int j = 0; j < 3; j++) {
                vuint8m2_t pixels = vle8_v_u8m2(&from[row + i - 1][column + j - 1], vl);
                sums = vwmaccu_vx_u16m4(sums, weights[i][j], pixels, vl);
            }
        vse8_v_u8m2(&to[row][column], vnclipu_wx_u8m2(sums, WEIGHT_BITS, vl), vl);
    }
}

static uint8_t filtered(int row, int column) {
    uint32_t sum = 0;
    for (int i = 0; i < 3; i++)
        for (int j = 0; j < 3; j++) sum += weights[i][j] * from[row + i - 1][column + j - 1];
    return (uint8_t)((sum + (1 << (WEIGHT_BITS - 1))) >> WEIGHT_BITS);
}

int main(void) {
    uint32_t state = 5;
    for (int row = 0; row < HEIGHT; row++)
        for (int column = 0; column < WIDTH; column++) from[row][column] = (uint8_t)next_number(&state);
    __asm__ volatile("csrwi vxrm, 0"); // round to nearest, up at a half
    for (int row = 1; row < HEIGHT - 1; row++) filter_row(row);
    int same = 1;
    for (int row = 1; row < HEIGHT - 1; row++)
        for (int column = 1; column < WIDTH - 1; column++) same &= to[row][column] == filtered(row, column);
    return told(same);
}
