// The product of two matrices of bytes, as in a layer of a quantised network. A row of the result is a sum of rows of b, each
// times one number of a: products of 16 bits, sums of 32.
#include "example.h"

enum { ROWS = 8, DEPTH = 24, COLUMNS = 40 };

static int8_t a[ROWS][DEPTH], b[DEPTH][COLUMNS];
static int32_t c[ROWS][COLUMNS], expected[ROWS][COLUMNS];

static void multiply(void) {
    for (int i = 0; i < ROWS; i++) {
        size_t left = COLUMNS;
        for (size_t j = 0, vl; left > 0; left -= vl, j += vl) {
            vl = vsetvl_e8m1(left);
            vint32m4_t sums = vmv_v_x_i32m4(0, vl);
            for (int k = 0; k < DEPTH; k++) {
                vint16m2_t products = vwmul_vx_i16m2(vle8_v_i8m1(&b[k][j], vl), a[i][k], vl);
                sums = vwadd_wv_i32m4(sums, products, vl);
            }
            vse32_v_i32m4(&c[i][j], sums, vl);
        }
    }
}

static void multiply_plainly(void) {
    for (int i = 0; i < ROWS; i++)
        for (int k = 0; k < DEPTH; k++)
            for (int j = 0; j < COLUMNS; j++) expected[i][j] += a[i][k] * b[k][j];
}

int main(void) {
    uint32_t state = 3;
    for (int i = 0; i < ROWS; i++)
        for (int k = 0; k < DEPTH; k++) a[i][k] = (int8_t)next_number(&state);
    for (int k = 0; k < DEPTH; k++)
        for (int j = 0; j < COLUMNS; j++) b[k][j] = (int8_t)next_number(&state);
    multiply();
    multiply_plainly();
    int same = 1;
    for (int i = 0; i < ROWS; i++)
        for (int j = 0; j < COLUMNS; j++) same &= c[i][j] == expected[i][j];
    return told(same);
}
