// The dot product of two rows of 16-bit numbers: products of 32 bits are summed in as many lanes as four registers hold, and
// the lanes are added up once at the end.
#include "example.h"

enum { COUNT = 1000 };

static int16_t x[COUNT], y[COUNT];

static int32_t dot(size_t count, const int16_t *x, const int16_t *y) {
    size_t lanes = vsetvlmax_e32m4();
    vint32m4_t sums = vmv_v_x_i32m4(0, lanes);
    for (size_t vl; count > 0; count -= vl, x += vl, y += vl) {
        vl = vsetvl_e16m2(count);
        vint16m2_t vx = vle16_v_i16m2(x, vl);
        vint16m2_t vy = vle16_v_i16m2(y, vl);
        sums = vwmacc_vv_i32m4(sums, vx, vy, vl);
    }
    vint32m1_t zero = vmv_v_x_i32m1(0, 1);
    return vmv_x_s_i32m1_i32(vredsum_vs_i32m4_i32m1(zero, sums, zero, lanes));
}

int main(void) {
    uint32_t state = 2;
    int32_t expected = 0;
    for (int i = 0; i < COUNT; i++) {
        x[i] = (int16_t)next_number(&state);
        y[i] = (int16_t)next_number(&state);
        expected += x[i] * y[i];
    }
    return told(dot(COUNT, x, y) == expected);
}
