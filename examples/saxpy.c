// y = a x + y on integers: one multiply-add for as many elements as eight registers hold.
#include "example.h"

enum { COUNT = 1000 };

static int32_t x[COUNT], y[COUNT], expected[COUNT];

static void saxpy(size_t count, int32_t a, const int32_t *x, int32_t *y) {
    for (size_t vl; count > 0; count -= vl, x += vl, y += vl) {
        vl = vsetvl_e32m8(count);
        vint32m8_t vx = vle32_v_i32m8(x, vl);
        vint32m8_t vy = vle32_v_i32m8(y, vl);
        vse32_v_i32m8(y, vmacc_vx_i32m8(vy, a, vx, vl), vl);
    }
}

int main(void) {
    const int32_t a = -7;
    uint32_t state = 1;
    for (int i = 0; i < COUNT; i++) {
        x[i] = (int32_t)next_number(&state);
        y[i] = (int32_t)next_number(&state);
        expected[i] = a * x[i] + y[i];
    }
    saxpy(COUNT, a, x, y);
    int same = 1;
    for (int i = 0; i < COUNT; i++) same &= y[i] == expected[i];
    return told(same);
}
