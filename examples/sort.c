// Sorts as many numbers as a register group holds by exchanges of neighbours, all pairs of a round at once: a number goes to
// the lesser or the greater of the two by its place in its pair.
#include "example.h"

enum { MOST = 64 };

static int32_t numbers[MOST];

static void sort(size_t count, int32_t *numbers) {
    size_t vl = vsetvl_e32m2(count);
    vint32m2_t keys = vle32_v_i32m2(numbers, vl);
    vuint32m2_t places = vid_v_u32m2(vl);
    for (size_t round = 0; round < count; round++) {
        // the first of each pair, and the second; in odd rounds the first number has no partner
        vbool16_t firsts = vmseq_vx_u32m2_b16(vand_vx_u32m2(places, 1, vl), round & 1, vl);
        vbool16_t has_next = vmsltu_vx_u32m2_b16(places, count - 1, vl);
        vbool16_t has_before = vmsgtu_vx_u32m2_b16(places, 0, vl);
        vint32m2_t next = vslide1down_vx_i32m2(keys, 0, vl);
        vint32m2_t before = vslide1up_vx_i32m2(keys, 0, vl);
        vbool16_t takes_less = vmand_mm_b16(firsts, has_next, vl);
        vbool16_t takes_more = vmandn_mm_b16(has_before, firsts, vl);
        vint32m2_t lesser = vmin_vv_i32m2(keys, next, vl);
        vint32m2_t greater = vmax_vv_i32m2(keys, before, vl);
        keys = vmerge_vvm_i32m2(takes_less, keys, lesser, vl);
        keys = vmerge_vvm_i32m2(takes_more, keys, greater, vl);
    }
    vse32_v_i32m2(numbers, keys, vl);
}

int main(void) {
    uint32_t state = 7, sum = 0;
    size_t count = vsetvl_e32m2(MOST);
    for (size_t i = 0; i < count; i++) {
        numbers[i] = (int32_t)next_number(&state) - (1 << 23);
        sum += (uint32_t)numbers[i];
    }
    sort(count, numbers);
    int same = 1;
    for (size_t i = 0; i < count; i++) {
        same &= i == 0 || numbers[i - 1] <= numbers[i];
        sum -= (uint32_t)numbers[i];
    }
    return told(same && sum == 0);
}
