// Selects the numbers of a table that lie between two bounds, in their order: two comparisons, a mask, and one vcompress that
// packs what was found.
#include "example.h"

enum { COUNT = 600, LOW = 1 << 22, HIGH = 3 << 22 };

static uint32_t table[COUNT], found[COUNT], expected[COUNT];

static size_t select(size_t count, const uint32_t *table, uint32_t *found) {
    uint32_t *next = found;
    for (size_t vl; count > 0; count -= vl, table += vl) {
        vl = vsetvl_e32m4(count);
        vuint32m4_t numbers = vle32_v_u32m4(table, vl);
        vbool8_t above = vmsgeu_vx_u32m4_b8(numbers, LOW, vl);
        vbool8_t within = vmand_mm_b8(above, vmsltu_vx_u32m4_b8(numbers, HIGH, vl), vl);
        vuint32m4_t packed = vcompress_vm_u32m4(within, numbers, numbers, vl);
        size_t matches = vcpop_m_b8(within, vl);
        vse32_v_u32m4(next, packed, matches);
        next += matches;
    }
    return next - found;
}

int main(void) {
    uint32_t state = 6;
    size_t matches = 0;
    for (int i = 0; i < COUNT; i++) {
        table[i] = next_number(&state);
        if (table[i] >= LOW && table[i] < HIGH) expected[matches++] = table[i];
    }
    int same = select(COUNT, table, found) == matches;
    for (size_t i = 0; i < matches; i++) same &= found[i] == expected[i];
    return told(same);
}
