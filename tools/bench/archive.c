/* 100,000 calls of the manager through the archive: the same ones that tools/bench/inside.main makes inside. */
#include <stdio.h>

#include "krowjyvan.h"

enum { ROUNDS = 25000, N = 1024, H = 256 };

static uint32_t p[N], d[KROWJYVAN_REGISTERS];

static int32_t call(uint32_t code, uint32_t d1, uint32_t a0)
{
    d[0] = code;
    d[1] = d1;
    d[2] = d[3] = d[5] = d[6] = d[7] = 0;
    d[4] = a0;
    return krowjyvan_call(p, N, KROWJYVAN_TRAP_1, d, KROWJYVAN_REGISTERS, NULL, 0);
}

int main(void)
{
    int all = krowjyvan_fresh(p, N, N, H) == KROWJYVAN_DONE;

    for (int i = 0; i < ROUNDS; i++) {
        int32_t asked = call(KROWJYVAN_MT_INF, 0, 0);
        int32_t taken = call(KROWJYVAN_MT_ALCHP, 100, 0);
        int32_t given = call(KROWJYVAN_MT_RECHP, 0, d[KROWJYVAN_A0]);
        int32_t free = call(KROWJYVAN_MT_FREE, 0, 0);
        all &= asked == 0 && taken == 0 && given == 0 && free == 0;
    }
    puts(all ? "done" : "failed");
    return 0;
}
