#include "bench.h"

static int32_t R;

__attribute__((noinline)) static int32_t Scale(int32_t V, int32_t Lo, int32_t Hi) {
    int32_t scaled = (V - Lo) * 1000 / (Hi - Lo);
    return scaled < 0 ? 0 : scaled > 1000 ? 1000 : scaled;
}

__attribute__((noinline)) static int32_t Mean(int32_t A, int32_t B) {
    return (Scale(A, 0, 4095) + Scale(B, 0, 4095)) / 2;
}

static void scan(void) {
    for (int I = 1; I <= 200; I++)
        R = (R + Mean(I * 13, I * 17)) % 100000;
}

RESULT(R)
