#include "bench.h"

static int16_t A[64];
static int32_t Seed = 1, R;

static void scan(void) {
    for (int I = 0; I < 64; I++) {
        Seed = (Seed * 137 + 29) % 9973;
        A[I] = Seed;
    }
    for (int I = 1; I < 64; I++) {
        int16_t K = A[I];
        int J = I - 1;
        while (J >= 0) {
            if (A[J] <= K)
                break;
            A[J + 1] = A[J];
            J--;
        }
        A[J + 1] = K;
    }
    R = A[0] * 10000 + A[63];
}

RESULT(R)
