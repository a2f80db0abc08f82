#include "bench.h"

static int16_t A[64], R;

static void scan(void) {
    R = 0;
    for (int16_t J = 1; J <= 100; J++)
        for (int16_t I = 0; I <= 63; I++) {
            A[I] = A[I] + I;
            if (A[I] > 1000) {
                A[I] -= 1000;
                R++;
            }
        }
}

RESULT(R)
