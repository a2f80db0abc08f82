#include "bench.h"

static uint8_t F[4001];
static int32_t R;

static void scan(void) {
    R = 0;
    for (int I = 2; I <= 4000; I++)
        F[I] = 1;
    for (int I = 2; I <= 4000; I++)
        if (F[I]) {
            R++;
            for (int J = I * I; J <= 4000; J += I)
                F[J] = 0;
        }
}

RESULT(R)
