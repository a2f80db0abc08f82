#include "bench.h"

static int64_t X = 12345, Y, R;

static int64_t least(int64_t a, int64_t b) { return a < b ? a : b; }
static int64_t most(int64_t a, int64_t b) { return a > b ? a : b; }

static void scan(void) {
    for (int I = 1; I <= 100; I++) {
        X = (X * 1103515245 + 12345) % 2147483648LL;
        Y = most(least(X / 1000, 1000000), 17) - llabs(500000 - X % 1000000);
        R = least(most(R + Y, 0), 1000000000);
    }
}

RESULT(R)
