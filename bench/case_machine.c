#include "bench.h"

static int16_t S;
static int32_t R;

static void scan(void) {
    for (int N = 1; N <= 100; N++)
        switch (S) {
        case 0: S = 3; R++; break;
        case 1: S = 7; break;
        case 2:
        case 4: S++; R += 2; break;
        case 3: S = 2; break;
        case 5:
        case 6: S = 8 - S; R--; break;
        case 7: S = 4; break;
        default: S = S >= 8 && S <= 20 ? 0 : 1;
        }
}

RESULT(R)
