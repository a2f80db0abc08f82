#include "bench.h"

typedef struct {
    int32_t Out;
    uint8_t Done;
} Ramp;

static Ramp A, B, C, D, E, F, G, H;
static int32_t R;

__attribute__((noinline)) static void run(Ramp *s, int32_t Target, int32_t Rate) {
    if (s->Out < Target)
        s->Out = s->Out + Rate < Target ? s->Out + Rate : Target;
    else if (s->Out > Target)
        s->Out = s->Out - Rate > Target ? s->Out - Rate : Target;
    s->Done = s->Out == Target;
}

static void scan(void) {
    for (int N = 1; N <= 20; N++) {
        run(&A, 1000, 3), run(&B, A.Out, 5), run(&C, B.Out, 7), run(&D, C.Out, 2);
        run(&E, 0 - A.Out, 3), run(&F, E.Out, 1), run(&G, F.Out, 4), run(&H, G.Out + D.Out, 6);
        if (H.Done)
            R++;
    }
}

RESULT(R)
