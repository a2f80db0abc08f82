#include "bench.h"

static struct {
    int16_t Level, Inflow, Outflow;
    uint8_t Valve, High;
} T[51];
static int32_t R;

static void scan(void) {
    for (int I = 1; I <= 50; I++) {
        T[I].Inflow = I % 7 + 1;
        T[I].Outflow = T[I].Valve ? 9 : 0;
        T[I].Level += T[I].Inflow - T[I].Outflow;
        T[I].High = T[I].Level > 800;
        if (T[I].High)
            T[I].Valve = 1;
        if (T[I].Level < 100)
            T[I].Valve = 0;
        R = (R + T[I].Level) % 1000003;
    }
}

RESULT(R)
