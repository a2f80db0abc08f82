#include "bench.h"

static uint8_t X[16], Run, Stop, Alarm, Lamp, Motor, Ok;
static int16_t R;

static void scan(void) {
    for (int K = 0; K < 16; K++) {
        X[K] = (!X[K]) ^ Run;
        Ok = (X[K] & (!Alarm)) | Stop;
        Motor = (Run | Motor) & Ok & (!Stop);
        Lamp = Motor ^ X[K];
        if (Lamp & (Ok | Run))
            R++;
        Run = (!Motor) & (X[0] | (!Lamp));
        Alarm = Lamp & Motor & (!Run);
    }
}

RESULT(R)
