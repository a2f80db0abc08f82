#include "bench.h"

static uint16_t Crc = 0xFFFF;
static int32_t R;

static void scan(void) {
    for (int I = 0; I < 32; I++) {
        Crc ^= (uint16_t)(I * 7);
        for (int B = 1; B <= 8; B++) {
            uint16_t Low = Crc & 1;
            Crc >>= 1;
            if (Low)
                Crc ^= 0xA001;
        }
    }
    R = Crc;
}

RESULT(R)
