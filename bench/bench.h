/* What each program needs: types, and a main function that runs as many scans as its word says and prints the result. */
#include <stdint.h>
#include <stdio.h>
#include <stdlib.h>

#define RESULT(value) \
    int main(int count, char **words) { \
        for (long left = count > 1 ? atol(words[1]) : 1; left > 0; left--) { \
            scan(); \
            __asm__ volatile("" ::: "memory"); \
        } \
        printf("%lld\n", (long long)(value)); \
    }
