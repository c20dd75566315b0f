/* Holds the three functions of packaging/web/wide.c against a processor's own arithmetic of 128 bits, over pairs of numbers of which many
   have their bits at the edges. */
#include <stdint.h>
#include <stdio.h>

#define __multi3 ours_multi3
#define __ashlti3 ours_ashlti3
#define __lshrti3 ours_lshrti3
#include "../../packaging/web/wide.c"

static uint64_t state = 1;

static uint64_t drawn(void) {
    state ^= state << 13, state ^= state >> 7, state ^= state << 17;
    uint64_t edges[] = {0, 1, UINT32_MAX, UINT64_MAX, INT64_MAX, (uint64_t)1 << 32, (uint64_t)1 << 63};
    return state % 3 ? state : edges[(state >> 8) % 7];
}

static unsigned __int128 pair(void) {
    unsigned __int128 high = drawn();
    return high << 64 | drawn();
}

int main(void) {
    long passed = 0, failed = 0;
    for (int time = 0; time < 100000; time++) {
        unsigned __int128 a = pair(), b = pair();
        int by = (int)(drawn() % 128);
        int is_right = (unsigned __int128)ours_multi3((wide)a, (wide)b) == a * b && (unsigned __int128)ours_ashlti3((wide)a, by) == a << by
            && (unsigned __int128)ours_lshrti3((wide)a, by) == a >> by;
        passed += is_right, failed += !is_right;
    }
    printf("%ld passed, %ld failed\n", passed, failed);
    return failed != 0;
}
