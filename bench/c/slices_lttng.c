/* slices_lttng THREADS PAIRS -: the same two events by LTTng-UST, each with a track, and the first with a text. */
#include "slices_points.h"

#include "slices.h"

static void write_pairs(unsigned number, long pairs) {
    for (long pair = 0; pair < pairs; pair++) {
        lttng_ust_tracepoint(slices, begins, number + 1, "hello world text");
        lttng_ust_tracepoint(slices, ends, number + 1);
    }
}

int main(int argc, char **argv) {
    if (argc != 4) return 1;
    printf("%.1f 0\n", slices_time((unsigned)atoi(argv[1]), atol(argv[2])));
    return 0;
}
