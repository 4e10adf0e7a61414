/* slices_ours THREADS PAIRS TRACE [behind]: slices by tracesmb_events.h, beside a thread that collects, reads and writes the trace; or one that
 * collects alone, where all is read behind the threads. */
#include "tracesmb_events.h"

#include <stdatomic.h>

#include "slices.h"

TRACESMB_DEFINE_HERE;

static tracesmb_session session = TRACESMB_EMPTY;
static tracesmb_writer writers[MOST_THREADS];
static struct tracesmb_setup setup;
static FILE *out;
static bool behind;
static atomic_bool ended;

static void must(uint32_t answer) {
    if (answer != TRACESMB_OK) exit(1);
}

static void write_pairs(unsigned number, long pairs) {
    tracesmb_trace_on(&writers[number], number + 1);
    for (long pair = 0; pair < pairs; pair++) {
        TRACESMB_SLICE("hello world text");
    }
    tracesmb_trace_on(NULL, 0);
}

/* Whether something was read. */
static bool read_some(void) {
    static uint8_t room[1 << 20];
    size_t given;
    must(tracesmb_session_read(&session, room, sizeof room, &given));
    if (fwrite(room, 1, given, out) != given) exit(1);
    return given > 0;
}

/* A millisecond passes between two rounds: a service that looks without a pause takes the lines of memory from the threads that write. */
static void *serve(void *unused) {
    (void)unused;
    while (!atomic_load(&ended)) {
        nanosleep(&(struct timespec){0, 1000000}, NULL);
        for (uint32_t producer = 1; producer <= setup.producers; producer++) {
            uint64_t taken;
            must(tracesmb_session_collect(&session, producer, false, &taken));
        }
        if (!behind) read_some();
    }
    return NULL;
}

int main(int argc, char **argv) {
    if (argc < 4) return 1;
    behind = argc > 4;
    out = fopen(argv[3], "wb");
    if (!out) return 1;
    unsigned threads = (unsigned)atoi(argv[1]);
    struct tracesmb_setup wanted = {threads, threads, 64, 32768, 4, 65536, TRACESMB_RING};
    setup = wanted;
    must(tracesmb_session_create(&session, &setup));
    for (unsigned n = 0; n < threads; n++) must(tracesmb_session_lend(&session, n + 1, &writers[n]));
    pthread_t service;
    if (pthread_create(&service, NULL, serve, NULL)) return 1;
    double nanoseconds = slices_time(threads, atol(argv[2]));
    atomic_store(&ended, true);
    pthread_join(service, NULL);

    struct tracesmb_losses losses[MOST_THREADS];
    uint64_t begun = 0, delivered = 0;
    for (unsigned n = 0; n < threads; n++) must(tracesmb_session_take_back(&session, &writers[n]));
    must(tracesmb_session_stop(&session));
    while (read_some()) {
    }
    must(tracesmb_session_close(&session, losses, threads));
    for (unsigned n = 0; n < threads; n++) {
        begun += losses[n].begun;
        delivered += losses[n].delivered;
    }
    printf("%.1f %llu\n", nanoseconds, (unsigned long long)(begun - delivered));
    return fclose(out) ? 1 : 0;
}
