/* slices_copy THREADS PAIRS -: the bytes of a slice's two packets, with their times, copied into a buffer of the thread's own. */
#include <stdint.h>
#include <string.h>

#include "slices.h"

enum { ROOM = 1 << 20, MOST = 64 };

/* As many bytes as a packet of tracesmb_writer_event has with a name of sixteen bytes, and without one. */
static const size_t lengths[] = {37, 18};

static _Thread_local uint8_t room[ROOM];

static void write_pairs(unsigned number, long pairs) {
    uint8_t packet[MOST];
    size_t at = 0;
    memset(packet, (int)number, sizeof packet);
    for (long event = 0; event < 2 * pairs; event++) {
        double time = slices_now();
        memcpy(packet, &time, sizeof time);
        size_t length = lengths[event % 2];
        if (ROOM - at < length) at = 0;
        memcpy(room + at, packet, length);
        __asm__ volatile("" ::: "memory");
        at += length;
    }
}

int main(int argc, char **argv) {
    if (argc != 4) return 1;
    printf("%.1f 0\n", slices_time((unsigned)atoi(argv[1]), atol(argv[2])));
    return 0;
}
